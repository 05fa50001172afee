// Links the archive of `crates/measure` that `make bench` makes, and to `wrap` the library too. PLACE, from
// 0 to 3, moves all code by so many times 16 octets.
fn main() {
    let root = std::env::var("CARGO_MANIFEST_DIR").unwrap();
    println!("cargo:rustc-link-search=native={root}/../target/staticlib");
    println!("cargo:rustc-link-lib=static=measure");
    println!("cargo:rustc-link-arg-bin=wrap={root}/../build/libshawm.a");
    println!("cargo:rerun-if-changed={root}/../target/staticlib/libmeasure.a");
    println!("cargo:rerun-if-changed={root}/../build/libshawm.a");
    println!("cargo:rerun-if-env-changed=PLACE");
    let place: usize = std::env::var("PLACE").map_or(0, |p| p.parse().unwrap());
    println!("cargo:rustc-env=SHIFT={}", 16 * (place % 4));
}
