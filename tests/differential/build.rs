// Links the archive that `make lib` writes; with SHAWM_SHARED, the libshawm.so in that folder, for tests/faults.
fn main() {
    let root = std::env::var("CARGO_MANIFEST_DIR").unwrap();
    println!("cargo:rerun-if-env-changed=SHAWM_SHARED");
    if let Ok(folder) = std::env::var("SHAWM_SHARED") {
        println!("cargo:rustc-link-search=native={folder}");
        println!("cargo:rustc-link-lib=dylib=shawm");
        return;
    }
    println!("cargo:rustc-link-search=native={root}/../../build");
    println!("cargo:rustc-link-lib=static=shawm");
    println!("cargo:rerun-if-changed={root}/../../build/libshawm.a");
}
