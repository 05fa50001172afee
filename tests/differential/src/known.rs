//! Known answers, by name. Those of the papers show that the rules in aes.rs and keywrap.rs are right; those of OpenSSL
//! are held against the library too. Those of the index are in known_index.rs.

use crate::aes::{inverse, times, Aes};
use crate::case::{from_hex, hex, Case};
use crate::compare::Bench;
use crate::keywrap;
use crate::known_index;
use crate::sweep::{run, Swept};

pub fn all(bench: &mut Bench) -> Swept {
    field();
    fips_197();
    rfc_3394();
    rfc_5649();
    openssl(bench)?;
    known_index::all(bench)
}

fn octets(hex: &str) -> Vec<u8> {
    from_hex(&hex.replace(' ', "")).unwrap()
}

/// Ends the program: the rules here are wrong, not the library.
fn holds(name: &str, got: &[u8], wanted: &str) {
    assert_eq!(hex(got), wanted.replace(' ', ""), "{name}");
}

/// What an inverse is (section 4.2), of every element.
fn field() {
    assert_eq!(inverse(0), 0);
    assert!((1..=255).all(|octet| times(octet, inverse(octet)) == 1), "FIPS 197, section 4.2");
}

fn fips_197() {
    let aes = Aes::new(&octets("2b7e151628aed2a6abf7158809cf4f3c"));
    holds("FIPS 197, appendix A.1", &aes.schedule(), EXPANDED);
    block("FIPS 197, appendix B", &aes, "3243f6a8885a308d313198a2e0370734", "3925841d02dc09fbdc118597196a0b32");

    let plaintext = "00112233445566778899aabbccddeeff";
    let aes = Aes::new(&octets("000102030405060708090a0b0c0d0e0f"));
    block("FIPS 197, appendix C.1", &aes, plaintext, "69c4e0d86a7b0430d8cdb78070b4c55a");
    let aes = Aes::new(&octets("000102030405060708090a0b0c0d0e0f1011121314151617"));
    block("FIPS 197, appendix C.2", &aes, plaintext, "dda97ca4864cdfe06eaf70a0ec0d7191");
}

fn block(name: &str, aes: &Aes, plaintext: &str, ciphertext: &str) {
    holds(name, &aes.encrypt(octets(plaintext).try_into().unwrap()), ciphertext);
    holds(name, &aes.decrypt(octets(ciphertext).try_into().unwrap()), plaintext);
}

const EXPANDED: &str = "\
    2b7e1516 28aed2a6 abf71588 09cf4f3c a0fafe17 88542cb1 23a33939 2a6c7605 f2c295f2 7a96b943 5935807a 7359f67f \
    3d80477d 4716fe3e 1e237e44 6d7a883b ef44a541 a8525b7f b671253b db0bad00 d4d1c6f8 7c839d87 caf2b8bc 11f915bc \
    6d88a37a 110b3efd dbf98641 ca0093fd 4e54f70e 5f5fc9f3 84a64fb2 4ea6dc4f ead27321 b58dbad2 312bf560 7f8d292f \
    ac7766f3 19fadc21 28d12941 575c006e d014f9a8 c9ee2589 e13f0cc8 b6630ca6";

/// Section 4.1: 128 bits of key data with a 128-bit key, under the initial value of section 2.2.3.1.
fn rfc_3394() {
    let aes = Aes::new(&octets("000102030405060708090a0b0c0d0e0f"));
    let text = "a6a6a6a6a6a6a6a6 00112233445566778899aabbccddeeff";
    let ciphertext = "1fa68b0a8112b447 aef34bd8fb5a7b82 9d3e862371d2cfe5";
    holds("RFC 3394, section 4.1", &keywrap::wrap_registers(&aes, &octets(text)), ciphertext);
    holds("RFC 3394, section 4.1", &keywrap::unwrap_registers(&aes, &octets(ciphertext)), text);
}

/// Section 6: twenty octets, and seven, which are one block; both with a 192-bit key.
fn rfc_5649() {
    let aes = Aes::new(&octets("5840df6e29b02af1 ab493b705bf16ea1 ae8338f4dcc176a8"));
    for (plaintext, ciphertext) in [
        (
            "c37b7e6492584340 bed1220780894115 5068f738",
            "138bdeaa9b8fa7fc 61f97742e72248ee 5ae6ae5360d1ae6a 5f54f373fa543b6a",
        ),
        ("466f7250617369", "afbeb0f07dfbf541 9200f2ccb50bb24f"),
    ] {
        let text = keywrap::laid_out(&octets(plaintext));
        holds("RFC 5649, section 6", &keywrap::closed(&aes, &text), ciphertext);
    }
}

/// What `openssl enc -id-aes128-wrap-pad -K 000102030405060708090a0b0c0d0e0f -iv a65959a6`, of OpenSSL 3.0.19, wrote
/// for the octets 01, 02 and so on: how many, and its ciphertext.
const BY_OPENSSL: [(u8, &str); 7] = [
    (1, "354adcce4f3b9a3ecc942d83cf9f216f"),
    (7, "70564bf7ddda810494ca98abc26b40ec"),
    (8, "368140daa57e23d73c8ddc09a5dcfd61"),
    (9, "985ec99293d5372df44ec6aee1e70000db3852caaacb3509"),
    (16, "7456260d5791e3738a0dc6ff6bcc91fba3c73ad0b6474d22"),
    (
        239,
        "53bde4a7de2b97602858bf957661d735f80be2f3530f4dfffb0774dea5bd9f63831d6a163d7ee97a\
         2c1adc1f64b8d0d7a403c20c127e597f663bf23bfe10a928dc8d529e04bcaf514bbe8a05f7705ce0\
         c0eae826f31ca006800ef0a722ea6d6de6c6697fa922ccf83357a75cba9d3f76dde23527294beb47\
         d9911dd8b81a222234a14a6dd2cbb05acd3225ea1e7bde1bdbe84f60c71eb8bcceb9a08c0ac743a9\
         73316150a80f443cf0a14614d84f984df3dbf0529003864d23fceb8d4c0f3910795bfc62c2e5c856\
         204d01ec12d8515ca191d8432979b27e3d7a70020503a36c53dd2dfef59a9565109730e7125ad642\
         ef8bd28ac5484e97",
    ),
    (
        240,
        "3a5cef076e8c432c27b53972ab1912d692f7efebab1cfb80ec8a2ec985831efdce4fda2e749b297e\
         d4cb114d7128355801fa2614cc65ae85b896605708aa523bd13438f1fe6cb6437a787fbc5b00a38a\
         5e947e11b8b27b3e7b71fffe503a33d3def995e8490577f2e30480be73f2bddeecf7705bd03daab2\
         7a5d88e4f97313d8449abe05b2f11d26f8c7e17bc899b3859e39eaea83cf27ee2baa4418fe362dc0\
         18422ce4f59699cd971d6cb5f37a6b0594727f212b7d1276708fdd5993626982c7f23ec9e84a54ce\
         e7c3cdd63ef692b044c55ae83b95d64528a5fc5050b8a7455ed9d8865841f3148dfb3239aedad7a1\
         f6ff455cf07f5a37",
    ),
];

/// A case that runs has the library's answer equal to that of the rules, which is held to the ciphertext here.
fn openssl(bench: &mut Bench) -> Swept {
    let key = octets("000102030405060708090a0b0c0d0e0f");
    for (n, by_openssl) in BY_OPENSSL {
        let plaintext: Vec<u8> = (1..=n).collect();
        let ciphertext = octets(by_openssl);
        let name = format!("OpenSSL's ciphertext of {n} octets");
        holds(&name, &keywrap::wrap(&key, &plaintext, 248).0.unwrap(), by_openssl);
        holds(&name, &keywrap::unwrap(&key, &ciphertext, 240).0.unwrap(), &hex(&plaintext));
        run(bench, Case::Wrap { key: key.clone(), plaintext, room: 248 })?;
        run(bench, Case::Unwrap { key: key.clone(), ciphertext, room: 240 })?;
    }
    Ok(())
}
