//! The library through its C interface: pointer and length for each stretch, numbers for the rest.

use crate::paper::Answer;
use crate::registers::call;

extern "C" {
    pub fn shawm_sort(packet: *const u8, n: usize) -> u32;
    pub fn shawm_read(octets: *const u8, n: usize) -> u32;
    pub fn shawm_taken(octets: *const u8, n: usize) -> usize;
    pub fn shawm_field_start(octets: *const u8, n: usize, field: u32) -> usize;
    pub fn shawm_field_length(octets: *const u8, n: usize, field: u32) -> usize;
    pub fn shawm_field_number(octets: *const u8, n: usize, field: u32) -> u32;
    pub fn shawm_write_supported_profiles(
        version: u8,
        list: *const u8,
        list_n: usize,
        out: *mut u8,
        out_n: usize,
    ) -> u32;
    pub fn shawm_write_unsupported_version(version: u8, out: *mut u8, out_n: usize) -> u32;
    pub fn shawm_write_media_keys(
        id: *const u8,
        id_n: usize,
        profile: u16,
        mki: *const u8,
        mki_n: usize,
        client_key: *const u8,
        client_key_n: usize,
        server_key: *const u8,
        server_key_n: usize,
        client_salt: *const u8,
        client_salt_n: usize,
        server_salt: *const u8,
        server_salt_n: usize,
        out: *mut u8,
        out_n: usize,
    ) -> u32;
    pub fn shawm_write_tunneled_dtls(
        id: *const u8,
        id_n: usize,
        dtls: *const u8,
        dtls_n: usize,
        out: *mut u8,
        out_n: usize,
    ) -> u32;
    pub fn shawm_write_endpoint_disconnect(id: *const u8, id_n: usize, out: *mut u8, out_n: usize) -> u32;
    pub fn shawm_tag(packet: *const u8, n: usize) -> u32;
    pub fn shawm_tag_start(packet: *const u8, n: usize, part: u32) -> usize;
    pub fn shawm_tag_length(packet: *const u8, n: usize, part: u32) -> usize;
    pub fn shawm_tag_number(packet: *const u8, n: usize, field: u32) -> u32;
    pub fn shawm_page_count(page: *const u8, n: usize) -> u32;
    pub fn shawm_page_entry(page: *const u8, n: usize, number: usize) -> u32;
    pub fn shawm_page_endpoint(page: *const u8, n: usize, number: usize) -> u32;
    pub fn shawm_wrap(
        key: *const u8,
        key_length: usize,
        plaintext: *const u8,
        plaintext_length: usize,
        out: *mut u8,
        room: usize,
    ) -> u32;
    pub fn shawm_unwrap(
        key: *const u8,
        key_length: usize,
        ciphertext: *const u8,
        ciphertext_length: usize,
        out: *mut u8,
        room: usize,
    ) -> u32;
    pub fn shawm_index_estimate(roc: u32, highest: u16, sequence: u16) -> u32;
    pub fn shawm_index_number(roc: u32, highest: u16, sequence: u16) -> u64;
    pub fn shawm_index_kept_roc(roc: u32, highest: u16, sequence: u16) -> u32;
    pub fn shawm_index_kept_highest(roc: u32, highest: u16, sequence: u16) -> u32;
}

/// Estimate, number, ROC and highest number of a packet. The registers that the three numbers are in have the bits of
/// `above` above them.
pub fn index(roc: u32, highest: u16, sequence: u16, above: u64) -> [u64; 4] {
    if above == 0 {
        return unsafe {
            [
                shawm_index_estimate(roc, highest, sequence).into(),
                shawm_index_number(roc, highest, sequence),
                shawm_index_kept_roc(roc, highest, sequence).into(),
                shawm_index_kept_highest(roc, highest, sequence).into(),
            ]
        };
    }
    let registers =
        [above << 32 | roc as u64, above << 16 | highest as u64, above.rotate_left(32) << 16 | sequence as u64];
    // Of an answer of 32 bits too the rest of the register is open.
    let number = |function| unsafe { call(function, registers) };
    let short = |function| number(function) as u32 as u64;
    [
        short(shawm_index_estimate as *const ()),
        number(shawm_index_number as *const ()),
        short(shawm_index_kept_roc as *const ()),
        short(shawm_index_kept_highest as *const ()),
    ]
}

/// An answer as a number of the interface: the top bit and the refusal's number in the low octet, or the value.
/// Bits 8 to 30 of a refusal are zero.
pub fn as_number(answer: Answer) -> u32 {
    match answer {
        Answer::Value(value) => value,
        Answer::Refused(number) => 1 << 31 | number as u32,
    }
}
