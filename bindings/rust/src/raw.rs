//! The declarations of kamzirda.h that the safe calls are made of.

#[repr(C)]
#[derive(Clone, Copy, Default)]
pub struct Bits {
    pub offset: usize,
    pub len: usize,
    pub unused_bits: u32,
}

#[repr(C)]
#[derive(Clone, Copy, Default)]
pub struct Id {
    pub domain_offset: usize,
    pub domain_len: usize,
    pub path_offset: usize,
    pub path_len: usize,
}

#[repr(C)]
#[derive(Clone, Copy, Default)]
pub struct Counts {
    pub entries: usize,
    pub bundles: usize,
}

#[repr(C)]
#[derive(Clone, Copy, Default)]
pub struct Part {
    pub offset: usize,
    pub len: usize,
}

#[repr(C)]
#[derive(Clone, Copy, Default)]
pub struct Entry {
    pub id: Part,
    pub private_key: Part,
    pub public_key: Part,
    pub fingerprint: [u8; 32],
}

#[repr(C)]
#[derive(Clone, Copy, Default)]
pub struct Room {
    pub count: usize,
    pub bytes: usize,
}

extern "C" {
    pub fn kamzirda_version() -> u32;
    pub fn kamzirda_rule_text(rule: u32, text: *mut u8, room: usize, len: *mut usize) -> u32;
    pub fn kamzirda_base64_encode(alphabet: u32, bytes: *const u8, n: usize, text: *mut u8, room: usize, len: *mut usize) -> u32;
    pub fn kamzirda_base64_decode(alphabet: u32, text: *const u8, n: usize, bytes: *mut u8, room: usize, len: *mut usize) -> u32;
    pub fn kamzirda_spki_fingerprint(document: *const u8, n: usize, digest: *mut [u8; 32], rule: *mut u32) -> u32;
    pub fn kamzirda_spki_oid(document: *const u8, n: usize, text: *mut u8, room: usize, len: *mut usize, rule: *mut u32) -> u32;
    pub fn kamzirda_spki_bits(document: *const u8, n: usize, bits: *mut Bits, rule: *mut u32) -> u32;
    pub fn kamzirda_spiffe_id(text: *const u8, n: usize, id: *mut Id, rule: *mut u32) -> u32;
    pub fn kamzirda_update_check(text: *const u8, n: usize, width: usize, counts: *mut Counts, rule: *mut u32) -> u32;
    pub fn kamzirda_update_entries(
        text: *const u8,
        n: usize,
        width: usize,
        entries: *mut Entry,
        entries_room: usize,
        buffer: *mut u8,
        buffer_room: usize,
        room: *mut Room,
        rule: *mut u32,
    ) -> u32;
}
