// The functions that libcapi.a exports, as include/lafomeihu.h declares them. A slice crosses as its pointer and its length.
//
// Safety of every call in this crate: pointer and length are those of one Rust slice, and what is written to is held by a
// `&mut`, so that nothing overlaps it. The archive keeps no pointer.

pub type St = [u8; 48];
pub type Head = [u8; 6];
pub type TagBytes = [u8; 16];
pub type Counts = [usize; 3];

extern "C" {
    pub fn lafomeihu_hash(st: &mut St, head: &mut Head, rule: u8) -> u8;
    pub fn lafomeihu_new(
        st: &mut St, head: &mut Head, rule: u8, key: *const u8, key_len: usize,
        has_nonce: u8, nonce: *const u8, nonce_len: usize,
        has_id: u8, id: *const u8, id_len: usize,
        has_counter: u8, counter: *const u8, counter_len: usize, counts: &mut Counts,
    ) -> u8;

    pub fn lafomeihu_absorb(st: &mut St, head: &mut Head, bin: *const u8, n: usize, counts: &mut Counts) -> u8;
    pub fn lafomeihu_absorb_more(
        st: &mut St, head: &mut Head, bin: *const u8, n: usize, rate: usize, counts: &mut Counts,
    ) -> u8;
    pub fn lafomeihu_squeeze(st: &mut St, head: &mut Head, out: *mut u8, room: usize, counts: &mut Counts) -> u8;
    pub fn lafomeihu_squeeze_key(st: &mut St, head: &mut Head, out: *mut u8, room: usize, counts: &mut Counts) -> u8;
    pub fn lafomeihu_squeeze_more(st: &mut St, head: &mut Head, out: *mut u8, room: usize, counts: &mut Counts) -> u8;

    pub fn lafomeihu_absorb_key_and_nonce(
        st: &mut St, head: &mut Head, key: *const u8, key_len: usize,
        has_id: u8, id: *const u8, id_len: usize,
        has_nonce: u8, nonce: *const u8, nonce_len: usize,
        has_counter: u8, counter: *const u8, counter_len: usize, counts: &mut Counts,
    ) -> u8;
    pub fn lafomeihu_ratchet(st: &mut St, head: &mut Head, counts: &mut Counts) -> u8;
    pub fn lafomeihu_encrypt(
        st: &mut St, head: &mut Head, out: *mut u8, room: usize, bin: *const u8, n: usize, counts: &mut Counts,
    ) -> u8;
    pub fn lafomeihu_decrypt(
        st: &mut St, head: &mut Head, out: *mut u8, room: usize, bin: *const u8, n: usize, counts: &mut Counts,
    ) -> u8;
    pub fn lafomeihu_encrypt_in_place(st: &mut St, head: &mut Head, in_out: *mut u8, n: usize, counts: &mut Counts) -> u8;
    pub fn lafomeihu_decrypt_in_place(st: &mut St, head: &mut Head, in_out: *mut u8, n: usize, counts: &mut Counts) -> u8;

    pub fn lafomeihu_aead_encrypt_detached(
        st: &mut St, head: &mut Head, out: *mut u8, room: usize, has_bin: u8, bin: *const u8, n: usize,
        tag: &mut TagBytes, counts: &mut Counts,
    ) -> u8;
    pub fn lafomeihu_aead_encrypt(
        st: &mut St, head: &mut Head, out: *mut u8, room: usize, has_bin: u8, bin: *const u8, n: usize,
        counts: &mut Counts,
    ) -> u8;
    pub fn lafomeihu_aead_decrypt_detached(
        st: &mut St, head: &mut Head, out: *mut u8, room: usize, tag: &TagBytes, has_bin: u8, bin: *const u8, n: usize,
        counts: &mut Counts,
    ) -> u8;
    pub fn lafomeihu_aead_decrypt(
        st: &mut St, head: &mut Head, out: *mut u8, room: usize, bin: *const u8, n: usize, counts: &mut Counts,
    ) -> u8;
    pub fn lafomeihu_aead_encrypt_in_place_detached(
        st: &mut St, head: &mut Head, in_out: *mut u8, n: usize, tag: &mut TagBytes, counts: &mut Counts,
    ) -> u8;
    pub fn lafomeihu_aead_encrypt_in_place(
        st: &mut St, head: &mut Head, in_out: *mut u8, n: usize, counts: &mut Counts,
    ) -> u8;
    pub fn lafomeihu_aead_decrypt_in_place_detached(
        st: &mut St, head: &mut Head, in_out: *mut u8, n: usize, tag: &TagBytes, counts: &mut Counts,
    ) -> u8;
    pub fn lafomeihu_aead_decrypt_in_place(
        st: &mut St, head: &mut Head, in_out: *mut u8, n: usize, counts: &mut Counts,
    ) -> u8;
    pub fn lafomeihu_verify(tag: &TagBytes, bytes: &TagBytes) -> u8;

    pub fn lafomeihu_begin(st: &mut St, head: &mut Head, kind: u8) -> u8;
    pub fn lafomeihu_feed(
        st: &mut St, head: &mut Head, kind: u8, out: *mut u8, room: usize, piece: *const u8, n: usize, allowance: usize,
        counts: &mut Counts,
    ) -> u8;
    pub fn lafomeihu_finish_seal(st: &mut St, head: &mut Head, tag: &mut TagBytes, counts: &mut Counts) -> u8;
    pub fn lafomeihu_finish_open(st: &mut St, head: &mut Head, tag: &TagBytes, counts: &mut Counts) -> u8;

    pub fn lafomeihu_xoodoo_permute(st: &mut St);
    pub fn lafomeihu_xoodoo_inverse(st: &mut St);
    pub fn lafomeihu_xoodoo_rounds(st: &mut St, n: usize) -> u8;
    pub fn lafomeihu_xoodoo_unrounds(st: &mut St, n: usize) -> u8;
    pub fn lafomeihu_xoodoo_add_byte(st: &mut St, byte: u8, offset: usize) -> u8;
    pub fn lafomeihu_xoodoo_add_bytes(st: &mut St, bin: *const u8, n: usize) -> u8;
    pub fn lafomeihu_xoodoo_extract_bytes(st: &St, out: *mut u8, room: usize) -> u8;

    pub fn lafomeihu_back_absorb(st: &mut St, head: &mut Head, phase: u8, bin: *const u8, n: usize) -> u8;
    pub fn lafomeihu_back_absorb_more(
        st: &mut St, head: &mut Head, phase: u8, bin: *const u8, n: usize, rate: usize,
    ) -> u8;
    pub fn lafomeihu_back_squeeze(st: &mut St, head: &mut Head, phase: u8, n: usize) -> u8;
    pub fn lafomeihu_back_squeeze_key(st: &mut St, head: &mut Head, phase: u8, n: usize) -> u8;
    pub fn lafomeihu_back_squeeze_more(st: &mut St, head: &mut Head, phase: u8, n: usize) -> u8;
    pub fn lafomeihu_back_key(
        st: &mut St, head: &mut Head, phase: u8, key: *const u8, key_len: usize,
        has_id: u8, id: *const u8, id_len: usize,
        has_nonce: u8, nonce: *const u8, nonce_len: usize,
        has_counter: u8, counter: *const u8, counter_len: usize,
    ) -> u8;
    pub fn lafomeihu_back_encrypt(st: &mut St, head: &mut Head, phase: u8, plaintext: *const u8, n: usize) -> u8;
    pub fn lafomeihu_back_seal(st: &mut St, head: &mut Head, phase: u8, plaintext: *const u8, n: usize) -> u8;
}
