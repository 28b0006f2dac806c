/* Lafomeihu for C11 and C++: Xoodyak sessions and the permutation Xoodoo, on the caller's memory. Link with libcapi.a.
 *
 * A session is the caller's: 48 bytes `st` and 6 bytes `head`. Make it with lafomeihu_hash or lafomeihu_new, whatever the
 * memory held; after that, only these functions write to it. Copying both copies the session.
 *
 *   head[0]  mode: 0 Hash, 1 Keyed
 *   head[1]  phase: 0 Up, 1 Down
 *   head[2]  rule for empty messages: 0 crate (an empty message does nothing), 1 specification (it has one empty block)
 *   head[3]  1 while a message handed over bit by bit is unfinished
 *   head[4]  that message's kind: 0 to seal, 1 to open
 *   head[5]  its place
 *
 * A slice is a pointer and a number of bytes. The pointer is not NULL, also where the number is 0. What a call writes to
 * (session, output, tag, counts) overlaps nothing else that the call is given. An optional argument is a flag and a
 * slice: the flag is 0 absent or 1 present; where it says absent, the slice counts as empty whatever it holds.
 *
 * `counts` is filled by the call: bytes missing (with number 3), bytes taken (by lafomeihu_feed), permutations spent.
 *
 * Each call answers a number: 0, or the reason of the refusal. After 1, 2, 3 and 5 to 11 the session (lafomeihu_new's
 * aside), the Xoodoo state and each buffer hold what they held; a tag or a count in a refused answer is 0 unless a rule
 * names it. After 40 nothing is written at all.
 */
#ifndef LAFOMEIHU_H
#define LAFOMEIHU_H

#include <stddef.h>
#include <stdint.h>

#ifdef __cplusplus
extern "C" {
#endif

/* The numbers. Where several hold, the order is 40, 7, 1, 5, then 2, 8, 9, then 10, 3, 4. */
enum {
    LAFOMEIHU_OK = 0,
    LAFOMEIHU_KEY_REQUIRED = 1,      /* a keyed-only call meets a Hash session */
    LAFOMEIHU_KEY_TOO_LONG = 2,      /* the key alone exceeds 43 bytes */
    LAFOMEIHU_OUTPUT_TOO_SHORT = 3,  /* the output is shorter than its result; counts[0] bytes are missing */
    LAFOMEIHU_TAG_MISMATCH = 4,      /* the tag differs in any of its 128 bits */
    LAFOMEIHU_BAD_RATE = 5,          /* the rate is 0 or above the session's absorb rate, even on empty input */
    LAFOMEIHU_OUTSIDE_STATE = 6,     /* a byte offset above 47, or a run longer than 48 */
    LAFOMEIHU_UNFINISHED = 7,        /* a message is unfinished; for feed and finish: none is begun, or one of the other kind */
    LAFOMEIHU_KEY_ID_TOO_LONG = 8,   /* the key fits, but key and key id together exceed 43 */
    LAFOMEIHU_NONCE_TOO_LONG = 9,    /* only the nonce breaks it: key + 1 + key id + nonce exceeds 44 */
    LAFOMEIHU_NO_ROOM_FOR_TAG = 10,  /* the input of a combined open, or the buffer of a combined in-place call, is under 16 */
    LAFOMEIHU_TOO_MANY_ROUNDS = 11,  /* a count of rounds is above 12 */
    LAFOMEIHU_UNSOUND = 40           /* one of head[0] to head[4], a rule, kind, phase or flag is neither 0 nor 1: nothing changes */
};

enum { LAFOMEIHU_STATE_BYTES = 48, LAFOMEIHU_HEAD_BYTES = 6, LAFOMEIHU_TAG_BYTES = 16 };
enum { LAFOMEIHU_RULE_CRATE = 0, LAFOMEIHU_RULE_SPECIFICATION = 1 };
enum { LAFOMEIHU_SEAL = 0, LAFOMEIHU_OPEN = 1 };
enum { LAFOMEIHU_UP = 0, LAFOMEIHU_DOWN = 1 };

/* Making a session */

/* A fresh Hash session: all zero, phase Up. Rates: absorb and squeeze 16. */
uint8_t lafomeihu_hash(uint8_t st[48], uint8_t head[6], uint8_t rule);

/* A Keyed session: a fresh one, then the key call of lafomeihu_absorb_key_and_nonce. Rates: absorb 44, squeeze 24. Nonce
 * comes before key id here. Refused with 2, 8 or 9, it hands back a fresh Hash session of the same rule. */
uint8_t lafomeihu_new(uint8_t st[48], uint8_t head[6], uint8_t rule,
                      const uint8_t *key, size_t key_len,
                      uint8_t has_nonce, const uint8_t *nonce, size_t nonce_len,
                      uint8_t has_id, const uint8_t *id, size_t id_len,
                      uint8_t has_counter, const uint8_t *counter, size_t counter_len,
                      size_t counts[3]);

/* Absorbing and squeezing, in either mode */

/* Absorbs at the session's absorb rate with colour 03. An empty input has one empty block. */
uint8_t lafomeihu_absorb(uint8_t st[48], uint8_t head[6], const uint8_t *bin, size_t bin_len, size_t counts[3]);

/* Absorbs further blocks at the rate given, with colour 00: per block Up, then Down. Nothing happens on empty input.
 * 5 where the rate is 0 or above the session's absorb rate. */
uint8_t lafomeihu_absorb_more(uint8_t st[48], uint8_t head[6], const uint8_t *bin, size_t bin_len, size_t rate,
                              size_t counts[3]);

/* Fills the output with squeezed bytes, colour 40. */
uint8_t lafomeihu_squeeze(uint8_t st[48], uint8_t head[6], uint8_t *out, size_t out_len, size_t counts[3]);

/* The same with colour 20; in Hash it equals lafomeihu_squeeze. */
uint8_t lafomeihu_squeeze_key(uint8_t st[48], uint8_t head[6], uint8_t *out, size_t out_len, size_t counts[3]);

/* Squeezes further blocks: per block Down of nothing, then Up. Nothing happens on an empty output. */
uint8_t lafomeihu_squeeze_more(uint8_t st[48], uint8_t head[6], uint8_t *out, size_t out_len, size_t counts[3]);

/* Keyed-only calls: 1 in Hash */

/* The key call: key, t and the one-byte length of t are absorbed at 44 with 02, where t is the key id where one is given,
 * the nonce otherwise. If a key id is given, the nonce (empty if absent) is absorbed at 44 with 00. If a counter is given,
 * it is absorbed at rate 1 with 00, even if empty. On a used session the same steps run from its phase. Key id comes before
 * nonce here. */
uint8_t lafomeihu_absorb_key_and_nonce(uint8_t st[48], uint8_t head[6],
                                       const uint8_t *key, size_t key_len,
                                       uint8_t has_id, const uint8_t *id, size_t id_len,
                                       uint8_t has_nonce, const uint8_t *nonce, size_t nonce_len,
                                       uint8_t has_counter, const uint8_t *counter, size_t counter_len,
                                       size_t counts[3]);

/* Squeezes 16 bytes with 10 and absorbs them with 00, so that bytes 0 to 15 become zero: there is no way back from it. */
uint8_t lafomeihu_ratchet(uint8_t st[48], uint8_t head[6], size_t counts[3]);

/* Encrypts bin into the front of the output; bytes past the result keep what they held. An empty message follows the
 * session's rule. 3 where the output is shorter than bin. */
uint8_t lafomeihu_encrypt(uint8_t st[48], uint8_t head[6], uint8_t *out, size_t out_len,
                          const uint8_t *bin, size_t bin_len, size_t counts[3]);

/* Decrypts bin into the front of the output, likewise. No tag is looked at. */
uint8_t lafomeihu_decrypt(uint8_t st[48], uint8_t head[6], uint8_t *out, size_t out_len,
                          const uint8_t *bin, size_t bin_len, size_t counts[3]);

/* The same two on one buffer. */
uint8_t lafomeihu_encrypt_in_place(uint8_t st[48], uint8_t head[6], uint8_t *in_out, size_t in_out_len, size_t counts[3]);
uint8_t lafomeihu_decrypt_in_place(uint8_t st[48], uint8_t head[6], uint8_t *in_out, size_t in_out_len, size_t counts[3]);

/* Sealing: encrypt, then squeeze a 16-byte tag. Opening: decrypt, then compare the tag. Combined forms put the tag after the
 * ciphertext. After 4 the session stands advanced past the tag, and the text is zeroed as said at each form. */

/* Seals bin into the front of the output and hands out the tag. */
uint8_t lafomeihu_aead_encrypt_detached(uint8_t st[48], uint8_t head[6], uint8_t *out, size_t out_len,
                                        uint8_t has_bin, const uint8_t *bin, size_t bin_len, uint8_t tag[16],
                                        size_t counts[3]);

/* Seals bin into the front of the output, the tag after it: the result has bin_len + 16 bytes. */
uint8_t lafomeihu_aead_encrypt(uint8_t st[48], uint8_t head[6], uint8_t *out, size_t out_len,
                               uint8_t has_bin, const uint8_t *bin, size_t bin_len, size_t counts[3]);

/* Opens bin into the front of the output if the tag is right. 4 zeroes the whole output, also past the message. */
uint8_t lafomeihu_aead_decrypt_detached(uint8_t st[48], uint8_t head[6], uint8_t *out, size_t out_len,
                                        const uint8_t tag[16], uint8_t has_bin, const uint8_t *bin, size_t bin_len,
                                        size_t counts[3]);

/* The same with the tag as the last 16 bytes of bin; 10 where bin is under 16. */
uint8_t lafomeihu_aead_decrypt(uint8_t st[48], uint8_t head[6], uint8_t *out, size_t out_len,
                               const uint8_t *bin, size_t bin_len, size_t counts[3]);

/* Seals the buffer where it lies and hands out the tag. */
uint8_t lafomeihu_aead_encrypt_in_place_detached(uint8_t st[48], uint8_t head[6], uint8_t *in_out, size_t in_out_len,
                                                 uint8_t tag[16], size_t counts[3]);

/* Seals all but the last 16 bytes of the buffer, which receive the tag; 10 where the buffer is under 16. */
uint8_t lafomeihu_aead_encrypt_in_place(uint8_t st[48], uint8_t head[6], uint8_t *in_out, size_t in_out_len,
                                        size_t counts[3]);

/* Opens the buffer where it lies if the tag is right. 4 zeroes the buffer. */
uint8_t lafomeihu_aead_decrypt_in_place_detached(uint8_t st[48], uint8_t head[6], uint8_t *in_out, size_t in_out_len,
                                                 const uint8_t tag[16], size_t counts[3]);

/* Opens all but the last 16 bytes of the buffer, which hold the tag and keep it; the plaintext is the buffer without them.
 * 10 where the buffer is under 16. 4 zeroes all but the last 16 bytes. */
uint8_t lafomeihu_aead_decrypt_in_place(uint8_t st[48], uint8_t head[6], uint8_t *in_out, size_t in_out_len,
                                        size_t counts[3]);

/* 0 where the two are equal in all 128 bits, 4 otherwise. */
uint8_t lafomeihu_verify(const uint8_t tag[16], const uint8_t bytes[16]);

/* A message handed over bit by bit: begin, feed as often as wanted, finish. For any cuts, joined output, tag and end session
 * equal the one-call form. Until it is finished every other call on the session answers 7; a step back is no such call. */

/* Begins a message to seal (kind 0) or to open (kind 1). 1 in Hash. */
uint8_t lafomeihu_begin(uint8_t st[48], uint8_t head[6], uint8_t kind);

/* Takes bytes from the front of the piece until another permutation than the allowance has would be needed, and writes as
 * many to the output. counts[1] says how many were taken; offer the rest again. An opened text is not to be trusted before
 * lafomeihu_finish_open answers 0. 3 where the output is shorter than the piece. */
uint8_t lafomeihu_feed(uint8_t st[48], uint8_t head[6], uint8_t kind, uint8_t *out, size_t out_len,
                       const uint8_t *piece, size_t piece_len, size_t allowance, size_t counts[3]);

/* Ends a sealed message and hands out its tag. It spends one permutation; two where no bytes were fed and the rule is the
 * specification's. */
uint8_t lafomeihu_finish_seal(uint8_t st[48], uint8_t head[6], uint8_t tag[16], size_t counts[3]);

/* Ends an opened message: 0 where the tag is right, 4 otherwise. What the feeds handed out is not zeroed. */
uint8_t lafomeihu_finish_open(uint8_t st[48], uint8_t head[6], const uint8_t tag[16], size_t counts[3]);

/* Xoodoo, on 48 bytes */

/* The permutation of twelve rounds, and its inverse. */
void lafomeihu_xoodoo_permute(uint8_t st[48]);
void lafomeihu_xoodoo_inverse(uint8_t st[48]);

/* The last n rounds of the twelve, and their inverse; 0 rounds change nothing. 11 where n is above 12. */
uint8_t lafomeihu_xoodoo_rounds(uint8_t st[48], size_t n);
uint8_t lafomeihu_xoodoo_unrounds(uint8_t st[48], size_t n);

/* Adds (xors) a byte at the offset. 6 where the offset is above 47. */
uint8_t lafomeihu_xoodoo_add_byte(uint8_t st[48], uint8_t byte, size_t offset);

/* Adds (xors) a run of bytes from byte 0 on. 6 where it is longer than 48. */
uint8_t lafomeihu_xoodoo_add_bytes(uint8_t st[48], const uint8_t *bin, size_t bin_len);

/* Copies the first bytes of the state to the output. 6 where the output is longer than 48. */
uint8_t lafomeihu_xoodoo_extract_bytes(const uint8_t st[48], uint8_t *out, size_t out_len);

/* Walking back: one step takes the session after a call, the phase before it and what the call was given (plaintext for a
 * seal, the length alone for a squeeze), and makes the session before it. Each refuses with 1, 5, 2, 8 or 9 exactly when the
 * call itself would; a message that is unfinished is left as it is, and does not refuse it. A list is walked last call first.
 * There is no such step for lafomeihu_ratchet and lafomeihu_new. */

uint8_t lafomeihu_back_absorb(uint8_t st[48], uint8_t head[6], uint8_t phase, const uint8_t *bin, size_t bin_len);
uint8_t lafomeihu_back_absorb_more(uint8_t st[48], uint8_t head[6], uint8_t phase, const uint8_t *bin, size_t bin_len,
                                   size_t rate);
uint8_t lafomeihu_back_squeeze(uint8_t st[48], uint8_t head[6], uint8_t phase, size_t n);
uint8_t lafomeihu_back_squeeze_key(uint8_t st[48], uint8_t head[6], uint8_t phase, size_t n);
uint8_t lafomeihu_back_squeeze_more(uint8_t st[48], uint8_t head[6], uint8_t phase, size_t n);

/* Back over lafomeihu_absorb_key_and_nonce. */
uint8_t lafomeihu_back_key(uint8_t st[48], uint8_t head[6], uint8_t phase,
                           const uint8_t *key, size_t key_len,
                           uint8_t has_id, const uint8_t *id, size_t id_len,
                           uint8_t has_nonce, const uint8_t *nonce, size_t nonce_len,
                           uint8_t has_counter, const uint8_t *counter, size_t counter_len);

/* Back over every form of encrypt and decrypt, and over every form that seals or opens with a tag, a message handed over
 * bit by bit among them. */
uint8_t lafomeihu_back_encrypt(uint8_t st[48], uint8_t head[6], uint8_t phase, const uint8_t *plaintext, size_t plaintext_len);
uint8_t lafomeihu_back_seal(uint8_t st[48], uint8_t head[6], uint8_t phase, const uint8_t *plaintext, size_t plaintext_len);

#ifdef __cplusplus
}
#endif

#endif
