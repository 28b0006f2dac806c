/* The library from C: known answers, sealing and opening, feeding, walking back, refusals. Ends in 0 where all holds. */
#include <stdio.h>
#include <stdlib.h>
#include <string.h>

#include "lafomeihu.h"

/* An assert that no build option takes away. */
#define CHECK(condition)                                                             \
    do {                                                                             \
        if (!(condition)) {                                                          \
            fprintf(stderr, "%s:%d: not so: %s\n", __FILE__, __LINE__, #condition);  \
            exit(1);                                                                 \
        }                                                                            \
    } while (0)

typedef struct {
    uint8_t st[48];
    uint8_t head[6];
    size_t counts[3];
} session;

static const uint8_t none[1] = {0};
static const uint8_t key[16] = {0, 1, 2, 3, 4, 5, 6, 7, 8, 9, 10, 11, 12, 13, 14, 15};

static void print_hex(const char *what, const uint8_t *bytes, size_t n)
{
    printf("%s: ", what);
    for (size_t i = 0; i < n; i++)
        printf("%02x", bytes[i]);
    printf("\n");
}

/* A keyed session with a key, and with a nonce where asked. */
static session keyed(uint8_t rule, uint8_t has_nonce)
{
    session s;
    memset(&s, 0, sizeof s);
    CHECK(lafomeihu_new(s.st, s.head, rule, key, 16, has_nonce, key, 16, 0, none, 0, 0, none, 0, s.counts) == 0);
    CHECK(s.head[0] == 1 && s.head[1] == LAFOMEIHU_DOWN && s.head[2] == rule);
    return s;
}

static int same_session(const session *a, const session *b)
{
    return memcmp(a->st, b->st, 48) == 0 && memcmp(a->head, b->head, 6) == 0;
}

static void known_answers(void)
{
    static const uint8_t of_nothing[32] = {0xea, 0x15, 0x2f, 0x2b, 0x47, 0xbc, 0xe2, 0x4e, 0xfb, 0x66, 0xc4,
                                           0x79, 0xd4, 0xad, 0xf1, 0x7b, 0xd3, 0x24, 0xd8, 0x06, 0xe8, 0x5f,
                                           0xf7, 0x5e, 0xe3, 0x69, 0xee, 0x50, 0xdc, 0x8f, 0x8b, 0xd1};
    static const uint8_t of_zeros[48] = {0x8d, 0xd8, 0xd5, 0x89, 0xbf, 0xfc, 0x63, 0xa9, 0x19, 0x2d, 0x23, 0x1b,
                                         0x14, 0xa0, 0xa5, 0xff, 0x06, 0x81, 0xb1, 0x36, 0xfe, 0xc1, 0xc7, 0xaf,
                                         0xbe, 0x7c, 0xe5, 0xae, 0xbd, 0x40, 0x75, 0xa7, 0x70, 0xe8, 0x86, 0x2e,
                                         0xc9, 0xb7, 0xf5, 0xfe, 0xf2, 0xad, 0x4f, 0x8b, 0x62, 0x40, 0x4f, 0x5e};
    static const uint8_t tag_begins[13] = {0x4b, 0xf0, 0xe3, 0x93, 0x14, 0x4c, 0xb5, 0x80, 0x69, 0xfc, 0x1f, 0xeb, 0xca};
    session s;
    uint8_t digest[32], zeros[48] = {0}, st[48] = {0}, out[1], tag[16];

    CHECK(lafomeihu_hash(s.st, s.head, LAFOMEIHU_RULE_CRATE) == 0);
    CHECK(lafomeihu_absorb(s.st, s.head, none, 0, s.counts) == 0 && s.counts[2] == 0);
    CHECK(lafomeihu_squeeze(s.st, s.head, digest, 32, s.counts) == 0 && s.counts[2] == 2);
    print_hex("hash of the empty message", digest, 32);
    CHECK(memcmp(digest, of_nothing, 32) == 0);

    lafomeihu_xoodoo_permute(st);
    CHECK(memcmp(st, of_zeros, 48) == 0);
    lafomeihu_xoodoo_inverse(st);
    CHECK(memcmp(st, zeros, 48) == 0);

    /* The first of the AEAD vectors, as far as it is known: the nonce is absorbed, data and text are empty. */
    s = keyed(LAFOMEIHU_RULE_SPECIFICATION, 0);
    CHECK(lafomeihu_absorb(s.st, s.head, key, 16, s.counts) == 0);
    CHECK(lafomeihu_absorb(s.st, s.head, none, 0, s.counts) == 0);
    CHECK(lafomeihu_aead_encrypt_detached(s.st, s.head, out, 0, 0, none, 0, tag, s.counts) == 0 && s.counts[2] == 2);
    CHECK(memcmp(tag, tag_begins, 13) == 0);
}

/* Seals, opens, and refuses each record with one bit wrong, by copy and in place. */
static void seal_and_open(uint8_t rule, size_t n)
{
    uint8_t *message = malloc(n + 16), *sealed = malloc(n + 16), *opened = malloc(n + 16);
    session start = keyed(rule, 1), sealer = start, opener = start;

    CHECK(message && sealed && opened);
    for (size_t i = 0; i < n; i++)
        message[i] = (uint8_t)(i * 7);
    CHECK(lafomeihu_aead_encrypt(sealer.st, sealer.head, sealed, n + 15, 1, message, n, sealer.counts) == 3);
    CHECK(sealer.counts[0] == 1 && same_session(&sealer, &start));
    CHECK(lafomeihu_aead_encrypt(sealer.st, sealer.head, sealed, n + 16, 1, message, n, sealer.counts) == 0);
    CHECK(lafomeihu_aead_decrypt(opener.st, opener.head, opened, n, sealed, n + 16, opener.counts) == 0);
    CHECK(memcmp(opened, message, n) == 0 && same_session(&opener, &sealer) && opener.counts[2] == sealer.counts[2]);

    for (size_t bit = 0; bit < (n + 16) * 8; bit++) {
        uint8_t received[16];
        sealed[bit / 8] ^= (uint8_t)(1u << (bit % 8));
        memset(opened, 0xaa, n + 16);
        opener = start;
        CHECK(lafomeihu_aead_decrypt(opener.st, opener.head, opened, n + 16, sealed, n + 16, opener.counts) == 4);
        for (size_t i = 0; i < n + 16; i++)
            CHECK(opened[i] == 0);
        memcpy(opened, sealed, n + 16);
        memcpy(received, sealed + n, 16);
        opener = start;
        CHECK(lafomeihu_aead_decrypt_in_place(opener.st, opener.head, opened, n + 16, opener.counts) == 4);
        for (size_t i = 0; i < n; i++)
            CHECK(opened[i] == 0);
        CHECK(memcmp(opened + n, received, 16) == 0);
        sealed[bit / 8] ^= (uint8_t)(1u << (bit % 8));
    }

    memcpy(opened, message, n);
    sealer = start;
    CHECK(lafomeihu_aead_encrypt_in_place(sealer.st, sealer.head, opened, n + 16, sealer.counts) == 0);
    CHECK(memcmp(opened, sealed, n + 16) == 0);
    CHECK(lafomeihu_verify(opened + n, sealed + n) == 0);
    CHECK(lafomeihu_back_seal(sealer.st, sealer.head, start.head[1], message, n) == 0 && same_session(&sealer, &start));

    free(message);
    free(sealed);
    free(opened);
}

/* Feeds a message with one permutation for each feed: what comes out is what the one call gives. */
static void feed(uint8_t rule, size_t n)
{
    uint8_t *message = malloc(n + 1), *whole = malloc(n + 1), *fed = malloc(n + 1), whole_tag[16], tag[16];
    session start = keyed(rule, 1), one = start, s = start;
    size_t taken, feeds, spent;

    CHECK(message && whole && fed);
    for (size_t i = 0; i < n; i++)
        message[i] = (uint8_t)(i * 7);
    CHECK(lafomeihu_aead_encrypt_detached(one.st, one.head, whole, n, 1, message, n, whole_tag, one.counts) == 0);

    CHECK(lafomeihu_begin(s.st, s.head, LAFOMEIHU_SEAL) == 0);
    CHECK(lafomeihu_absorb(s.st, s.head, message, n, s.counts) == 7);
    for (taken = feeds = spent = 0; taken < n; feeds++) {
        CHECK(lafomeihu_feed(s.st, s.head, LAFOMEIHU_SEAL, fed + taken, n - taken, message + taken, n - taken, 1, s.counts) == 0);
        CHECK(s.counts[2] <= 1);
        taken += s.counts[1];
        spent += s.counts[2];
    }
    CHECK(feeds == (n + 23) / 24);
    CHECK(lafomeihu_finish_open(s.st, s.head, whole_tag, s.counts) == 7);
    CHECK(lafomeihu_finish_seal(s.st, s.head, tag, s.counts) == 0);
    CHECK(spent + s.counts[2] == one.counts[2]);
    CHECK(memcmp(fed, whole, n) == 0 && memcmp(tag, whole_tag, 16) == 0 && memcmp(s.st, one.st, 48) == 0);

    /* Opening, all at once, with a right and with a wrong tag. */
    for (int wrong = 0; wrong < 2; wrong++) {
        s = start;
        tag[5] ^= (uint8_t)wrong;
        CHECK(lafomeihu_begin(s.st, s.head, LAFOMEIHU_OPEN) == 0);
        CHECK(lafomeihu_feed(s.st, s.head, LAFOMEIHU_OPEN, fed, n, whole, n, SIZE_MAX, s.counts) == 0 && s.counts[1] == n);
        CHECK(lafomeihu_finish_open(s.st, s.head, tag, s.counts) == (wrong ? 4 : 0));
        CHECK(memcmp(fed, message, n) == 0 && memcmp(s.st, one.st, 48) == 0);
    }
    free(message);
    free(whole);
    free(fed);
}

static void back(void)
{
    uint8_t out[60], text[60];
    session start = keyed(LAFOMEIHU_RULE_CRATE, 1), s = start;
    uint8_t phases[7];

    memset(text, 9, sizeof text);
    phases[0] = s.head[1];
    CHECK(lafomeihu_absorb_key_and_nonce(s.st, s.head, key, 16, 1, key, 4, 1, key, 8, 1, key, 2, s.counts) == 0);
    phases[1] = s.head[1];
    CHECK(lafomeihu_absorb(s.st, s.head, text, 60, s.counts) == 0 && s.counts[2] == 2);
    phases[2] = s.head[1];
    CHECK(lafomeihu_absorb_more(s.st, s.head, text, 60, 44, s.counts) == 0 && s.counts[2] == 2);
    phases[3] = s.head[1];
    CHECK(lafomeihu_squeeze(s.st, s.head, out, 60, s.counts) == 0 && s.counts[2] == 3);
    phases[4] = s.head[1];
    CHECK(lafomeihu_squeeze_key(s.st, s.head, out, 60, s.counts) == 0 && s.counts[2] == 3);
    phases[5] = s.head[1];
    CHECK(lafomeihu_squeeze_more(s.st, s.head, out, 60, s.counts) == 0 && s.counts[2] == 3);
    phases[6] = s.head[1];
    CHECK(lafomeihu_encrypt(s.st, s.head, out, 60, text, 60, s.counts) == 0 && s.counts[2] == 3);

    CHECK(lafomeihu_back_encrypt(s.st, s.head, phases[6], text, 60) == 0);
    CHECK(lafomeihu_back_squeeze_more(s.st, s.head, phases[5], 60) == 0);
    CHECK(lafomeihu_back_squeeze_key(s.st, s.head, phases[4], 60) == 0);
    CHECK(lafomeihu_back_squeeze(s.st, s.head, phases[3], 60) == 0);
    CHECK(lafomeihu_back_absorb_more(s.st, s.head, phases[2], text, 60, 44) == 0);
    CHECK(lafomeihu_back_absorb(s.st, s.head, phases[1], text, 60) == 0);
    CHECK(lafomeihu_back_key(s.st, s.head, phases[0], key, 16, 1, key, 4, 1, key, 8, 1, key, 2) == 0);
    CHECK(same_session(&s, &start));
}

static void refusals(void)
{
    uint8_t bytes[49] = {0}, text[60] = {0}, st[48] = {0}, zeros[48] = {0}, tag[16];
    session start = keyed(LAFOMEIHU_RULE_CRATE, 1), s = start, fresh;

    CHECK(lafomeihu_absorb_more(s.st, s.head, text, 60, 0, s.counts) == 5);
    CHECK(lafomeihu_absorb_more(s.st, s.head, text, 60, 45, s.counts) == 5);
    CHECK(lafomeihu_aead_decrypt(s.st, s.head, text, 60, text, 15, s.counts) == 10);
    CHECK(lafomeihu_absorb_key_and_nonce(s.st, s.head, text, 44, 0, none, 0, 0, none, 0, 0, none, 0, s.counts) == 2);
    CHECK(lafomeihu_absorb_key_and_nonce(s.st, s.head, text, 43, 1, key, 1, 0, none, 0, 0, none, 0, s.counts) == 8);
    CHECK(lafomeihu_absorb_key_and_nonce(s.st, s.head, key, 16, 1, key, 16, 1, key, 12, 0, none, 0, s.counts) == 9);
    CHECK(same_session(&s, &start));

    /* A refused `new` leaves a fresh Hash session of the rule named. */
    CHECK(lafomeihu_hash(fresh.st, fresh.head, LAFOMEIHU_RULE_SPECIFICATION) == 0);
    CHECK(lafomeihu_new(s.st, s.head, 1, text, 44, 0, none, 0, 0, none, 0, 0, none, 0, s.counts) == 2);
    CHECK(same_session(&s, &fresh));
    CHECK(lafomeihu_ratchet(s.st, s.head, s.counts) == 1);
    CHECK(lafomeihu_begin(s.st, s.head, LAFOMEIHU_SEAL) == 1);

    CHECK(lafomeihu_xoodoo_add_byte(st, 1, 48) == 6);
    CHECK(lafomeihu_xoodoo_add_bytes(st, bytes, 49) == 6);
    CHECK(lafomeihu_xoodoo_extract_bytes(st, bytes, 49) == 6);
    CHECK(lafomeihu_xoodoo_rounds(st, 13) == 11 && lafomeihu_xoodoo_unrounds(st, 13) == 11);
    CHECK(memcmp(st, zeros, 48) == 0);
    CHECK(lafomeihu_xoodoo_rounds(st, 5) == 0 && memcmp(st, zeros, 48) != 0);
    CHECK(lafomeihu_xoodoo_unrounds(st, 5) == 0 && memcmp(st, zeros, 48) == 0);

    /* A head that no session has, and numbers that no argument takes: 40, nothing changes, the counts among it. */
    s = start;
    s.head[1] = 2;
    s.counts[2] = 77;
    memset(tag, 5, 16);
    CHECK(lafomeihu_absorb(s.st, s.head, key, 16, s.counts) == 40 && s.counts[2] == 77);
    CHECK(lafomeihu_aead_encrypt_in_place_detached(s.st, s.head, text, 60, tag, s.counts) == 40 && tag[0] == 5);
    CHECK(memcmp(s.st, start.st, 48) == 0 && s.head[1] == 2);
    s = start;
    CHECK(lafomeihu_hash(s.st, s.head, 2) == 40);
    CHECK(lafomeihu_begin(s.st, s.head, 2) == 40);
    CHECK(lafomeihu_back_squeeze(s.st, s.head, 2, 1) == 40);
    CHECK(lafomeihu_aead_encrypt(s.st, s.head, text, 60, 2, key, 16, s.counts) == 40);
    CHECK(same_session(&s, &start));
}

int main(void)
{
    known_answers();
    for (uint8_t rule = 0; rule < 2; rule++) {
        static const size_t lengths[] = {0, 1, 23, 24, 25, 50};
        for (size_t i = 0; i < sizeof lengths / sizeof *lengths; i++) {
            seal_and_open(rule, lengths[i]);
            feed(rule, lengths[i]);
        }
        feed(rule, 4080);
    }
    back();
    refusals();
    printf("sealed, opened, fed, walked back and refused from C\n");
    return 0;
}
