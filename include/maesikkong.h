/* Maesikkong: qTESLA-p-I keys, signatures and roster envelopes. The face for C.
 *
 * Every function is proved against its contract in crates/maesikkong. scripts/face builds target/face/libmaesikkong.a and
 * target/face/libmaesikkong.so.
 *
 * Each function answers a number (below): 0, or that of the first test that fails. Every test is made before the first write, so that on a
 * refusal each output buffer holds what it held, and a number that comes back through a pointer is set to 0.
 *
 * Callers see to what no function can test: a pointer points to as many elements as its length says, aligned for their type; with length 0 it
 * may be null. What is written overlaps nothing else that the call is given. Pointers without a length are not null.
 *
 * Nothing is kept between calls, allocated, or read from elsewhere, so that calls may run side by side. A call takes less than 64 KiB of stack.
 * The archive asks memcpy and memset of whoever links it, and nothing else. The code is not constant-time.
 */
#ifndef MAESIKKONG_H
#define MAESIKKONG_H

#include <stddef.h>
#include <stdint.h>

#ifdef __cplusplus
extern "C" {
#endif

/* What comes back. */
enum {
    MAESIKKONG_DONE = 0,        /* done or accepted */
    MAESIKKONG_LENGTH = 1,      /* a length is not the one named, or a stream holds too few candidates */
    MAESIKKONG_MARK = 2,        /* a mark is wrong */
    MAESIKKONG_MESSAGE = 3,     /* message over 32,768 bytes, or roster or the envelope's L over 32,766 */
    MAESIKKONG_BUDGET = 4,      /* budget outside 1 to 1,024 */
    MAESIKKONG_VALUE = 5,       /* a secret byte is -128, or a t coefficient is not from 0 to q - 1 */
    MAESIKKONG_CHECK_S = 6,     /* checkS does not pass: the 25 largest |s| sum to more than 554 */
    MAESIKKONG_CHECK_E = 7,     /* checkE does not pass for some e_i */
    MAESIKKONG_NO_COUNTER = 8,  /* no counter from 1 to the budget passes */
    MAESIKKONG_Z = 9,           /* some z is outside -523733 to 523733 */
    MAESIKKONG_HIGH_PART = 10,  /* a high part does not fit a signed byte; it always fits at this set */
    MAESIKKONG_HASH = 11        /* the hash differs: the signature is not one of this message under this key */
};

/* Lengths in elements. Secret polynomials have one signed byte a coefficient, e_1..e_4 and t_1..t_4 stand in a row. */
enum {
    MAESIKKONG_S_BYTES = 1024,
    MAESIKKONG_E_BYTES = 4096,
    MAESIKKONG_T_NUMBERS = 4096,
    MAESIKKONG_Z_NUMBERS = 1024,
    MAESIKKONG_SEED_BYTES = 32,   /* seed_a, seed_y, r and c' */
    MAESIKKONG_DIGEST_BYTES = 40, /* g */
    MAESIKKONG_PUBLIC_BYTES = 14882,
    MAESIKKONG_SECRET_BYTES = 5226,
    MAESIKKONG_SIGNATURE_BYTES = 2594,
    MAESIKKONG_ENVELOPE_BYTES = 2600, /* and the roster's length */
    MAESIKKONG_MESSAGE_LIMIT = 32768,
    MAESIKKONG_ROSTER_LIMIT = 32766,
    MAESIKKONG_BUDGET_LIMIT = 1024
};

/* ---- keys, signatures */

/* Makes a key: t_i = a_i s + e_i with a_1..a_4 drawn from seed_a, and both records of it.
 * s 1,024 and e 4,096 bytes, seed_a and seed_y 32, public_record 14,882, secret_record 5,226. Answers 0, 1, 5, 6, 7.
 * public_record and secret_record: the records; on a refusal untouched. */
uint8_t maesikkong_make_key(const uint8_t *s, size_t s_len, const uint8_t *e, size_t e_len, const uint8_t *seed_a, size_t seed_a_len,
                            const uint8_t *seed_y, size_t seed_y_len, uint8_t *public_record, size_t public_len, uint8_t *secret_record,
                            size_t secret_len);

/* Signs the message with the secret record and r, by the smallest counter from 1 to the budget whose attempt passes.
 * secret_record 5,226 bytes, message up to 32,768, r 32, signature 2,594, budget 1 to 1,024. Answers 0 to 8.
 * signature: the signature record; on a refusal untouched. *counter: that counter; on a refusal 0. */
uint8_t maesikkong_sign(const uint8_t *secret_record, size_t secret_len, const uint8_t *message, size_t message_len, const uint8_t *r,
                        size_t r_len, uint32_t budget, uint8_t *signature, size_t signature_len, uint16_t *counter);

/* Signs a roster for an envelope: what is signed is the team number in two bytes, low first, and then the roster. No buffer has to join them:
 * this answers and writes what maesikkong_sign does on the joined bytes.
 * secret_record 5,226 bytes, roster up to 32,766, r 32, signature 2,594, budget 1 to 1,024. Answers 0 to 8.
 * signature: the signature record; on a refusal untouched. *counter: as in signing; on a refusal 0. */
uint8_t maesikkong_sign_roster(const uint8_t *secret_record, size_t secret_len, uint16_t team, const uint8_t *roster, size_t roster_len,
                               const uint8_t *r, size_t r_len, uint32_t budget, uint8_t *signature, size_t signature_len,
                               uint16_t *counter);

/* Checks the signature record on the message with the public record.
 * public_record 14,882 bytes, message up to 32,768, signature 2,594. Answers 0, 1, 2, 3, 5, 9, 11. */
uint8_t maesikkong_check(const uint8_t *public_record, size_t public_len, const uint8_t *message, size_t message_len,
                         const uint8_t *signature, size_t signature_len);

/* ---- envelopes */

/* Envelopes begin with 51 15. Those of the earlier mark 51 14, whose team number was not signed, are refused with 2. */

/* Writes the envelope of a team number, a roster and the signature record on both, as maesikkong_sign_roster makes it. The signature's hash is
 * not checked.
 * roster up to 32,766 bytes, signature 2,594, envelope 2,600 + roster_len. Answers 0, 1, 2, 3, 9.
 * envelope: the envelope; on a refusal untouched. */
uint8_t maesikkong_write_envelope(uint16_t team, const uint8_t *roster, size_t roster_len, const uint8_t *signature, size_t signature_len,
                                  uint8_t *envelope, size_t envelope_len);

/* Reads an envelope without checking the signature's hash. Of any length. Answers 0, 1, 2, 3, 9.
 * *team: the team number. *roster_start and *roster_len: the roster's place in the envelope, where it stays; the signature record is the
 * 2,594 bytes that follow it. On a refusal all three are 0. */
uint8_t maesikkong_read_envelope(const uint8_t *envelope, size_t envelope_len, uint16_t *team, size_t *roster_start, size_t *roster_len);

/* Opens an envelope: reads it and checks its signature on its own team number and roster with the public record.
 * public_record 14,882 bytes, envelope of any length. Answers 0, 1, 2, 3, 5, 9, 11.
 * *team, *roster_start, *roster_len: as in reading; on a refusal all three are 0. */
uint8_t maesikkong_open_envelope(const uint8_t *public_record, size_t public_len, const uint8_t *envelope, size_t envelope_len,
                                 uint16_t *team, size_t *roster_start, size_t *roster_len);

/* ---- records, from their values and into them */

/* The public record of t_1..t_4 and seed_a. t 4,096 numbers, seed_a 32 bytes, record 14,882. Answers 0, 1, 5.
 * record: the record; on a refusal untouched. */
uint8_t maesikkong_write_public(const uint32_t *t, size_t t_len, const uint8_t *seed_a, size_t seed_a_len, uint8_t *record,
                                size_t record_len);

/* The values of a public record. record 14,882 bytes, t 4,096 numbers, seed_a 32 bytes. Answers 0, 1, 2, 5.
 * t and seed_a: the values; on a refusal untouched. */
uint8_t maesikkong_read_public(const uint8_t *record, size_t record_len, uint32_t *t, size_t t_len, uint8_t *seed_a, size_t seed_a_len);

/* The secret record of s, e_1..e_4, seed_a, seed_y and g. s 1,024 bytes, e 4,096, seed_a and seed_y 32, g 40, record 5,226.
 * Answers 0, 1, 5. record: the record; on a refusal untouched. */
uint8_t maesikkong_write_secret(const uint8_t *s, size_t s_len, const uint8_t *e, size_t e_len, const uint8_t *seed_a, size_t seed_a_len,
                                const uint8_t *seed_y, size_t seed_y_len, const uint8_t *g, size_t g_len, uint8_t *record,
                                size_t record_len);

/* The values of a secret record. record 5,226 bytes, s 1,024, e 4,096, seed_a and seed_y 32, g 40. Answers 0, 1, 2, 5.
 * s, e, seed_a, seed_y and g: the values; on a refusal untouched. */
uint8_t maesikkong_read_secret(const uint8_t *record, size_t record_len, uint8_t *s, size_t s_len, uint8_t *e, size_t e_len,
                               uint8_t *seed_a, size_t seed_a_len, uint8_t *seed_y, size_t seed_y_len, uint8_t *g, size_t g_len);

/* The signature record of z and c'. z 1,024 numbers, c 32 bytes, record 2,594. Answers 0, 1, 9.
 * record: the record; on a refusal untouched. */
uint8_t maesikkong_write_signature(const int32_t *z, size_t z_len, const uint8_t *c, size_t c_len, uint8_t *record, size_t record_len);

/* The values of a signature record. record 2,594 bytes, z 1,024 numbers, c 32 bytes. Answers 0, 1, 2, 9.
 * z and c: the values; on a refusal untouched. */
uint8_t maesikkong_read_signature(const uint8_t *record, size_t record_len, int32_t *z, size_t z_len, uint8_t *c, size_t c_len);

/* ---- streams */

/* Values from 0 to q - 1 of the stream's candidates for a, 4 bytes each, in their order. As many as out has places, up to the candidates
 * that the stream holds. Answers 0, 1. out: the values; on a refusal untouched. */
uint8_t maesikkong_take_a(const uint8_t *stream, size_t stream_len, uint32_t *out, size_t out_len);

/* Values from -B to B of the stream's candidates for y, 3 bytes each, in their order. As many as out has places, up to the candidates
 * that the stream holds. Answers 0, 1. out: the values; on a refusal untouched. */
uint8_t maesikkong_take_y(const uint8_t *stream, size_t stream_len, int32_t *out, size_t out_len);

/* Positions from 0 to 1,023 with signs -1 or 1 of the stream's candidates for Enc, 3 bytes each, in the order drawn. As many as there are
 * places, the same for both, up to 1,024 and the candidates that the stream holds. Answers 0, 1.
 * positions and signs: what is drawn; on a refusal untouched. */
uint8_t maesikkong_take_positions(const uint8_t *stream, size_t stream_len, uint16_t *positions, size_t positions_len, int8_t *signs,
                                  size_t signs_len);

/* SHAKE256 of the message, as many bytes as out has places. Answers 0. out: the bytes. */
uint8_t maesikkong_shake256(const uint8_t *message, size_t message_len, uint8_t *out, size_t out_len);

#ifdef __cplusplus
}
#endif

#endif
