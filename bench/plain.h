// Plain C to measure against: SHAKE256, one polynomial, and qTESLA-p-I's key making, signing, checking and envelopes, for a machine whose
// lowest byte comes first.
#ifndef PLAIN_H
#define PLAIN_H

#include <stddef.h>
#include <stdint.h>

// The numbers of the set.
#define N 1024
#define K 4
#define Q 343576577
#define H 25
#define E 554
#define S 554
#define B 524287
#define D 22
#define T_BITS 29
#define Z_BITS 20
#define Z_BOUND (B - S)

// Lengths in bytes.
#define SEED 32
#define DIGEST 40
#define T_BYTES (T_BITS * N / 8)
#define Z_BYTES (Z_BITS * N / 8)
#define PUBLIC (2 + K * T_BYTES + SEED)
#define SECRET (2 + N + K * N + 2 * SEED + DIGEST)
#define SIGNATURE (2 + Z_BYTES + SEED)
#define HEAD 6
#define ENVELOPE(roster_len) (HEAD + (roster_len) + SIGNATURE)

// Where the parts of the secret record start.
#define AT_S 2
#define AT_E (AT_S + N)
#define AT_SEED_A (AT_E + K * N)
#define AT_SEED_Y (AT_SEED_A + SEED)
#define AT_G (AT_SEED_Y + SEED)

#define A_VALUES (K * N)
#define MESSAGE_LIMIT 32768
#define ROSTER_LIMIT 32766
#define BUDGET_LIMIT 1024

// ---- plain_shake.c

// Keccak-f[1600] of 25 lanes, in their place.
void plain_permute(uint64_t lanes[25]);

// The first out_len bytes of SHAKE256 of the message.
void plain_shake(const uint8_t *message, size_t message_len, uint8_t *out, size_t out_len);

// A sponge: its lanes, and its place in the block.
typedef struct {
    uint64_t lanes[25];
    size_t at;
} Plain_sponge;

// The sponge that has absorbed the mark of stream j, 53 1j.
Plain_sponge plain_stream(int j);
void plain_absorb(Plain_sponge *sponge, const uint8_t *bytes, size_t len);
// Ends absorbing: pads and permutes.
void plain_finish(Plain_sponge *sponge);
void plain_squeeze(Plain_sponge *sponge, uint8_t *out, size_t len);

// ---- plain_draw.c

// a_1..a_k of the seed, in a row.
void plain_expand(const uint8_t *seed, size_t seed_len, uint32_t a[A_VALUES]);

// y of rand and the counter.
void plain_draw_y(const uint8_t rand[SEED], uint16_t counter, int32_t y[N]);

// The positions of c and their signs, Enc of c'.
void plain_encode(const uint8_t c[SEED], uint16_t positions[H], int8_t signs[H]);

// ---- plain_pack.c

// One polynomial at 29 bits. Nothing is done where a value is not below q.
void plain_pack_t(const uint32_t t[N], uint8_t out[T_BYTES]);
void plain_unpack_t(const uint8_t bytes[T_BYTES], uint32_t t[N]);

// z at 20 bits, two's complement.
void plain_pack_z(const int32_t z[N], uint8_t out[Z_BYTES]);
void plain_unpack_z(const uint8_t bytes[Z_BYTES], int32_t z[N]);

// Whether every value is below q.
int plain_below_q(const uint32_t *values, size_t count);

// ---- plain_ring.c

// a b modulo q with xⁿ = −1. Nothing is done where a value is not below q.
void plain_multiply(const uint32_t a[N], const uint32_t b[N], uint32_t out[N]);

// s c, not reduced.
void plain_times_bytes(const int8_t s[N], const uint16_t positions[H], const int8_t signs[H], int32_t out[N]);

// t c modulo q.
void plain_times(const uint32_t t[N], const uint16_t positions[H], const int8_t signs[H], uint32_t out[N]);

// The sum of the h largest absolute values.
int plain_largest(const int8_t s[N]);

// The remainder by q of x, whose size is at most q.
static inline uint32_t plain_residue(int32_t x) {
    return x < 0 ? x + Q : x;
}

// The centred remainder by q of v, which is below q.
static inline int32_t plain_centred(uint32_t v) {
    return v > Q / 2 ? (int32_t)v - Q : (int32_t)v;
}

// The high part of a centred remainder by q.
static inline int32_t plain_high(int32_t v) {
    return (v + (1 << (D - 1)) - 1) >> D;
}

// ---- plain_sign.c

// Each answers document 01's number. Lengths are the ones named, so 1 does not occur.
int plain_make_key(const uint8_t s[N], const uint8_t e[K * N], const uint8_t seed_a[SEED], const uint8_t seed_y[SEED],
                   uint8_t public_record[PUBLIC], uint8_t secret_record[SECRET]);
int plain_sign(const uint8_t secret_record[SECRET], const uint8_t *message, size_t message_len, const uint8_t r[SEED], uint32_t budget,
               uint8_t signature[SIGNATURE], uint16_t *counter);
int plain_check(const uint8_t public_record[PUBLIC], const uint8_t *message, size_t message_len, const uint8_t signature[SIGNATURE]);

// ---- plain_envelope.c

// Signs a roster under its team number, and writes the envelope of both with the signature.
int plain_send(const uint8_t secret_record[SECRET], uint16_t team, const uint8_t *roster, size_t roster_len, const uint8_t r[SEED],
               uint32_t budget, uint8_t *envelope);
int plain_open(const uint8_t public_record[PUBLIC], const uint8_t *envelope, size_t envelope_len, uint16_t *team, size_t *roster_len);

#endif
