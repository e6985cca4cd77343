// Key making, signing and checking of qTESLA-p-I in plain C: document 000's Algorithms 1 to 3 with document 01's streams and records.
#include <stdlib.h>
#include <string.h>

#include "plain.h"

static void write_mark(uint8_t *out, int j) {
    out[0] = 0x51;
    out[1] = 0x10 + j;
}

static int is_marked(const uint8_t *bytes, int j) {
    return bytes[0] == 0x51 && bytes[1] == 0x10 + j;
}

// G of the message, stream 4, and g of the packed t_1..t_k, stream 5.
static void digest_of(int stream, const uint8_t *bytes, size_t len, uint8_t out[DIGEST]) {
    Plain_sponge sponge = plain_stream(stream);
    plain_absorb(&sponge, bytes, len);
    plain_finish(&sponge);
    plain_squeeze(&sponge, out, DIGEST);
}

// Tests 5, 6 and 7.
static int test_secrets(const int8_t *s, const int8_t *e) {
    for (int i = 0; i < N; i++)
        if (s[i] == -128)
            return 5;
    for (int i = 0; i < K * N; i++)
        if (e[i] == -128)
            return 5;
    if (plain_largest(s) > S)
        return 6;
    for (int i = 0; i < K; i++)
        if (plain_largest(e + N * i) > E)
            return 7;
    return 0;
}

int plain_make_key(const uint8_t s[N], const uint8_t e[K * N], const uint8_t seed_a[SEED], const uint8_t seed_y[SEED],
                   uint8_t public_record[PUBLIC], uint8_t secret_record[SECRET]) {
    const int8_t *signed_s = (const int8_t *)s, *signed_e = (const int8_t *)e;
    uint32_t a[A_VALUES];
    uint32_t sr[N], t[N];
    int tested = test_secrets(signed_s, signed_e);
    if (tested != 0)
        return tested;
    plain_expand(seed_a, SEED, a);
    for (int k = 0; k < N; k++)
        sr[k] = plain_residue(signed_s[k]);
    write_mark(public_record, 1);
    for (int i = 0; i < K; i++) {
        plain_multiply(a + N * i, sr, t);
        for (int k = 0; k < N; k++)
            t[k] = (t[k] + plain_residue(signed_e[N * i + k])) % Q;
        plain_pack_t(t, public_record + 2 + T_BYTES * i);
    }
    memcpy(public_record + 2 + K * T_BYTES, seed_a, SEED);
    write_mark(secret_record, 2);
    memcpy(secret_record + AT_S, s, N);
    memcpy(secret_record + AT_E, e, K * N);
    memcpy(secret_record + AT_SEED_A, seed_a, SEED);
    memcpy(secret_record + AT_SEED_Y, seed_y, SEED);
    digest_of(5, public_record + 2, K * T_BYTES, secret_record + AT_G);
    return 0;
}

// Absorbs the high parts of one polynomial modulo q. Whether each fits a signed byte.
static int absorb_highs(Plain_sponge *sponge, const uint32_t v[N]) {
    uint8_t bytes[N];
    int fits = 1;
    for (int k = 0; k < N; k++) {
        int32_t high = plain_high(plain_centred(v[k]));
        fits &= -128 <= high && high <= 127;
        bytes[k] = high;
    }
    plain_absorb(sponge, bytes, N);
    return fits;
}

// c' of the high parts that the sponge has absorbed.
static void challenge_of(Plain_sponge *sponge, const uint8_t digest[DIGEST], const uint8_t g[DIGEST], uint8_t c[SEED]) {
    plain_absorb(sponge, digest, DIGEST);
    plain_absorb(sponge, g, DIGEST);
    plain_finish(sponge);
    plain_squeeze(sponge, c, SEED);
}

static int z_passes(const int32_t z[N]) {
    for (int k = 0; k < N; k++)
        if (abs(z[k]) > Z_BOUND)
            return 0;
    return 1;
}

// Whether w = v − e c passes its two tests.
static int w_passes(const uint32_t v[N], const int32_t ec[N]) {
    for (int k = 0; k < N; k++) {
        int32_t w = plain_centred((v[k] + plain_residue(-ec[k])) % Q);
        int32_t low = w - plain_high(w) * (1 << D);
        if (abs(low) >= (1 << (D - 1)) - E || abs(w) >= Q / 2 - E)
            return 0;
    }
    return 1;
}

// One attempt: 0 where it passes, with z and c', 8 where it does not, 10 where a high part does not fit.
static int attempt(const uint8_t *secret_record, const uint32_t a[A_VALUES], const uint8_t digest[DIGEST], const uint8_t rand[SEED],
                   uint16_t counter, int32_t z[N], uint8_t c[SEED]) {
    const int8_t *s = (const int8_t *)secret_record + AT_S, *e = (const int8_t *)secret_record + AT_E;
    Plain_sponge sponge = plain_stream(6);
    uint16_t positions[H];
    int8_t signs[H];
    uint32_t yr[N], v[K][N];
    int32_t y[N], ec[N];
    plain_draw_y(rand, counter, y);
    for (int k = 0; k < N; k++)
        yr[k] = plain_residue(y[k]);
    int fits = 1;
    for (int i = 0; i < K; i++) {
        plain_multiply(a + N * i, yr, v[i]);
        fits &= absorb_highs(&sponge, v[i]);
    }
    if (!fits)
        return 10;
    challenge_of(&sponge, digest, secret_record + AT_G, c);
    plain_encode(c, positions, signs);
    plain_times_bytes(s, positions, signs, z);
    for (int k = 0; k < N; k++)
        z[k] += y[k];
    if (!z_passes(z))
        return 8;
    for (int i = 0; i < K; i++) {
        plain_times_bytes(e + N * i, positions, signs, ec);
        if (!w_passes(v[i], ec))
            return 8;
    }
    return 0;
}

int plain_sign(const uint8_t secret_record[SECRET], const uint8_t *message, size_t message_len, const uint8_t r[SEED], uint32_t budget,
               uint8_t signature[SIGNATURE], uint16_t *counter) {
    uint32_t a[A_VALUES];
    uint8_t digest[DIGEST], rand[SEED], c[SEED];
    int32_t z[N];
    *counter = 0;
    if (!is_marked(secret_record, 2))
        return 2;
    if (message_len > MESSAGE_LIMIT)
        return 3;
    if (budget < 1 || budget > BUDGET_LIMIT)
        return 4;
    int answer = test_secrets((const int8_t *)secret_record + AT_S, (const int8_t *)secret_record + AT_E);
    if (answer != 0)
        return answer;
    digest_of(4, message, message_len, digest);
    Plain_sponge sponge = plain_stream(3);
    plain_absorb(&sponge, secret_record + AT_SEED_Y, SEED);
    plain_absorb(&sponge, r, SEED);
    plain_absorb(&sponge, digest, DIGEST);
    plain_finish(&sponge);
    plain_squeeze(&sponge, rand, SEED);
    plain_expand(secret_record + AT_SEED_A, SEED, a);
    for (uint32_t tried = 1; tried <= budget; tried++) {
        answer = attempt(secret_record, a, digest, rand, tried, z, c);
        if (answer == 8)
            continue;
        if (answer != 0)
            return answer;
        write_mark(signature, 3);
        plain_pack_z(z, signature + 2);
        memcpy(signature + 2 + Z_BYTES, c, SEED);
        *counter = tried;
        return 0;
    }
    return 8;
}

int plain_check(const uint8_t public_record[PUBLIC], const uint8_t *message, size_t message_len, const uint8_t signature[SIGNATURE]) {
    const uint8_t *c = signature + 2 + Z_BYTES;
    uint32_t a[A_VALUES], t[A_VALUES];
    uint8_t digest[DIGEST], g[DIGEST], found[SEED];
    uint16_t positions[H];
    int8_t signs[H];
    int32_t z[N];
    uint32_t zr[N], w[N], tc[N];
    if (!is_marked(public_record, 1) || !is_marked(signature, 3))
        return 2;
    if (message_len > MESSAGE_LIMIT)
        return 3;
    for (int i = 0; i < K; i++)
        plain_unpack_t(public_record + 2 + T_BYTES * i, t + N * i);
    if (!plain_below_q(t, A_VALUES))
        return 5;
    plain_unpack_z(signature + 2, z);
    if (!z_passes(z))
        return 9;
    for (int k = 0; k < N; k++)
        zr[k] = plain_residue(z[k]);
    plain_expand(public_record + 2 + K * T_BYTES, SEED, a);
    plain_encode(c, positions, signs);
    Plain_sponge sponge = plain_stream(6);
    int fits = 1;
    for (int i = 0; i < K; i++) {
        plain_multiply(a + N * i, zr, w);
        plain_times(t + N * i, positions, signs, tc);
        for (int k = 0; k < N; k++)
            w[k] = (w[k] + Q - tc[k]) % Q;
        fits &= absorb_highs(&sponge, w);
    }
    if (!fits)
        return 10;
    digest_of(4, message, message_len, digest);
    digest_of(5, public_record + 2, K * T_BYTES, g);
    challenge_of(&sponge, digest, g, found);
    return memcmp(found, c, SEED) == 0 ? 0 : 11;
}
