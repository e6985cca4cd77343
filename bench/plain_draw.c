// The candidate rules in plain C. One that is out of range or taken is skipped while enough remain after it.
#include <string.h>

#include "plain.h"

#define RATE 136

// Candidates of 4 bytes, low 29 bits, range q; 4kn of them.
void plain_expand(const uint8_t *seed, size_t seed_len, uint32_t a[A_VALUES]) {
    Plain_sponge sponge = plain_stream(1);
    uint8_t block[RATE];
    plain_absorb(&sponge, seed, seed_len);
    plain_finish(&sponge);
    size_t taken = 0, remaining = 4 * A_VALUES;
    for (;;) {
        plain_squeeze(&sponge, block, RATE);
        for (int at = 0; at < RATE; at += 4) {
            uint32_t candidate;
            memcpy(&candidate, block + at, 4);
            candidate &= (1u << T_BITS) - 1;
            remaining--;
            if (candidate >= Q) {
                if (remaining >= A_VALUES - taken)
                    continue;
                candidate -= Q;
            }
            a[taken++] = candidate;
            if (taken == A_VALUES)
                return;
        }
    }
}

// Candidates of 3 bytes, low 20 bits, range 2B + 1; 2n of them. Three blocks hold a whole number of them.
void plain_draw_y(const uint8_t rand[SEED], uint16_t counter, int32_t y[N]) {
    Plain_sponge sponge = plain_stream(2);
    const uint8_t low_first[2] = {counter % 256, counter / 256};
    uint8_t blocks[3 * RATE];
    plain_absorb(&sponge, rand, SEED);
    plain_absorb(&sponge, low_first, 2);
    plain_finish(&sponge);
    int taken = 0, remaining = 2 * N;
    for (;;) {
        plain_squeeze(&sponge, blocks, sizeof blocks);
        for (size_t at = 0; at < sizeof blocks; at += 3) {
            int32_t candidate = blocks[at] | blocks[at + 1] << 8 | (blocks[at + 2] & 15) << 16;
            remaining--;
            if (candidate >= 2 * B + 1) {
                if (remaining >= N - taken)
                    continue;
                candidate -= 2 * B + 1;
            }
            y[taken++] = candidate - B;
            if (taken == N)
                return;
        }
    }
}

// Candidates of 3 bytes, a position and a sign; 256 of them.
void plain_encode(const uint8_t c[SEED], uint16_t positions[H], int8_t signs[H]) {
    Plain_sponge sponge = plain_stream(7);
    uint8_t held[N] = {0}, bytes[3];
    plain_absorb(&sponge, c, SEED);
    plain_finish(&sponge);
    int taken = 0, remaining = 256;
    while (taken < H) {
        plain_squeeze(&sponge, bytes, 3);
        int position = (bytes[0] | bytes[1] << 8) % N;
        remaining--;
        if (held[position] && remaining >= H - taken)
            continue;
        while (held[position])
            position = (position + 1) % N;
        held[position] = 1;
        positions[taken] = position;
        signs[taken++] = bytes[2] & 1 ? -1 : 1;
    }
}
