// Keccak-f[1600] and SHAKE256 in plain C.
#include "plain.h"

#include <string.h>

#define RATE 136

static const uint64_t RC[24] = {
    0x0000000000000001, 0x0000000000008082, 0x800000000000808a, 0x8000000080008000,
    0x000000000000808b, 0x0000000080000001, 0x8000000080008081, 0x8000000000008009,
    0x000000000000008a, 0x0000000000000088, 0x0000000080008009, 0x000000008000000a,
    0x000000008000808b, 0x800000000000008b, 0x8000000000008089, 0x8000000000008003,
    0x8000000000008002, 0x8000000000000080, 0x000000000000800a, 0x800000008000000a,
    0x8000000080008081, 0x8000000000008080, 0x0000000080000001, 0x8000000080008008,
};

// The lanes in the order in which pi moves them, from lane 1 on, and the turn of each.
static const int PI[24] = {10, 7, 11, 17, 18, 3, 5, 16, 8, 21, 24, 4, 15, 23, 19, 13, 12, 2, 20, 14, 22, 9, 6, 1};
static const int RHO[24] = {1, 3, 6, 10, 15, 21, 28, 36, 45, 55, 2, 14, 27, 41, 56, 8, 25, 43, 62, 18, 39, 61, 20, 44};

static inline uint64_t turn(uint64_t a, int k) {
    return a << k | a >> (64 - k);
}

void plain_permute(uint64_t lanes[25]) {
    uint64_t a[25], c[5];
    memcpy(a, lanes, sizeof a);
    for (int round = 0; round < 24; round++) {
#pragma GCC unroll 5
        for (int x = 0; x < 5; x++)
            c[x] = a[x] ^ a[x + 5] ^ a[x + 10] ^ a[x + 15] ^ a[x + 20];
#pragma GCC unroll 5
        for (int x = 0; x < 5; x++) {
            uint64_t d = c[(x + 4) % 5] ^ turn(c[(x + 1) % 5], 1);
#pragma GCC unroll 5
            for (int y = 0; y < 25; y += 5)
                a[x + y] ^= d;
        }
        uint64_t moved = a[1];
#pragma GCC unroll 24
        for (int i = 0; i < 24; i++) {
            uint64_t next = a[PI[i]];
            a[PI[i]] = turn(moved, RHO[i]);
            moved = next;
        }
#pragma GCC unroll 5
        for (int y = 0; y < 25; y += 5) {
            uint64_t b0 = a[y], b1 = a[y + 1], b2 = a[y + 2], b3 = a[y + 3], b4 = a[y + 4];
            a[y] = b0 ^ (~b1 & b2);
            a[y + 1] = b1 ^ (~b2 & b3);
            a[y + 2] = b2 ^ (~b3 & b4);
            a[y + 3] = b3 ^ (~b4 & b0);
            a[y + 4] = b4 ^ (~b0 & b1);
        }
        a[0] ^= RC[round];
    }
    memcpy(lanes, a, sizeof a);
}

static void add_block(uint64_t lanes[25], const uint8_t block[RATE]) {
    for (int i = 0; i < RATE / 8; i++) {
        uint64_t lane;
        memcpy(&lane, block + 8 * i, 8);
        lanes[i] ^= lane;
    }
}

void plain_absorb(Plain_sponge *sponge, const uint8_t *bytes, size_t len) {
    uint8_t *block = (uint8_t *)sponge->lanes;
    while (len > 0) {
        if (sponge->at == 0 && len >= RATE) {
            add_block(sponge->lanes, bytes);
            plain_permute(sponge->lanes);
            bytes += RATE;
            len -= RATE;
            continue;
        }
        size_t part = RATE - sponge->at;
        if (part > len)
            part = len;
        for (size_t i = 0; i < part; i++)
            block[sponge->at + i] ^= bytes[i];
        sponge->at += part;
        bytes += part;
        len -= part;
        if (sponge->at == RATE) {
            plain_permute(sponge->lanes);
            sponge->at = 0;
        }
    }
}

void plain_finish(Plain_sponge *sponge) {
    uint8_t *block = (uint8_t *)sponge->lanes;
    block[sponge->at] ^= 0x1F;
    block[RATE - 1] ^= 0x80;
    plain_permute(sponge->lanes);
    sponge->at = 0;
}

void plain_squeeze(Plain_sponge *sponge, uint8_t *out, size_t len) {
    const uint8_t *block = (const uint8_t *)sponge->lanes;
    while (len > 0) {
        if (sponge->at == RATE) {
            plain_permute(sponge->lanes);
            sponge->at = 0;
        }
        size_t part = RATE - sponge->at;
        if (part > len)
            part = len;
        memcpy(out, block + sponge->at, part);
        sponge->at += part;
        out += part;
        len -= part;
    }
}

Plain_sponge plain_stream(int j) {
    Plain_sponge sponge = {{0}, 0};
    const uint8_t mark[2] = {0x53, 0x10 + j};
    plain_absorb(&sponge, mark, 2);
    return sponge;
}

void plain_shake(const uint8_t *message, size_t message_len, uint8_t *out, size_t out_len) {
    Plain_sponge sponge = {{0}, 0};
    plain_absorb(&sponge, message, message_len);
    plain_finish(&sponge);
    plain_squeeze(&sponge, out, out_len);
}
