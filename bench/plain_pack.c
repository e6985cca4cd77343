// Values packed at b bits in plain C: the lowest bit of the lowest byte first.
#include "plain.h"

static inline void pack(const uint32_t *values, int bits, uint8_t *out) {
    uint64_t held = 0;
    int have = 0;
    for (int i = 0; i < N; i++) {
        held |= (uint64_t)values[i] << have;
        for (have += bits; have >= 8; have -= 8) {
            *out++ = held;
            held >>= 8;
        }
    }
}

static inline void unpack(const uint8_t *bytes, int bits, uint32_t *values) {
    uint64_t held = 0;
    int have = 0;
    for (int i = 0; i < N; i++) {
        for (; have < bits; have += 8)
            held |= (uint64_t)*bytes++ << have;
        values[i] = held & ((1u << bits) - 1);
        held >>= bits;
        have -= bits;
    }
}

int plain_below_q(const uint32_t *values, size_t count) {
    for (size_t i = 0; i < count; i++)
        if (values[i] >= Q)
            return 0;
    return 1;
}

void plain_pack_t(const uint32_t t[N], uint8_t out[T_BYTES]) {
    if (plain_below_q(t, N))
        pack(t, T_BITS, out);
}

void plain_unpack_t(const uint8_t bytes[T_BYTES], uint32_t t[N]) {
    unpack(bytes, T_BITS, t);
}

void plain_pack_z(const int32_t z[N], uint8_t out[Z_BYTES]) {
    uint32_t values[N];
    for (int i = 0; i < N; i++)
        values[i] = z[i] & ((1 << Z_BITS) - 1);
    pack(values, Z_BITS, out);
}

void plain_unpack_z(const uint8_t bytes[Z_BYTES], int32_t z[N]) {
    uint32_t values[N];
    unpack(bytes, Z_BITS, values);
    for (int i = 0; i < N; i++)
        z[i] = values[i] >> (Z_BITS - 1) ? (int32_t)values[i] - (1 << Z_BITS) : (int32_t)values[i];
}
