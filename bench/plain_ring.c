// Polynomials with xⁿ = −1 in plain C.
#include <stdlib.h>

#include "plain.h"

// The largest multiple of q up to 2^63: a sum that comes to it loses it, so that one division serves a row.
#define MULTIPLE (Q * ((1ull << 63) / Q))

// acc + Σ x_i y_(count − 1 − i), up to multiples of MULTIPLE.
static inline uint64_t fold(const uint32_t *x, const uint32_t *y, size_t count, uint64_t acc) {
    for (size_t i = 0; i < count; i++) {
        acc += (uint64_t)x[i] * y[count - 1 - i];
        while (acc >= MULTIPLE)
            acc -= MULTIPLE;
    }
    return acc;
}

void plain_multiply(const uint32_t a[N], const uint32_t b[N], uint32_t out[N]) {
    if (!plain_below_q(a, N) || !plain_below_q(b, N))
        return;
    for (size_t k = 0; k < N; k++) {
        uint64_t wrapped = fold(a + k + 1, b + k + 1, N - 1 - k, 0);
        out[k] = fold(a, b, k + 1, MULTIPLE - wrapped) % Q;
    }
}

void plain_times_bytes(const int8_t s[N], const uint16_t positions[H], const int8_t signs[H], int32_t out[N]) {
    for (int k = 0; k < N; k++)
        out[k] = 0;
    for (int j = 0; j < H; j++) {
        int p = positions[j], sign = signs[j];
        for (int k = 0; k < p; k++)
            out[k] -= sign * s[N + k - p];
        for (int k = p; k < N; k++)
            out[k] += sign * s[k - p];
    }
}

void plain_times(const uint32_t t[N], const uint16_t positions[H], const int8_t signs[H], uint32_t out[N]) {
    int64_t sums[N] = {0};
    for (int j = 0; j < H; j++) {
        int p = positions[j], sign = signs[j];
        for (int k = 0; k < p; k++)
            sums[k] -= sign * (int64_t)t[N + k - p];
        for (int k = p; k < N; k++)
            sums[k] += sign * (int64_t)t[k - p];
    }
    for (int k = 0; k < N; k++)
        out[k] = (sums[k] + (int64_t)H * Q) % Q;
}

int plain_largest(const int8_t s[N]) {
    int largest[H] = {0}, sum = 0;
    for (int i = 0; i < N; i++) {
        int at = H - 1, value = abs(s[i]);
        if (value <= largest[at])
            continue;
        for (; at > 0 && largest[at - 1] < value; at--)
            largest[at] = largest[at - 1];
        largest[at] = value;
    }
    for (int i = 0; i < H; i++)
        sum += largest[i];
    return sum;
}
