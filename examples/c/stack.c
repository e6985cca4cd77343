/* How much stack each entry takes, for those who have little. Each runs on a thread whose stack is painted first; what is no longer
 * painted below the call was used. Exits with 1 if an entry takes 64 KiB or more, or less than the polynomials that it is known to hold, or
 * does not answer 0. */
#define _XOPEN_SOURCE 700 /* pthread_attr_setstack */
#include <pthread.h>
#include <stdio.h>
#include <string.h>

#include "maesikkong.h"

enum { STACK = 1 << 18, LIMIT = 1 << 16, PAINT = 0xA5, LEN = 59 };

static uint8_t stack[STACK] __attribute__((aligned(4096)));
static uint8_t s[MAESIKKONG_S_BYTES], e[MAESIKKONG_E_BYTES], seed[MAESIKKONG_SEED_BYTES], other[MAESIKKONG_SEED_BYTES], g[40];
static uint8_t public_record[MAESIKKONG_PUBLIC_BYTES], secret_record[MAESIKKONG_SECRET_BYTES];
static uint8_t signature[MAESIKKONG_SIGNATURE_BYTES], envelope[MAESIKKONG_ENVELOPE_BYTES + LEN], roster[LEN], stream[4096];
static uint32_t t[4 * 1024], a[256];
static int32_t z[1024], y[256];
static uint16_t positions[25], counter, team;
static int8_t signs[25];
static size_t start, length;

static uint8_t make_key(void) {
    return maesikkong_make_key(s, sizeof s, e, sizeof e, seed, sizeof seed, seed, sizeof seed, public_record, sizeof public_record,
                               secret_record, sizeof secret_record);
}

static uint8_t sign(void) {
    return maesikkong_sign(secret_record, sizeof secret_record, roster, LEN, seed, sizeof seed, 1024, signature, sizeof signature,
                           &counter);
}

static uint8_t sign_roster(void) {
    return maesikkong_sign_roster(secret_record, sizeof secret_record, 119, roster, LEN, seed, sizeof seed, 1024, signature,
                                  sizeof signature, &counter);
}

static uint8_t check(void) {
    return maesikkong_check(public_record, sizeof public_record, roster, LEN, signature, sizeof signature);
}

static uint8_t read_public(void) {
    return maesikkong_read_public(public_record, sizeof public_record, t, 4 * 1024, seed, sizeof seed);
}

static uint8_t write_public(void) {
    return maesikkong_write_public(t, 4 * 1024, seed, sizeof seed, public_record, sizeof public_record);
}

static uint8_t read_secret(void) {
    return maesikkong_read_secret(secret_record, sizeof secret_record, s, sizeof s, e, sizeof e, seed, sizeof seed, other,
                                  sizeof other, g, sizeof g);
}

static uint8_t write_secret(void) {
    return maesikkong_write_secret(s, sizeof s, e, sizeof e, seed, sizeof seed, other, sizeof other, g, sizeof g, secret_record,
                                   sizeof secret_record);
}

static uint8_t read_signature(void) {
    return maesikkong_read_signature(signature, sizeof signature, z, 1024, other, sizeof other);
}

static uint8_t write_signature(void) {
    return maesikkong_write_signature(z, 1024, other, sizeof other, signature, sizeof signature);
}

static uint8_t write_envelope(void) {
    return maesikkong_write_envelope(119, roster, LEN, signature, sizeof signature, envelope, sizeof envelope);
}

static uint8_t read_envelope(void) { return maesikkong_read_envelope(envelope, sizeof envelope, &team, &start, &length); }

static uint8_t open_envelope(void) {
    return maesikkong_open_envelope(public_record, sizeof public_record, envelope, sizeof envelope, &team, &start, &length);
}

static uint8_t take_a(void) { return maesikkong_take_a(stream, sizeof stream, a, 256); }

static uint8_t take_y(void) { return maesikkong_take_y(stream, sizeof stream, y, 256); }

static uint8_t take_positions(void) { return maesikkong_take_positions(stream, sizeof stream, positions, 25, signs, 25); }

static uint8_t shake256(void) { return maesikkong_shake256(roster, LEN, stream, sizeof stream); }

/* In an order in which each finds what it needs. */
static const struct {
    const char *name;
    uint8_t (*call)(void);
    size_t arrays; /* the polynomials that it holds at one time, in bytes: docs/DECISIONS.md */
} ENTRIES[] = {
    {"make_key", make_key, 12288},
    {"sign", sign, 45056},
    {"check", check, 16384},
    {"sign_roster", sign_roster, 45056},
    {"read_public", read_public, 4096},
    {"write_public", write_public, 0},
    {"read_secret", read_secret, 0},
    {"write_secret", write_secret, 0},
    {"read_signature", read_signature, 4096},
    {"write_signature", write_signature, 4096},
    {"write_envelope", write_envelope, 4096},
    {"read_envelope", read_envelope, 4096},
    {"open_envelope", open_envelope, 16384},
    {"shake256", shake256, 0},
    {"take_a", take_a, 0},
    {"take_y", take_y, 0},
    {"take_positions", take_positions, 0},
};

static uint8_t (*called)(void);
static uint8_t answered;
static size_t taken;

/* Calls, and counts the bytes below this frame from the lowest one that is no longer painted. */
static void *run(void *unused) {
    uint8_t *low = stack;
    answered = called();
    while (*low == PAINT)
        low++;
    taken = (size_t)((uint8_t *)&low - low);
    return unused;
}

/* Runs the call on the painted stack. Whether a thread could be made for it. */
static int measured(uint8_t (*call)(void)) {
    pthread_attr_t attr;
    pthread_t thread;
    called = call;
    memset(stack, PAINT, sizeof stack);
    return !pthread_attr_init(&attr) && !pthread_attr_setstack(&attr, stack, sizeof stack) && !pthread_create(&thread, &attr, run, NULL) &&
           !pthread_join(thread, NULL);
}

int main(void) {
    int failures = 0;
    for (size_t i = 0; i < sizeof s; i++)
        s[i] = (uint8_t)(i % 17 - 8);
    for (size_t i = 0; i < sizeof e; i++)
        e[i] = (uint8_t)(i % 13 - 6);
    for (size_t i = 0; i < sizeof ENTRIES / sizeof *ENTRIES; i++) {
        int good = measured(ENTRIES[i].call) && ENTRIES[i].arrays <= taken && taken < LIMIT && answered == MAESIKKONG_DONE;
        printf("%s: %zu bytes of stack, answer %d%s\n", ENTRIES[i].name, taken, answered, good ? "" : " FAILED");
        failures += !good;
    }
    return failures != 0;
}
