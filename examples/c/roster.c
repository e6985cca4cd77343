/* A desk makes a key and signs a message, which is checked. Then it signs a roster under its team number, and puts the number, the roster and
 * the signature into an envelope; a receiver opens it. Prints each answer, and exits with 1 if one is not the expected one. */
#include <stdio.h>
#include <string.h>

#include "maesikkong.h"

static const char MESSAGE[] = "Radio check at noon\n";
static const char ROSTER[] = "Saturday: Hana, Minjun\nSunday: Seoyeon, Jiho\n";
enum { MESSAGE_LEN = sizeof MESSAGE - 1, ROSTER_LEN = sizeof ROSTER - 1, TEAM = 119 };

static uint8_t public_record[MAESIKKONG_PUBLIC_BYTES];
static uint8_t secret_record[MAESIKKONG_SECRET_BYTES];
static uint8_t signature[MAESIKKONG_SIGNATURE_BYTES];
static uint8_t envelope[MAESIKKONG_ENVELOPE_BYTES + ROSTER_LEN];

static int failures;

static void expect(const char *what, size_t got, size_t wanted) {
    printf("%s: %zu\n", what, got);
    if (got != wanted) {
        printf("  FAILED, it should be %zu\n", wanted);
        failures++;
    }
}

/* Bytes for the example from a name. A real desk draws seeds and secrets at random; how is not this library's matter. */
static void from_name(const char *name, uint8_t *out, size_t out_len) {
    expect(name, maesikkong_shake256((const uint8_t *)name, strlen(name), out, out_len), MAESIKKONG_DONE);
}

/* Coefficients from -8 to 8: the 25 largest sum to at most 200. */
static void small(uint8_t *bytes, size_t len) {
    for (size_t i = 0; i < len; i++)
        bytes[i] = (uint8_t)(bytes[i] % 17 - 8);
}

static void make_key(void) {
    uint8_t s[MAESIKKONG_S_BYTES], e[MAESIKKONG_E_BYTES], seed_a[MAESIKKONG_SEED_BYTES], seed_y[MAESIKKONG_SEED_BYTES];
    from_name("s", s, sizeof s);
    from_name("e", e, sizeof e);
    from_name("seed_a", seed_a, sizeof seed_a);
    from_name("seed_y", seed_y, sizeof seed_y);
    small(s, sizeof s);
    small(e, sizeof e);
    expect("make key",
           maesikkong_make_key(s, sizeof s, e, sizeof e, seed_a, sizeof seed_a, seed_y, sizeof seed_y, public_record,
                               sizeof public_record, secret_record, sizeof secret_record),
           MAESIKKONG_DONE);
    s[0] = 0x80; /* -128 */
    expect("make key of a secret byte that is -128",
           maesikkong_make_key(s, sizeof s, e, sizeof e, seed_a, sizeof seed_a, seed_y, sizeof seed_y, public_record,
                               sizeof public_record, secret_record, sizeof secret_record),
           MAESIKKONG_VALUE);
}

static void sign_and_check(void) {
    uint8_t r[MAESIKKONG_SEED_BYTES];
    uint16_t counter;
    from_name("r", r, sizeof r);
    expect("sign",
           maesikkong_sign(secret_record, sizeof secret_record, (const uint8_t *)MESSAGE, MESSAGE_LEN, r, sizeof r,
                           MAESIKKONG_BUDGET_LIMIT, signature, sizeof signature, &counter),
           MAESIKKONG_DONE);
    printf("  by counter %d\n", counter);
    expect("check",
           maesikkong_check(public_record, sizeof public_record, (const uint8_t *)MESSAGE, MESSAGE_LEN, signature, sizeof signature),
           MAESIKKONG_DONE);
    expect("check with an empty message",
           maesikkong_check(public_record, sizeof public_record, NULL, 0, signature, sizeof signature), MAESIKKONG_HASH);
}

static void write_envelope(void) {
    uint8_t r[MAESIKKONG_SEED_BYTES];
    uint16_t counter;
    from_name("r of the roster", r, sizeof r);
    expect("sign roster",
           maesikkong_sign_roster(secret_record, sizeof secret_record, TEAM, (const uint8_t *)ROSTER, ROSTER_LEN, r, sizeof r,
                                  MAESIKKONG_BUDGET_LIMIT, signature, sizeof signature, &counter),
           MAESIKKONG_DONE);
    printf("  by counter %d\n", counter);
    expect("write envelope",
           maesikkong_write_envelope(TEAM, (const uint8_t *)ROSTER, ROSTER_LEN, signature, sizeof signature, envelope, sizeof envelope),
           MAESIKKONG_DONE);
}

/* What is refused gives no team and no roster. */
static void refused(const char *what) {
    uint16_t team;
    size_t start, len;
    expect(what, maesikkong_open_envelope(public_record, sizeof public_record, envelope, sizeof envelope, &team, &start, &len),
           MAESIKKONG_HASH);
    expect("  team", team, 0);
    expect("  length of the roster", len, 0);
}

static void open_envelope(void) {
    uint16_t team;
    size_t start, len;
    expect("open envelope",
           maesikkong_open_envelope(public_record, sizeof public_record, envelope, sizeof envelope, &team, &start, &len),
           MAESIKKONG_DONE);
    expect("  team", team, TEAM);
    expect("  length of the roster", len, ROSTER_LEN);
    expect("  the roster differs", memcmp(envelope + start, ROSTER, ROSTER_LEN) != 0, 0);
    printf("%.*s", (int)len, (const char *)envelope + start);
    envelope[start] ^= 1;
    refused("open envelope with another roster");
    envelope[start] ^= 1;
    envelope[2] ^= 1;
    refused("open envelope with another team number");
}

int main(void) {
    make_key();
    sign_and_check();
    write_envelope();
    open_envelope();
    return failures ? 1 : 0;
}
