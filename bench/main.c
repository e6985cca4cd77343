// Measures the proved functions against plain C in one run, once both have computed the same bytes.
#include <stdint.h>
#include <stdio.h>
#include <string.h>
#include <time.h>

#include "maesikkong.h"
#include "plain.h"

// The proved ones that the face has not. A slice is a pointer and a length.
void speed_permute(uint64_t lanes[25]);
void speed_expand(const uint8_t secret_record[SECRET], uint32_t a[A_VALUES]);
void speed_pack(const uint32_t t[N], uint8_t out[T_BYTES]);
void speed_unpack(const uint8_t bytes[T_BYTES], uint32_t t[N]);
void speed_multiply(const uint32_t *a, size_t a_count, const uint32_t *b, size_t b_count, uint32_t *out, size_t count);

#define MUCH 65536
#define PERMUTATIONS 1000
#define POLYNOMIALS 100
#define MESSAGES 50
#define MESSAGE 59
#define ROSTERS 10
#define ROSTER ROSTER_LIMIT

// What came back from signing a message.
typedef struct {
    uint8_t signature[SIGNATURE];
    uint16_t counter;
    uint8_t answer;
} Signed;

// What came back from opening an envelope.
typedef struct {
    size_t len;
    uint16_t team;
    uint8_t answer;
} Opened;

// What is measured on: each side has its own.
typedef struct {
    uint64_t lanes[25];
    uint8_t bytes[MUCH], out[MUCH];
    uint32_t a[A_VALUES], product[N], unpacked[N];
    uint8_t packed[T_BYTES];
    uint8_t s[N], e[K * N], public_record[PUBLIC], secret_record[SECRET], made;
    uint8_t messages[MESSAGES][MESSAGE], r[MESSAGES][SEED];
    Signed tried[MESSAGES], found[MESSAGES];
    uint8_t checked[MESSAGES];
    uint8_t envelopes[ROSTERS][ENVELOPE(ROSTER)], sent[ROSTERS];
    Opened opened[ROSTERS];
} Bench;

static Bench ours, theirs;

// ---- what is measured: work i of a line, by the proved functions and by plain C

static void ours_permute(int i) {
    for (int j = 0; j < PERMUTATIONS; j++)
        speed_permute(ours.lanes);
    (void)i;
}

static void c_permute(int i) {
    for (int j = 0; j < PERMUTATIONS; j++)
        plain_permute(theirs.lanes);
    (void)i;
}

static void ours_absorb(int i) {
    maesikkong_shake256(ours.bytes, MUCH, ours.out + SEED * i, SEED);
}

static void c_absorb(int i) {
    plain_shake(theirs.bytes, MUCH, theirs.out + SEED * i, SEED);
}

static void ours_squeeze(int i) {
    maesikkong_shake256(ours.bytes, i, ours.out, MUCH);
}

static void c_squeeze(int i) {
    plain_shake(theirs.bytes, i, theirs.out, MUCH);
}

// The seed is the one in the record.
static void ours_expand(int i) {
    speed_expand(ours.bytes + SEED * i, ours.a);
}

static void c_expand(int i) {
    plain_expand(theirs.bytes + SEED * i + AT_SEED_A, SEED, theirs.a);
}

static void ours_pack(int i) {
    for (int j = 0; j < POLYNOMIALS; j++)
        speed_pack(ours.a + N * i, ours.packed);
}

static void c_pack(int i) {
    for (int j = 0; j < POLYNOMIALS; j++)
        plain_pack_t(theirs.a + N * i, theirs.packed);
}

static void ours_unpack(int i) {
    for (int j = 0; j < POLYNOMIALS; j++)
        speed_unpack(ours.bytes + T_BYTES * i, ours.unpacked);
}

static void c_unpack(int i) {
    for (int j = 0; j < POLYNOMIALS; j++)
        plain_unpack_t(theirs.bytes + T_BYTES * i, theirs.unpacked);
}

static void ours_multiply(int i) {
    speed_multiply(ours.a + N * i, N, ours.a, N, ours.product, N);
}

static void c_multiply(int i) {
    plain_multiply(theirs.a + N * i, theirs.a, theirs.product);
}

static void ours_key(int i) {
    ours.made = maesikkong_make_key(ours.s, N, ours.e, K * N, ours.bytes + i, SEED, ours.bytes, SEED, ours.public_record, PUBLIC,
                                    ours.secret_record, SECRET);
}

static void c_key(int i) {
    theirs.made = plain_make_key(theirs.s, theirs.e, theirs.bytes + i, theirs.bytes, theirs.public_record, theirs.secret_record);
}

static void ours_sign(int i, uint32_t budget, Signed *to) {
    to->answer =
        maesikkong_sign(ours.secret_record, SECRET, ours.messages[i], MESSAGE, ours.r[i], SEED, budget, to->signature, SIGNATURE, &to->counter);
}

static void c_sign(int i, uint32_t budget, Signed *to) {
    to->answer = plain_sign(theirs.secret_record, theirs.messages[i], MESSAGE, theirs.r[i], budget, to->signature, &to->counter);
}

static void ours_attempt(int i) {
    ours_sign(i, 1, &ours.tried[i]);
}

static void c_attempt(int i) {
    c_sign(i, 1, &theirs.tried[i]);
}

static void ours_signature(int i) {
    ours_sign(i, BUDGET_LIMIT, &ours.found[i]);
}

static void c_signature(int i) {
    c_sign(i, BUDGET_LIMIT, &theirs.found[i]);
}

static void ours_check(int i) {
    ours.checked[i] = maesikkong_check(ours.public_record, PUBLIC, ours.messages[i], MESSAGE, ours.found[i].signature, SIGNATURE);
}

static void c_check(int i) {
    theirs.checked[i] = plain_check(theirs.public_record, theirs.messages[i], MESSAGE, theirs.found[i].signature);
}

// A team number for each roster. The rosters are bytes that the lines above have.
static void ours_send(int i) {
    uint8_t signature[SIGNATURE];
    uint16_t counter, team = 6553 * i;
    ours.sent[i] = maesikkong_sign_roster(ours.secret_record, SECRET, team, ours.bytes + i, ROSTER, ours.r[i], SEED, BUDGET_LIMIT, signature,
                                          SIGNATURE, &counter);
    ours.sent[i] |= maesikkong_write_envelope(team, ours.bytes + i, ROSTER, signature, SIGNATURE, ours.envelopes[i], ENVELOPE(ROSTER));
}

static void c_send(int i) {
    theirs.sent[i] = plain_send(theirs.secret_record, 6553 * i, theirs.bytes + i, ROSTER, theirs.r[i], BUDGET_LIMIT, theirs.envelopes[i]);
}

static void open_ours(const uint8_t *envelope, size_t envelope_len, Opened *to) {
    size_t start;
    to->answer = maesikkong_open_envelope(ours.public_record, PUBLIC, envelope, envelope_len, &to->team, &start, &to->len);
}

static void open_theirs(const uint8_t *envelope, size_t envelope_len, Opened *to) {
    to->answer = plain_open(theirs.public_record, envelope, envelope_len, &to->team, &to->len);
}

static void ours_open(int i) {
    open_ours(ours.envelopes[i], ENVELOPE(ROSTER), &ours.opened[i]);
}

static void c_open(int i) {
    open_theirs(theirs.envelopes[i], ENVELOPE(ROSTER), &theirs.opened[i]);
}

typedef struct {
    const char *name;
    void (*ours)(int i);
    void (*plain)(int i);
    // the works, and how often one does what is named
    int works, times;
    // the rounds: the best of them counts
    int rounds;
} Line;

// A line may use what those above it left: a, the key, the signatures.
static const Line LINES[] = {
    {"a permutation", ours_permute, c_permute, 1, PERMUTATIONS, 300},
    {"absorbing 64 KiB", ours_absorb, c_absorb, 1, 1, 300},
    {"squeezing 64 KiB", ours_squeeze, c_squeeze, 1, 1, 300},
    {"expanding a from a seed", ours_expand, c_expand, 20, 1, 40},
    {"packing a polynomial at 29 bits", ours_pack, c_pack, K, POLYNOMIALS, 150},
    {"unpacking a polynomial at 29 bits", ours_unpack, c_unpack, K, POLYNOMIALS, 150},
    {"a plain product, 1024 coefficients", ours_multiply, c_multiply, K, 1, 100},
    {"key making", ours_key, c_key, 2, 1, 50},
    {"one attempt: signing with budget 1", ours_attempt, c_attempt, MESSAGES, 1, 4},
    {"a whole signature, mean of 50", ours_signature, c_signature, MESSAGES, 1, 3},
    {"checking", ours_check, c_check, MESSAGES, 1, 4},
    {"the longest roster sent, mean of 10", ours_send, c_send, ROSTERS, 1, 3},
    {"opening its envelope", ours_open, c_open, ROSTERS, 1, 10},
};

#define COUNT (sizeof LINES / sizeof LINES[0])

// ---- both compute the same

static int same(void) {
    return memcmp(&ours, &theirs, sizeof ours) == 0;
}

// Messages and outputs about a block's length, and values that do not fit.
static int same_at_edges(void) {
    static const size_t EDGES[] = {0, 1, 7, 8, 135, 136, 137, 271, 272, 273, 4096};
    const int count = sizeof EDGES / sizeof EDGES[0];
    for (int i = 0; i < count; i++)
        for (int j = 0; j < count; j++) {
            maesikkong_shake256(ours.bytes, EDGES[i], ours.out, EDGES[j]);
            plain_shake(theirs.bytes, EDGES[i], theirs.out, EDGES[j]);
            if (!same())
                return 0;
        }
    uint32_t large[N] = {Q};
    speed_pack(large, ours.packed);
    plain_pack_t(large, theirs.packed);
    speed_multiply(large, N, ours.a, N, ours.product, N);
    plain_multiply(large, theirs.a, theirs.product);
    return same();
}

// Every work once, and the answers that it has to give.
static int same_works(void) {
    for (size_t k = 0; k < COUNT; k++)
        for (int i = 0; i < LINES[k].works; i++) {
            LINES[k].ours(i);
            LINES[k].plain(i);
            if (!same()) {
                fprintf(stderr, "bench: %s, work %d: the two differ\n", LINES[k].name, i);
                return 0;
            }
        }
    int done = ours.made == 0;
    for (int i = 0; i < MESSAGES; i++)
        done = done && ours.found[i].answer == 0 && ours.found[i].counter > 0 && ours.checked[i] == 0;
    for (int i = 0; i < ROSTERS; i++)
        done = done && ours.sent[i] == 0 && ours.opened[i].answer == 0 && ours.opened[i].team == 6553 * i && ours.opened[i].len == ROSTER;
    if (!done)
        fprintf(stderr, "bench: a key, a signature, its check or an envelope was refused\n");
    return done;
}

// Records in which four bytes are changed.
static int same_changed(void) {
    static const uint8_t CHANGES[3][4] = {{0x80, 0x80, 0x80, 0x80}, {0xFF, 0xFF, 0xFF, 0x7F}, {0, 0, 0, 0}};
    for (int i = 0; i < 24; i++) {
        Bench changed = ours;
        Signed here = ours.found[0], there = here;
        const uint8_t *change = CHANGES[i % 3], *signature = changed.found[0].signature;
        memcpy(changed.public_record + 1823 * (i / 3), change, 4);
        int a = maesikkong_check(changed.public_record, PUBLIC, changed.messages[0], MESSAGE, signature, SIGNATURE);
        int b = plain_check(changed.public_record, changed.messages[0], MESSAGE, signature);
        memcpy(changed.found[0].signature + 323 * (i / 3), change, 4);
        int c = maesikkong_check(ours.public_record, PUBLIC, changed.messages[0], MESSAGE, signature, SIGNATURE);
        int d = plain_check(ours.public_record, changed.messages[0], MESSAGE, signature);
        memcpy(changed.secret_record + 703 * (i / 3), change, 4);
        here.answer = maesikkong_sign(changed.secret_record, SECRET, changed.messages[0], MESSAGE, changed.r[0], SEED, i, here.signature,
                                      SIGNATURE, &here.counter);
        there.answer = plain_sign(changed.secret_record, changed.messages[0], MESSAGE, changed.r[0], i, there.signature, &there.counter);
        if (a != b || c != d || memcmp(&here, &there, sizeof here) != 0) {
            fprintf(stderr, "bench: change %d: the two answer %d %d, %d %d, %d %d\n", i, a, b, c, d, here.answer, there.answer);
            return 0;
        }
    }
    return 1;
}

// Envelopes with one bit changed, in the head, the roster and the signature record, and of other lengths.
static int same_envelopes(void) {
    static uint8_t envelope[ENVELOPE(ROSTER) + 1];
    for (int i = 0; i < 24; i++) {
        Opened here = {0}, there = {0};
        size_t at = i < 6 ? (size_t)i : (size_t)i * (ENVELOPE(ROSTER) / 24);
        size_t len = i % 8 == 6 ? ENVELOPE(ROSTER) - 1 : i % 8 == 7 ? ENVELOPE(ROSTER) + 1 : ENVELOPE(ROSTER);
        memcpy(envelope, ours.envelopes[0], ENVELOPE(ROSTER));
        envelope[at] ^= 1;
        open_ours(envelope, len, &here);
        open_theirs(envelope, len, &there);
        if (here.answer != there.answer || here.team != there.team || here.len != there.len || here.answer == 0) {
            fprintf(stderr, "bench: envelope %d: the two answer %d %d\n", i, here.answer, there.answer);
            return 0;
        }
    }
    return 1;
}

// ---- the measurement

// Time of this process alone.
static double microseconds(void (*work)(int), int i) {
    struct timespec from, to;
    clock_gettime(CLOCK_PROCESS_CPUTIME_ID, &from);
    work(i);
    clock_gettime(CLOCK_PROCESS_CPUTIME_ID, &to);
    return (to.tv_sec - from.tv_sec) * 1e6 + (to.tv_nsec - from.tv_nsec) / 1e3;
}

static void measure(const Line *line) {
    double a = 0, b = 0;
    for (int i = 0; i < line->works; i++) {
        double best_a = 1e18, best_b = 1e18;
        for (int round = 0; round < line->rounds; round++) {
            double x = microseconds(line->ours, i), y = microseconds(line->plain, i);
            best_a = x < best_a ? x : best_a;
            best_b = y < best_b ? y : best_b;
        }
        a += best_a;
        b += best_b;
    }
    int count = line->works * line->times;
    printf("%-36s %8.2f %14.2f %14.2f\n", line->name, a / b, a / count, b / count);
    fflush(stdout);
}

// A secret coefficient: from −16 to 16, those about 0 more often.
static uint8_t small(const uint8_t *bytes) {
    return bytes[0] % 17 + bytes[1] % 17 - 16;
}

int main(void) {
    for (int i = 0; i < MUCH; i++)
        ours.bytes[i] = i * 7 + i / 251;
    plain_shake(ours.bytes, 1, ours.out, MUCH);
    for (int i = 0; i < N; i++)
        ours.s[i] = small(ours.out + 2 * i);
    for (int i = 0; i < K * N; i++)
        ours.e[i] = small(ours.out + 2 * (N + i));
    memcpy(ours.messages, ours.out + 10 * N, sizeof ours.messages);
    memcpy(ours.r, ours.out + 20 * N, sizeof ours.r);
    theirs = ours;
    if (!same_at_edges() || !same_works() || !same_changed() || !same_envelopes()) {
        fprintf(stderr, "bench: THE TWO DIFFER\n");
        return 1;
    }
    printf("The proved functions and plain C computed the same bytes, counters and answers. Read the ratios: ours / plain C, gcc -O3.\n");
    printf("The microseconds are absolute: of this machine, in this run.\n\n");
    printf("%-36s %8s %14s %14s\n", "", "ratio", "ours, us", "plain C, us");
    for (size_t k = 0; k < COUNT; k++)
        measure(&LINES[k]);
    if (!same()) {
        fprintf(stderr, "bench: THE TWO DIFFER\n");
        return 1;
    }
    return 0;
}
