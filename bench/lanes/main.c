// Times the plain loops. Prints a line for each: its name and the picoseconds of one call on 64
// lanes.
#include <inttypes.h>
#include <stddef.h>
#include <stdint.h>
#include <stdio.h>
#include <time.h>

typedef uint64_t operator_of(const int64_t *, const int64_t *, uint64_t, int64_t *);
typedef uint64_t test_of(const int64_t *, const int64_t *);
typedef void words_of(const uint64_t *, const uint64_t *, uint64_t *, size_t);
extern operator_of plain_add, plain_sub, plain_mul, plain_neg, plain_div, plain_rem;
extern test_of plain_eq, plain_lt, plain_le;
extern words_of plain_and, plain_or, plain_xor;
extern uint64_t plain_outside(const int64_t *);
extern void plain_blend(uint64_t, const int64_t *, const int64_t *, int64_t *);
extern void plain_commit_ints(int64_t *, const int64_t *, uint64_t);
extern void plain_commit_planes(uint64_t *, const uint64_t *, uint64_t, size_t);
extern int plain_any_outside(const int64_t *, size_t);

typedef uint64_t word_operator_of(const int32_t *, const int32_t *, uint64_t, int32_t *);
typedef uint64_t word_test_of(const int32_t *, const int32_t *);
extern word_operator_of plain_word_add, plain_word_sub, plain_word_mul;
extern word_operator_of plain_word_div, plain_word_rem;
extern word_test_of plain_word_eq, plain_word_lt, plain_word_le;
extern void plain_word_blend(uint64_t, const int32_t *, const int32_t *, int32_t *);

static const uint64_t runs = 51, rounds = 20000;
static const uint64_t half = 0xf0f3123489abcdefULL, all = ~0ULL;

static double nanoseconds(void) {
    struct timespec now;
    clock_gettime(CLOCK_MONOTONIC, &now);
    return now.tv_sec * 1e9 + now.tv_nsec;
}

static void fill(int64_t *lanes, uint64_t state) {
    for (int i = 0; i < 64; i++) {
        state = state * 6364136223846793005ULL + 1442695040888963407ULL;
        lanes[i] = (int16_t)((state >> 33) & 0xffff);
    }
}

static void fill_words(int32_t *lanes, uint64_t state) {
    int64_t wide[64];
    fill(wide, state);
    for (int i = 0; i < 64; i++)
        lanes[i] = (int32_t)wide[i];
}

#define TIMED(name, body)                                                                         \
    {                                                                                             \
        uint64_t sink = 0;                                                                        \
        double shortest = 1e30;                                                                   \
        for (uint64_t run = 0; run < runs; run++) {                                               \
            double start = nanoseconds();                                                         \
            for (uint64_t i = 0; i < rounds; i++)                                                 \
                sink ^= (uint64_t)(body);                                                         \
            double took = nanoseconds() - start;                                                  \
            shortest = took < shortest ? took : shortest;                                         \
        }                                                                                         \
        printf("%s %.0f %" PRIu64 "\n", name, shortest * 1000 / rounds, sink);                    \
    }

// Another lane in each round.
static void changed(int32_t *lanes, uint64_t round) { lanes[round & 63] = round & 0xfff; }

static uint64_t seen(const int32_t *lanes) { return (uint64_t)(int64_t)lanes[5]; }

static void time_words(void) {
    int32_t a[64], b[64], ten[64], most[64], some[64], out[64];
    fill_words(a, 1);
    fill_words(b, 2);
    for (int i = 0; i < 64; i++) {
        ten[i] = 10;
        most[i] = i == 3 ? INT32_MAX : a[i];
        some[i] = i == 3 ? 5 : b[i];
    }
    TIMED("word_add", plain_word_add(a, b, half ^ i, out) ^ seen(out))
    TIMED("word_sub", plain_word_sub(a, b, half ^ i, out) ^ seen(out))
    TIMED("word_mul", plain_word_mul(a, b, half ^ i, out) ^ seen(out))
    TIMED("word_blend", (plain_word_blend(half ^ i, a, b, out), seen(out)))
    TIMED("word_add_fault", plain_word_add(most, some, all ^ (i & 1), out) ^ seen(out))
    TIMED("word_mul_fault", plain_word_mul(most, some, all ^ (i & 1), out) ^ seen(out))
    TIMED("word_div", plain_word_div(a, b, all ^ (i & 1), out) ^ seen(out))
    TIMED("word_rem", plain_word_rem(a, b, all ^ (i & 1), out) ^ seen(out))
    TIMED("word_div_by_one", plain_word_div(a, ten, half ^ i, out) ^ seen(out))
    TIMED("word_rem_by_one", plain_word_rem(a, ten, half ^ i, out) ^ seen(out))
    TIMED("word_eq", (changed(a, i), plain_word_eq(a, b)))
    TIMED("word_lt", (changed(a, i), plain_word_lt(a, b)))
    TIMED("word_le", (changed(a, i), plain_word_le(a, b)))
}

int main(void) {
    int64_t a[64], b[64], out[64], values[64] = {0};
    uint64_t words[64], more[64], joined[64];
    fill(a, 1);
    fill(b, 2);
    for (int i = 0; i < 64; i++) {
        words[i] = 1;
        more[i] = 3;
        joined[i] = 0;
    }
    TIMED("add", plain_add(a, b, half ^ i, out) ^ out[5])
    TIMED("sub", plain_sub(a, b, half ^ i, out) ^ out[5])
    TIMED("mul", plain_mul(a, b, half ^ i, out) ^ out[5])
    TIMED("neg", plain_neg(a, b, half ^ i, out) ^ out[5])
    TIMED("div_half_active", plain_div(a, b, half ^ i, out) ^ out[5])
    TIMED("rem_half_active", plain_rem(a, b, half ^ i, out) ^ out[5])
    TIMED("div", plain_div(a, b, all ^ (i & 1), out) ^ out[5])
    TIMED("rem", plain_rem(a, b, all ^ (i & 1), out) ^ out[5])
    TIMED("eq", plain_eq(a, b) ^ i)
    TIMED("lt", plain_lt(a, b) ^ i)
    TIMED("le", plain_le(a, b) ^ i)
    TIMED("outside", plain_outside(a) ^ i)
    TIMED("and_slices", (plain_and(words, more, joined, 64), joined[5] ^ i))
    TIMED("or_slices", (plain_or(words, more, joined, 64), joined[5] ^ i))
    TIMED("xor_slices", (plain_xor(words, more, joined, 64), joined[5] ^ i))
    TIMED("commit_planes", (plain_commit_planes(joined, words, half ^ i, 64), joined[5]))
    TIMED("blend", (plain_blend(half ^ i, a, b, out), out[5]))
    TIMED("commit_ints", (plain_commit_ints(a, b, half ^ i), a[5]))
    TIMED("any_outside", (values[i & 63] = i & 0xfff, plain_any_outside(values, 64)))
    time_words();
    return 0;
}
