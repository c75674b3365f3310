// The work of each lane kernel as a plain loop, for comparison.
#include <stddef.h>
#include <stdint.h>

#define LEAST (-2147483648LL)
#define MOST 2147483647LL

#define OPERATOR(name, exact)                                                                     \
    uint64_t name(const int64_t *a, const int64_t *b, uint64_t active, int64_t *out) {            \
        uint64_t faults = 0;                                                                      \
        for (int i = 0; i < 64; i++) {                                                            \
            int64_t value = exact;                                                                \
            int live = (active >> i) & 1;                                                         \
            int bad = value < LEAST || value > MOST;                                              \
            out[i] = live && !bad ? value : 0;                                                    \
            faults |= (uint64_t)(live && bad) << i;                                               \
        }                                                                                         \
        return faults;                                                                            \
    }

OPERATOR(plain_add, a[i] + b[i])
OPERATOR(plain_sub, a[i] - b[i])
OPERATOR(plain_mul, a[i] * b[i])
OPERATOR(plain_neg, -a[i])

#define DIVISION(name, operator)                                                                  \
    uint64_t name(const int64_t *a, const int64_t *b, uint64_t active, int64_t *out) {            \
        uint64_t faults = 0;                                                                      \
        for (int i = 0; i < 64; i++) {                                                            \
            int live = (active >> i) & 1;                                                         \
            int bad = b[i] == 0 || (a[i] == LEAST && b[i] == -1);                                 \
            out[i] = live && !bad ? a[i] operator b[i] : 0;                                       \
            faults |= (uint64_t)(live && bad) << i;                                               \
        }                                                                                         \
        return faults;                                                                            \
    }

DIVISION(plain_div, /)
DIVISION(plain_rem, %)

#define TEST(name, operator)                                                                      \
    uint64_t name(const int64_t *a, const int64_t *b) {                                           \
        uint64_t plane = 0;                                                                       \
        for (int i = 0; i < 64; i++)                                                              \
            plane |= (uint64_t)(a[i] operator b[i]) << i;                                         \
        return plane;                                                                             \
    }

TEST(plain_eq, ==)
TEST(plain_lt, <)
TEST(plain_le, <=)

uint64_t plain_outside(const int64_t *a) {
    uint64_t plane = 0;
    for (int i = 0; i < 64; i++)
        plane |= (uint64_t)(a[i] < LEAST || a[i] > MOST) << i;
    return plane;
}

void plain_blend(uint64_t mask, const int64_t *a, const int64_t *b, int64_t *out) {
    for (int i = 0; i < 64; i++)
        out[i] = (mask >> i) & 1 ? a[i] : b[i];
}

void plain_commit_ints(int64_t *old, const int64_t *new, uint64_t mask) {
    for (int i = 0; i < 64; i++)
        if ((mask >> i) & 1)
            old[i] = new[i];
}

#define WORDS(name, operator)                                                                     \
    void name(const uint64_t *a, const uint64_t *b, uint64_t *out, size_t n) {                    \
        for (size_t k = 0; k < n; k++)                                                            \
            out[k] = a[k] operator b[k];                                                          \
    }

WORDS(plain_and, &)
WORDS(plain_or, |)
WORDS(plain_xor, ^)

void plain_commit_planes(uint64_t *old, const uint64_t *new, uint64_t mask, size_t n) {
    for (size_t k = 0; k < n; k++)
        old[k] = (mask & new[k]) | (~mask & old[k]);
}

int plain_any_outside(const int64_t *values, size_t n) {
    for (size_t k = 0; k < n; k++)
        if (values[k] < LEAST || values[k] > MOST)
            return 1;
    return 0;
}

// The same on lanes of 32 bits.
#define WORD_OPERATOR(name, exact)                                                                \
    uint64_t name(const int32_t *a, const int32_t *b, uint64_t active, int32_t *out) {            \
        uint64_t faults = 0;                                                                      \
        for (int i = 0; i < 64; i++) {                                                            \
            int64_t value = exact;                                                                \
            int live = (active >> i) & 1;                                                         \
            int bad = value < LEAST || value > MOST;                                              \
            out[i] = live && !bad ? (int32_t)value : 0;                                           \
            faults |= (uint64_t)(live && bad) << i;                                               \
        }                                                                                         \
        return faults;                                                                            \
    }

WORD_OPERATOR(plain_word_add, (int64_t)a[i] + b[i])
WORD_OPERATOR(plain_word_sub, (int64_t)a[i] - b[i])
WORD_OPERATOR(plain_word_mul, (int64_t)a[i] * b[i])

#define WORD_DIVISION(name, operator)                                                             \
    uint64_t name(const int32_t *a, const int32_t *b, uint64_t active, int32_t *out) {            \
        uint64_t faults = 0;                                                                      \
        for (int i = 0; i < 64; i++) {                                                            \
            int live = (active >> i) & 1;                                                         \
            int bad = b[i] == 0 || (a[i] == LEAST && b[i] == -1);                                 \
            out[i] = live && !bad ? a[i] operator b[i] : 0;                                       \
            faults |= (uint64_t)(live && bad) << i;                                               \
        }                                                                                         \
        return faults;                                                                            \
    }

WORD_DIVISION(plain_word_div, /)
WORD_DIVISION(plain_word_rem, %)

#define WORD_TEST(name, operator)                                                                 \
    uint64_t name(const int32_t *a, const int32_t *b) {                                           \
        uint64_t plane = 0;                                                                       \
        for (int i = 0; i < 64; i++)                                                              \
            plane |= (uint64_t)(a[i] operator b[i]) << i;                                         \
        return plane;                                                                             \
    }

WORD_TEST(plain_word_eq, ==)
WORD_TEST(plain_word_lt, <)
WORD_TEST(plain_word_le, <=)

void plain_word_blend(uint64_t mask, const int32_t *a, const int32_t *b, int32_t *out) {
    for (int i = 0; i < 64; i++)
        out[i] = (mask >> i) & 1 ? a[i] : b[i];
}
