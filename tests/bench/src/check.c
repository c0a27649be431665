// Check of the proved library in C, by the same steps: for each point outside the part the choice of the points that
// are named and the point itself is turned into its sums over supersets, a bit for each exponent, by one step for each
// variable, and those of the columns must be zero.
#include "elimination.h"
#include <string.h>

// The places where the mask is the value, as bits.
static void pack(uint64_t *words, const uint8_t *mask, uint8_t value) {
    for (int k = 0; k < WORDS; k++) {
        uint64_t word = 0;
        for (int i = 63; i >= 0; i--)
            word = word * 2 + (mask[k * 64 + i] == value);
        words[k] = word;
    }
}

// The mask of the exponents of n taps that weigh at most d.
static void column_mask(uint8_t *mask, size_t n, size_t d) {
    for (int u = 0; u < POINTS; u++)
        mask[u] = u >> n == 0 && (size_t)__builtin_popcount(u) <= d;
}

// Whether no place has a one in both.
static int apart(const uint64_t *x, const uint64_t *y) {
    for (int k = 0; k < WORDS; k++)
        if (x[k] & y[k])
            return 0;
    return 1;
}

// Each bit of the mask's places gets the bit `shift` places above it added, in each word.
static void step_bits(uint64_t *x, int shift, uint64_t mask) {
    for (int k = 0; k < WORDS; k++)
        x[k] ^= x[k] >> shift & mask;
}

// Each word in the lower half of a block of twice `h` gets the word `h` places on added.
static void step_words(uint64_t *x, int h) {
    for (int k = 0; k < WORDS; k++)
        if (!(k & h))
            x[k] ^= x[k + h];
}

// Each bit becomes the sum of the bits at all places within which its place lies.
static void superset_sums(uint64_t *x) {
    step_bits(x, 1, 0x5555555555555555);
    step_bits(x, 2, 0x3333333333333333);
    step_bits(x, 4, 0x0f0f0f0f0f0f0f0f);
    step_bits(x, 8, 0x00ff00ff00ff00ff);
    step_bits(x, 16, 0x0000ffff0000ffff);
    step_bits(x, 32, 0x00000000ffffffff);
    step_words(x, 1);
    step_words(x, 2);
    step_words(x, 4);
}

// Whether the points named for the point a are right, where a lies outside the part.
static int sum_right(const uint64_t *named, int a, const uint64_t *others, const uint64_t *columns) {
    uint64_t x[WORDS];
    if (!apart(named, others))
        return 0;
    memcpy(x, named, sizeof x);
    x[a / 64] ^= (uint64_t)1 << (a % 64);
    superset_sums(x);
    return apart(x, columns);
}

// Whether no point is named.
static int names_none(const uint64_t *named) {
    for (int k = 0; k < WORDS; k++)
        if (named[k])
            return 0;
    return 1;
}

// Whether the numbers are a certificate of the side at degree d.
uint8_t c_check(const uint8_t *set, const uint8_t *table, size_t n, uint8_t side, size_t d,
                const uint64_t *certificate) {
    uint8_t part[POINTS], mask[POINTS];
    uint64_t others[WORDS], columns[WORDS];
    part_mask(part, set, table, side);
    pack(others, part, 0);
    column_mask(mask, n, d);
    pack(columns, mask, 1);
    for (int a = 0; a < POINTS; a++) {
        const uint64_t *named = certificate + a * WORDS;
        int outside = set[a] == 1 && part[a] != 1;
        if (!(outside ? sum_right(named, a, others, columns) : names_none(named)))
            return 0;
    }
    return 1;
}
