// The elimination of the proved kernel in C. The workspace has 1,024 packed rows of eight words: the kept rows are the
// first ones, and the row of the point a is row POINTS + a.
#include <stddef.h>
#include <stdint.h>

enum { POINTS = 512, WORDS = 8 };

// What an elimination keeps: how many rows, the first column of each that has a one, its point, and the additions made.
struct basis {
    size_t kept;
    uint16_t pivots[POINTS], points[POINTS];
    uint32_t additions;
};

const uint16_t *graded_order(void);
void prepare(size_t n, uint64_t *workspace);
int column_count(size_t n, size_t d);
void copy_columns(uint64_t *v, const uint64_t *s, int columns);
int keep(struct basis *basis, const uint64_t *v);
int take(struct basis *basis, int a, int columns, uint64_t *workspace);
void eliminate(struct basis *basis, const uint8_t *mask, int columns, uint64_t *workspace);
void mark_below(const struct basis *basis, int columns, uint8_t *marks);
void part_mask(uint8_t *part, const uint8_t *set, const uint8_t *table, int side);
void clear(uint64_t *workspace);

// Whether the row has a one in the column c.
static inline int has(const uint64_t *row, int c) {
    return row[c / 64] >> (c % 64) & 1;
}

// Adds row s to row v.
static inline void add(uint64_t *v, const uint64_t *s) {
    for (int k = 0; k < WORDS; k++)
        v[k] ^= s[k];
}
