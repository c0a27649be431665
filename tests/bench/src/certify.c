// Certify of the proved library in C, by the same steps: the mask of the part's kept points, an elimination of these in
// which the combination of each kept row stands in the place of its point, and the sums of the points outside the part, up
// to the first of which something is left.
#include "elimination.h"
#include <string.h>

enum { RANKS_DIFFER = 12 };

// The row of the point a, put after the kept rows, is reduced by them. In its place comes the sum of what is given and of
// the combinations of the rows added, each of which stands in the place of its point. The row that is left.
static uint64_t *combine(const struct basis *basis, int a, uint64_t *sum, int columns, uint64_t *workspace) {
    uint64_t *v = workspace + basis->kept * WORDS, *place = workspace + (POINTS + a) * WORDS;
    copy_columns(v, place, columns);
    for (size_t j = 0; j < basis->kept; j++)
        if (has(v, basis->pivots[j])) {
            add(v, workspace + j * WORDS);
            add(sum, workspace + (POINTS + basis->points[j]) * WORDS);
        }
    memcpy(place, sum, WORDS * sizeof *sum);
    return v;
}

// The elimination of the mask's points; the combination of each stands in its place.
static void eliminate_combining(struct basis *basis, const uint8_t *mask, int columns, uint64_t *workspace) {
    basis->kept = 0;
    for (int q = 0; q < POINTS; q++) {
        if (mask[q] != 1)
            continue;
        uint64_t sum[WORDS] = {0};
        sum[q / 64] = (uint64_t)1 << (q % 64);
        uint64_t *v = combine(basis, q, sum, columns, workspace);
        basis->points[basis->kept] = q;
        keep(basis, v);
    }
}

// Whether the row is zero.
static int is_zero(const uint64_t *row) {
    uint64_t ones = 0;
    for (int k = 0; k < WORDS; k++)
        ones |= row[k];
    return ones == 0;
}

// For each point of the set outside the part the combination of the rows added to its row comes in its place, up to the
// first row of which something is left; whether there is none such.
static int combine_outside(const struct basis *basis, const uint8_t *set, const uint8_t *part, int columns,
                           uint64_t *workspace) {
    for (int a = 0; a < POINTS; a++) {
        uint64_t sum[WORDS] = {0};
        if (set[a] == 1 && part[a] != 1 && !is_zero(combine(basis, a, sum, columns, workspace)))
            return 0;
    }
    return 1;
}

// The certificate becomes the rows in the places of the points of the set outside the part, and zeros for all others.
static void write_certificate(const uint64_t *workspace, const uint8_t *set, const uint8_t *part,
                              uint64_t *certificate) {
    memset(certificate, 0, POINTS * WORDS * sizeof *certificate);
    for (int a = 0; a < POINTS; a++)
        if (set[a] == 1 && part[a] != 1)
            memcpy(certificate + a * WORDS, workspace + (POINTS + a) * WORDS, WORDS * sizeof *certificate);
}

// Certify of a filter of n taps; 0, or 12 where the ranks differ. The workspace is zero at exit.
uint8_t c_certify(const uint8_t *set, const uint8_t *table, size_t n, uint8_t side, size_t d, uint64_t *workspace,
                  uint64_t *certificate) {
    int columns = column_count(n, d);
    uint8_t part[POINTS], kept[POINTS];
    struct basis basis;
    part_mask(part, set, table, side);
    prepare(n, workspace);
    eliminate(&basis, part, columns, workspace);
    mark_below(&basis, POINTS, kept);
    eliminate_combining(&basis, kept, columns, workspace);
    int equal = combine_outside(&basis, set, part, columns, workspace);
    if (equal)
        write_certificate(workspace, set, part, certificate);
    clear(workspace);
    return equal ? 0 : RANKS_DIFFER;
}
