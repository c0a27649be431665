// Judge of the proved library in C, by the same steps: rows made once, an elimination with all columns for each part and
// the set, the ranks at each degree from its pivots, each side's first difference, the mark, the mask of the set's kept
// points from the pivots, and by back substitution the witness of each side that differs at the first of both.
#include "elimination.h"
#include <string.h>

// The number of degrees, which stands for no degree, and the number for no side.
enum { DEGREES = 10, NO_SIDE = 2 };

// Takes rows of the mask's points until one is kept; whether one is.
static int take_new(struct basis *basis, const uint8_t *mask, int columns, uint64_t *workspace) {
    for (int a = 0; basis->kept < POINTS && a < POINTS; a++)
        if (mask[a] == 1 && take(basis, a, columns, workspace))
            return 1;
    return 0;
}

// The row that is odd with the last kept row and even with the others, with ones at their pivots only.
static void solve_last(const struct basis *basis, const uint64_t *workspace, uint64_t *x) {
    size_t last = basis->kept - 1;
    memset(x, 0, WORDS * sizeof *x);
    x[basis->pivots[last] / 64] = (uint64_t)1 << (basis->pivots[last] % 64);
    for (size_t j = last; j-- > 0;) {
        uint64_t common = 0;
        for (int k = 0; k < WORDS; k++)
            common ^= workspace[j * WORDS + k] & x[k];
        x[basis->pivots[j] / 64] |= (uint64_t)__builtin_parityll(common) << (basis->pivots[j] % 64);
    }
}

// The witness becomes the exponents of n taps whose columns have a one in the row.
static void write_choice(uint8_t *witness, size_t n, const uint64_t *row) {
    const uint16_t *order = graded_order();
    int count = 0;
    for (int i = 0; i < POINTS; i++)
        if (order[i] >> n == 0)
            witness[order[i]] = has(row, count++);
}

// The witness against a part of the set that differs at degree d, into zeros.
static void write_witness(uint8_t *witness, const uint8_t *set, const uint8_t *part, size_t n, size_t d,
                          uint64_t *workspace) {
    int columns = column_count(n, d);
    struct basis basis;
    uint64_t row[WORDS];
    eliminate(&basis, part, columns, workspace);
    if (!take_new(&basis, set, columns, workspace))
        return;
    solve_last(&basis, workspace, row);
    write_choice(witness, n, row);
}

// Takes the row of the point a with all columns, and tallies each addition at the pivot of the row added.
static void take_tallied(struct basis *basis, uint32_t *tally, int a, uint64_t *workspace) {
    uint64_t *v = workspace + basis->kept * WORDS;
    memcpy(v, workspace + (POINTS + a) * WORDS, WORDS * sizeof *v);
    for (size_t j = 0; j < basis->kept; j++) {
        int c = basis->pivots[j];
        if (has(v, c)) {
            add(v, workspace + j * WORDS);
            tally[c]++;
        }
    }
    keep(basis, v);
}

// The elimination of the mask's points with all columns, and at each column how often the row with that pivot is added.
static void eliminate_tallied(struct basis *basis, uint32_t *tally, const uint8_t *mask, uint64_t *workspace) {
    basis->kept = 0;
    memset(tally, 0, POINTS * sizeof *tally);
    for (int a = 0; a < POINTS; a++)
        if (mask[a] == 1) {
            basis->points[basis->kept] = a;
            take_tallied(basis, tally, a, workspace);
        }
}

// How many of the pivots are among the first `columns` columns.
static size_t pivots_below(const struct basis *basis, int columns) {
    size_t count = 0;
    for (size_t j = 0; j < basis->kept; j++)
        count += basis->pivots[j] < columns;
    return count;
}

// The sum of the tally at the first `columns` columns.
static uint32_t tally_below(const uint32_t *tally, int columns) {
    uint32_t sum = 0;
    for (int c = 0; c < columns; c++)
        sum += tally[c];
    return sum;
}

// The ranks of the three masks at each degree; all additions. The columns of a degree are the first ones, and a kept row
// whose pivot is past them is zero in them. The first mask is taken last, and the basis is that of its points.
static uint32_t all_ranks(size_t ranks[DEGREES][3], struct basis *basis, const uint8_t *masks[3], size_t n,
                          uint64_t *workspace) {
    int columns[DEGREES];
    uint32_t additions = 0, tally[POINTS];
    memset(ranks, 0, DEGREES * sizeof *ranks);
    for (size_t d = 0; d <= n; d++)
        columns[d] = column_count(n, d);
    for (int turn = 1; turn <= 3; turn++) {
        int i = turn % 3;
        eliminate_tallied(basis, tally, masks[i], workspace);
        for (size_t d = 0; d <= n; d++) {
            ranks[d][i] = pivots_below(basis, columns[d]);
            additions += tally_below(tally, columns[d]);
        }
    }
    return additions;
}

// The first degree at which the rank of the mask i is not that of the set, or DEGREES if there is none.
static size_t first_difference(size_t ranks[DEGREES][3], int i) {
    size_t d = 0;
    while (d < DEGREES && ranks[d][i] == ranks[d][0])
        d++;
    return d;
}

// Whether the rank of the mask i is not that of the set at degree k, if that is a degree.
static int differs(size_t ranks[DEGREES][3], size_t k, int i) {
    return k < DEGREES && ranks[k][i] != ranks[k][0];
}

// The first degree at which twice the rank of the set exceeds the number of its points, which is its rank at n, or
// DEGREES if there is none.
static size_t mark_of(size_t ranks[DEGREES][3], size_t n) {
    size_t d = 0;
    while (d < DEGREES && 2 * ranks[d][0] <= ranks[n][0])
        d++;
    return d;
}

// Judge of a filter of n taps; the workspace is zero at exit. A degree or a mark that there is not becomes DEGREES, and a
// side NO_SIDE. Where there is no degree, the set has no point, and nothing is kept of it.
void c_judge(const uint8_t *set, const uint8_t *table, size_t n, uint64_t *workspace, uint8_t *one, uint8_t *zero,
             uint8_t *kept, size_t ranks[DEGREES][3], size_t *degree, uint8_t *side, uint32_t *additions,
             size_t own_degrees[2], size_t *mark) {
    uint8_t part_one[POINTS], part_zero[POINTS];
    const uint8_t *masks[3] = {set, part_one, part_zero};
    struct basis of_set;
    part_mask(part_one, set, table, 1);
    part_mask(part_zero, set, table, 0);
    prepare(n, workspace);
    *additions = all_ranks(ranks, &of_set, masks, n, workspace);
    own_degrees[0] = first_difference(ranks, 1);
    own_degrees[1] = first_difference(ranks, 2);
    size_t k = own_degrees[0] < own_degrees[1] ? own_degrees[0] : own_degrees[1];
    mark_below(&of_set, column_count(n, k), kept);
    memset(one, 0, POINTS);
    memset(zero, 0, POINTS);
    if (differs(ranks, k, 1))
        write_witness(one, set, part_one, n, k, workspace);
    if (differs(ranks, k, 2))
        write_witness(zero, set, part_zero, n, k, workspace);
    clear(workspace);
    *degree = k;
    *side = k < DEGREES ? differs(ranks, k, 1) : NO_SIDE;
    *mark = mark_of(ranks, n);
}
