// The elimination of the proved kernel in C: packed rows of eight words, made once; kept rows with stored pivots.
#include "elimination.h"
#include <string.h>

// The graded order, by weight and by number within a weight.
const uint16_t *graded_order(void) {
    static uint16_t order[POINTS];
    static int made;
    int count = 0;
    if (made)
        return order;
    for (int w = 0; w <= 9; w++)
        for (int u = 0; u < POINTS; u++)
            if (__builtin_popcount(u) == w)
                order[count++] = u;
    made = 1;
    return order;
}

// The row of the point a at the given columns.
static void make_row(const uint16_t *columns, int a, uint64_t *row) {
    for (int k = 0; k < WORDS; k++) {
        uint64_t word = 0;
        for (int i = 63; i >= 0; i--)
            word = word * 2 + ((columns[k * 64 + i] & a) == columns[k * 64 + i]);
        row[k] = word;
    }
}

// Row a is the row of the point a of n taps, from the last one down: where a is the common bits of two later points,
// the common ones of their rows.
static void make_rows(const uint16_t *columns, int n, uint64_t *rows) {
    int size = 1 << n, low = 1 << (n / 2);
    for (int a = size - 1; a >= 0; a--) {
        int l = a & (low - 1), p = a - l + (low - 1), q = size - low + l;
        if (a < p && a < q)
            for (int k = 0; k < WORDS; k++)
                rows[a * WORDS + k] = rows[p * WORDS + k] & rows[q * WORDS + k];
        else
            make_row(columns, a, rows + a * WORDS);
    }
}

// Row v becomes the first `columns` entries of row s.
void copy_columns(uint64_t *v, const uint64_t *s, int columns) {
    for (int k = 0; k < WORDS; k++) {
        int left = columns - k * 64;
        v[k] = left >= 64 ? s[k] : left <= 0 ? 0 : s[k] & (((uint64_t)1 << left) - 1);
    }
}

// Keeps the reduced row v, which stands after the kept rows, if it is not zero; whether it is kept.
int keep(struct basis *basis, const uint64_t *v) {
    for (int k = 0; k < WORDS; k++)
        if (v[k]) {
            basis->pivots[basis->kept++] = k * 64 + __builtin_ctzll(v[k]);
            return 1;
        }
    return 0;
}

// Takes the row of the point a: it is reduced by the kept rows, and kept if it is not zero; whether it is kept.
int take(struct basis *basis, int a, int columns, uint64_t *workspace) {
    size_t kept = basis->kept;
    uint64_t *v = workspace + kept * WORDS;
    uint32_t count = 0;
    copy_columns(v, workspace + (POINTS + a) * WORDS, columns);
    for (size_t j = 0; j < kept; j++)
        if (has(v, basis->pivots[j])) {
            add(v, workspace + j * WORDS);
            count++;
        }
    basis->additions += count;
    return keep(basis, v);
}

// The elimination of the mask's points.
void eliminate(struct basis *basis, const uint8_t *mask, int columns, uint64_t *workspace) {
    basis->kept = 0;
    basis->additions = 0;
    for (int a = 0; a < POINTS; a++)
        if (mask[a] == 1) {
            basis->points[basis->kept] = a;
            take(basis, a, columns, workspace);
        }
}

// The marks become 1 at the points of the rows with pivots among the first `columns` columns, and 0 elsewhere.
void mark_below(const struct basis *basis, int columns, uint8_t *marks) {
    memset(marks, 0, POINTS);
    for (size_t j = 0; j < basis->kept; j++)
        if (basis->pivots[j] < columns)
            marks[basis->points[j]] = 1;
}

// The rows of all points of n taps at degree n, in the second half of the workspace.
void prepare(size_t n, uint64_t *workspace) {
    const uint16_t *order = graded_order();
    uint16_t listed[POINTS];
    int count = 0;
    memset(listed, 0xff, sizeof listed);
    for (int i = 0; i < POINTS; i++)
        if (order[i] >> n == 0)
            listed[count++] = order[i];
    make_rows(listed, n, workspace + POINTS * WORDS);
}

// The number of columns of n taps at degree d.
int column_count(size_t n, size_t d) {
    int count = 0;
    for (int u = 0; u < 1 << n; u++)
        count += (size_t)__builtin_popcount(u) <= d;
    return count;
}

// The mask of the points of the set where the table is the side.
void part_mask(uint8_t *part, const uint8_t *set, const uint8_t *table, int side) {
    for (int a = 0; a < POINTS; a++)
        part[a] = set[a] == 1 && table[a] == side;
}

// Every number of the workspace becomes zero.
void clear(uint64_t *workspace) {
    memset(workspace, 0, 2 * POINTS * WORDS * sizeof *workspace);
}

// The rank of the mask's points of n taps at degree d, and the mask of the kept points; the workspace is zero at exit.
size_t c_rank(const uint8_t *mask, size_t n, size_t d, uint64_t *workspace, uint8_t *kept, uint32_t *additions) {
    struct basis basis;
    prepare(n, workspace);
    eliminate(&basis, mask, column_count(n, d), workspace);
    mark_below(&basis, POINTS, kept);
    clear(workspace);
    *additions = basis.additions;
    return basis.kept;
}
