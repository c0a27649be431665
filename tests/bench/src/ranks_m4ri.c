// The rank of a matrix of points against monomials by M4RI: the matrix is built, then echelonized.
#include <m4ri/m4ri.h>
#include <stddef.h>
#include <stdint.h>

enum { POINTS = 512 };

// The points of the mask; how many.
static int list_points(const uint8_t *mask, int *points) {
    int count = 0;
    for (int a = 0; a < POINTS; a++)
        if (mask[a] == 1)
            points[count++] = a;
    return count;
}

// The exponents of n taps and weight at most d; how many.
static int list_exponents(size_t n, size_t d, int *exponents) {
    int count = 0;
    for (int u = 0; u < 1 << n; u++)
        if ((size_t)__builtin_popcount(u) <= d)
            exponents[count++] = u;
    return count;
}

// Writes the row of the point a into row i of the matrix, 64 columns at a time.
static void write_row(mzd_t *matrix, int i, int a, const int *exponents, int columns) {
    for (int first = 0; first < columns; first += 64) {
        int width = columns - first < 64 ? columns - first : 64;
        word bits = 0;
        for (int c = width - 1; c >= 0; c--)
            bits = bits * 2 + ((exponents[first + c] & a) == exponents[first + c]);
        mzd_xor_bits(matrix, i, first, width, bits);
    }
}

// The matrix of the mask's points of n taps at degree d; none where the mask is empty.
mzd_t *m4ri_build(const uint8_t *mask, size_t n, size_t d) {
    int points[POINTS], exponents[POINTS];
    int rows = list_points(mask, points), columns = list_exponents(n, d, exponents);
    if (rows == 0)
        return NULL;
    mzd_t *matrix = mzd_init(rows, columns);
    for (int i = 0; i < rows; i++)
        write_row(matrix, i, points[i], exponents, columns);
    return matrix;
}

// The rank of the matrix, 0 for none; the matrix is echelonized and freed.
size_t m4ri_echelonize(mzd_t *matrix) {
    if (!matrix)
        return 0;
    size_t rank = mzd_echelonize(matrix, 0);
    mzd_free(matrix);
    return rank;
}
