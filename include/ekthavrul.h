/*
 * The proved operations for C: link libexports.a, which `rt lib` in crates/exports writes to its out/.
 * docs/SPECIFICATION.md says what each operation does.
 *
 * n is the number of taps. A point is a number below 2 to the power n, read in base 2 as x1 (highest bit) to xn.
 * An exponent is such a number too: its ones name the variables of a monomial.
 * A mask is EKTHAVRUL_POINTS bytes: byte a is 0 or 1 for a below 2 to the power n, and 0 from there on. A set, a table,
 * the kept points and the coefficients of a polynomial are masks; a byte of the coefficients stands for an exponent, one
 * of the others for a point.
 * S is the set and f the table. Part 1 is the points of S where f is 1, part 0 those where it is 0; side 1 has part 1,
 * and side 0 has part 0.
 * The row of a point at degree d has a column for each exponent with at most d ones: 1 where each one of the exponent is a
 * one of the point, else 0; rows are added modulo 2.
 * A point of a mask is kept at degree d if its row at d is no sum of the rows of smaller points of the mask. There are as
 * many kept points as the rank at d, and they alone have that rank.
 *
 * A slice is a pointer and its length in elements; the pointer is never null. What is written to, a slice or a number,
 * overlaps with nothing else that is lent. Every length may be passed: a wrong one is refused. The memory is there for the
 * whole of the length that is passed, also where that is wrong: the bytes of a mask are looked at even then. Every other
 * pointer is to one object.
 *
 * Each operation but Hand over answers a status: EKTHAVRUL_ACCEPTED, or the number of the first refusal, in the order that
 * stands above its declaration, where EKTHAVRUL_REFUSED_ is left out of the names. A refusal leaves all that is lent as it
 * was; RANKS_DIFFER alone clears the workspace. An accepted operation leaves the workspace all zero; what stands in it
 * before does not matter.
 *
 * The library holds no state: threads may call it side by side, each with buffers of its own. It is for Linux on x86-64,
 * and calls memcpy and memset.
 */
#ifndef EKTHAVRUL_H
#define EKTHAVRUL_H

#include <stddef.h>
#include <stdint.h>

/*
 * The version of this header. MAJOR rises where a program that compiled before may not compile, or means something else;
 * MINOR rises where something is added, and is 0 again where MAJOR rises.
 */
#define EKTHAVRUL_VERSION_MAJOR 1
#define EKTHAVRUL_VERSION_MINOR 1

#ifdef __cplusplus
extern "C" {
#endif

/* Sizes: the taps at most, and the lengths of the buffers in elements. */
enum {
    EKTHAVRUL_TAPS_MAX = 9,
    EKTHAVRUL_POINTS = 512,       /* a mask or a witness, in bytes */
    EKTHAVRUL_WORKSPACE = 8192,   /* a workspace, in numbers of 64 bits */
    EKTHAVRUL_CERTIFICATE = 4096, /* a certificate, in numbers of 64 bits */
    EKTHAVRUL_ROW_WORDS = 8,      /* a point's row of a certificate, in numbers of 64 bits */
    EKTHAVRUL_REPORT = 36,        /* the report of Judge, in numbers of 32 bits */
    EKTHAVRUL_FILE_MAX = 2053,    /* no filter file that is read or written is longer, in bytes */
    EKTHAVRUL_STACK = 8192        /* no call takes more stack, in bytes: measured, not proved */
};

/*
 * The report of Judge: the index of each of its numbers. The ranks of degree d, from 0 to 9, stand
 * EKTHAVRUL_RANKS_OF_DEGREE * d behind those of degree 0, so that the rank of part 1 at degree d is
 * report[EKTHAVRUL_RANKS_OF_DEGREE * d + EKTHAVRUL_RANK_ONE_AT].
 * Later versions may append numbers: EKTHAVRUL_REPORT and EKTHAVRUL_VERSION_MINOR grow then, and no index changes. All
 * EKTHAVRUL_REPORT numbers are written, and no other length is accepted: a program that was compiled before numbers were
 * appended lends too few, and is refused by EKTHAVRUL_REFUSED_LENGTH; its memory stays as it was.
 */
enum {
    EKTHAVRUL_RANK_SET_AT = 0,     /* the rank of S at degree 0 */
    EKTHAVRUL_RANK_ONE_AT = 1,     /* that of part 1 */
    EKTHAVRUL_RANK_ZERO_AT = 2,    /* that of part 0 */
    EKTHAVRUL_RANKS_OF_DEGREE = 3, /* how many ranks each degree has */
    EKTHAVRUL_DEGREE_AT = 30,      /* the reported degree, or EKTHAVRUL_NO_DEGREE */
    EKTHAVRUL_SIDE_AT = 31,        /* the side, or EKTHAVRUL_NO_SIDE */
    EKTHAVRUL_ADDITIONS_AT = 32,   /* the count of additions of rows */
    EKTHAVRUL_DEGREE_ONE_AT = 33,  /* side 1's own degree, or EKTHAVRUL_NO_DEGREE */
    EKTHAVRUL_DEGREE_ZERO_AT = 34, /* that of side 0 */
    EKTHAVRUL_MARK_AT = 35         /* the mark: no table has a higher reported degree on S; or EKTHAVRUL_NO_DEGREE */
};

/*
 * The numbers in the report for what there is not. The reported degree, the side and the mark are none exactly where S has
 * no point. A side's own degree is none exactly where the side's part is all of S; where S has no point, both parts are.
 */
enum {
    EKTHAVRUL_NO_DEGREE = 10, /* no reported degree, no own degree of a side, or no mark; it is over every n */
    EKTHAVRUL_NO_SIDE = 2     /* no side; it is over both sides */
};

/* What an operation answers; none answers 6. */
enum {
    EKTHAVRUL_ACCEPTED = 0,
    EKTHAVRUL_REFUSED_LENGTH = 1,          /* a buffer other than an output or a wiring has the wrong length */
    EKTHAVRUL_REFUSED_FILE_ENDS = 2,       /* the file ends before or inside a number */
    EKTHAVRUL_REFUSED_NUMBER_FORM = 3,     /* a number is not in its shortest form, or has more than two groups */
    EKTHAVRUL_REFUSED_TAPS = 4,            /* n is not from 1 to 9 */
    EKTHAVRUL_REFUSED_RANGE = 5,           /* a count over 2^n, a difference of 0, or a point of 2^n or more */
    EKTHAVRUL_REFUSED_SURPLUS = 7,         /* bytes remain after the file's last number */
    EKTHAVRUL_REFUSED_BYTES = 8,           /* a byte of a mask is not 0 or 1, or not 0 past the last point */
    EKTHAVRUL_REFUSED_ZERO_POLYNOMIAL = 9, /* the zero polynomial has no degree */
    EKTHAVRUL_REFUSED_DEGREE = 10,         /* the degree d is over n */
    EKTHAVRUL_REFUSED_SIDE = 11,           /* the side is neither 0 nor 1 */
    EKTHAVRUL_REFUSED_RANKS_DIFFER = 12,   /* at d the part's rank is not that of the set */
    EKTHAVRUL_REFUSED_SHORT_OUTPUT = 13,   /* the output is shorter than the file */
    EKTHAVRUL_REFUSED_WIRING = 14          /* the wiring does not have n entries that name each tap from 1 to n once */
};

/*
 * Read: what a filter file says. `*n` becomes the number of taps, `set` the mask of the set S, which may have no point,
 * and `table` that of the points where f is 1.
 * Refusals: LENGTH (set, table), then number by number FILE_ENDS, NUMBER_FORM and its own rule, TAPS or RANGE; last
 * SURPLUS.
 */
uint8_t ekthavrul_read(const uint8_t *file, size_t file_length, uint8_t *set, size_t set_length, uint8_t *table,
                       size_t table_length, size_t *n);

/*
 * Write: the filter file of n, the set and the table, which Read takes back to them. The first bytes of `output` become
 * the file, the rest stays as it was, and `*length` becomes the length of the file. Every output is accepted that is not
 * shorter than the file; 2,053 bytes, EKTHAVRUL_FILE_MAX, are enough for every file. Where Write refuses, `*length` is as
 * it was, like all that is lent.
 * Refusals: LENGTH (set, table), TAPS, BYTES (set, then table), SHORT_OUTPUT.
 */
uint8_t ekthavrul_write(const uint8_t *set, size_t set_length, const uint8_t *table, size_t table_length, size_t n,
                        uint8_t *output, size_t output_length, size_t *length);

/*
 * Rearrange: the taps of the filter, rearranged by a wiring. Tap 1 is x1, the highest bit of a point. The wiring is n
 * bytes: entry i, counted from 1, is the old tap that becomes tap i, each tap from 1 to n once. `set` and `table` become
 * the rearranged ones: at each point below 2^n the byte of the old point that has at tap wiring[i - 1] what the point has
 * at tap i, for each i; the bytes from 2^n on stay 0. The wiring that has at entry wiring[i - 1], counted from 1, the
 * number i, for each i, restores both. The ranks of S and of both parts at each degree are the same before and after, and
 * so are the degree, the side, the sides' own degrees and the mark; the additions, the witnesses and the kept points may
 * change.
 * Refusals: LENGTH (set, table), TAPS, BYTES (set, then table), WIRING.
 */
uint8_t ekthavrul_rearrange(uint8_t *set, size_t set_length, uint8_t *table, size_t table_length, size_t n,
                            const uint8_t *wiring, size_t wiring_length);

/*
 * Convert: the table of a polynomial's values becomes its coefficients, and coefficients become the table.
 * Refusals: LENGTH, TAPS, BYTES.
 */
uint8_t ekthavrul_convert(uint8_t *bytes, size_t length, size_t n);

/*
 * Degree: `*degree` becomes the degree of the polynomial with these coefficients, which stay as they are.
 * Refusals: LENGTH, TAPS, BYTES, ZERO_POLYNOMIAL.
 */
uint8_t ekthavrul_degree(const uint8_t *coefficients, size_t length, size_t n, uint32_t *degree);

/*
 * Rank: `*rank` becomes the rank of the rows of the mask's points at degree d, `*additions` the count of additions of
 * rows, and `kept` the mask of the points of the mask that are kept at d, whatever it held. A refusal leaves `kept` as it
 * was, like all that is lent.
 * Refusals: LENGTH (mask, workspace, kept), TAPS, BYTES, DEGREE.
 */
uint8_t ekthavrul_rank(const uint8_t *mask, size_t mask_length, size_t n, size_t d, uint64_t *workspace,
                       size_t workspace_length, uint8_t *kept, size_t kept_length, size_t *rank, uint32_t *additions);

/*
 * Judge: the restricted immunity of the filter. The report becomes: for each degree d up to n the ranks of S, of part 1
 * and of part 0, and 0 for those past n; as the degree the first d at which a part's rank is not that of S; as the side
 * 1 if part 1 differs there, else 0; as the additions the count over all eliminations; as each side's own degree the
 * first d up to n at which the rank of that side's part is not that of S, or EKTHAVRUL_NO_DEGREE if there is none, which
 * is so exactly where the part is all of S; as the mark the first d at which twice the rank of S exceeds the number of
 * points of S. Where S has a point, there is a degree, a side and a mark, and the mark is at most n. The degree is the
 * smaller of the sides' own that exist, and it is never over the mark. `one` and `zero` become the coefficients of the
 * witness of their side, a polynomial of the reported degree that is zero on the part and not on all of S, or zeros if the
 * side does not differ at that degree. `kept` becomes the mask of the points of S that are kept at the reported degree,
 * whatever it held.
 * Where S has no point, the ranks and the additions are 0, the degree, both own degrees and the mark EKTHAVRUL_NO_DEGREE,
 * and the side EKTHAVRUL_NO_SIDE; `one`, `zero` and `kept` become zeros, whatever they held.
 * A refusal leaves the report and `kept` as they were, like all that is lent.
 * Refusals: LENGTH (set, table, workspace, one, zero, kept, report), TAPS, BYTES (set, then table).
 */
uint8_t ekthavrul_judge(const uint8_t *set, size_t set_length, const uint8_t *table, size_t table_length, size_t n,
                        uint64_t *workspace, size_t workspace_length, uint8_t *one, size_t one_length, uint8_t *zero,
                        size_t zero_length, uint8_t *kept, size_t kept_length, uint32_t *report, size_t report_length);

/*
 * Certify: why no polynomial up to degree d is zero on the side's part and not on all of S: for each point a of S
 * outside the part, bit q % 64 of certificate[8 * a + q / 64] becomes 1 exactly for the points q of the part that are
 * kept at d and whose rows at d sum to the row of a. All other bits become 0. Where S has no point, that is all bits, and
 * the ranks are equal at every d.
 * Refusals: LENGTH (set, table, workspace, certificate), TAPS, BYTES (set, then table), DEGREE, SIDE, RANKS_DIFFER.
 */
uint8_t ekthavrul_certify(const uint8_t *set, size_t set_length, const uint8_t *table, size_t table_length, size_t n,
                          uint8_t side, size_t d, uint64_t *workspace, size_t workspace_length, uint64_t *certificate,
                          size_t certificate_length);

/*
 * Check: whether the numbers are a certificate of the side at degree d, whoever made it. The certificate names the
 * point q for the point a if bit q % 64 of certificate[8 * a + q / 64] is 1. `*yes` becomes 1 exactly if for each point
 * of S outside the part only points of the part are named and their rows at degree d sum to its row, and every other
 * bit of the EKTHAVRUL_CERTIFICATE numbers is 0; else it becomes 0. What Certify writes gets a yes, and so do other
 * sums that are right. A yes implies that the ranks of S and of the part are equal at d, whoever made the certificate:
 * no polynomial up to degree d is zero on the part and not on all of S. Where they differ, every certificate gets a no.
 * Where S has no point, zeros alone get a yes.
 * Any numbers may be lent, and nothing but `*yes` is written; where Check refuses, it is as it was.
 * Refusals: LENGTH (set, table, certificate), TAPS, BYTES (set, then table), DEGREE, SIDE.
 */
uint8_t ekthavrul_check(const uint8_t *set, size_t set_length, const uint8_t *table, size_t table_length, size_t n,
                        uint8_t side, size_t d, const uint64_t *certificate, size_t certificate_length, uint8_t *yes);

/*
 * Hand over: answers the length of the side's part of the two witness buffers, which is 2^n: the coefficients of the
 * exponents below 2^n. The part is copied to the front of `copy`, as many bytes as there is room for.
 * Its only refusal is the length 0, with `copy` as it was: n, the side or the length of a buffer is wrong.
 */
size_t ekthavrul_hand_over(size_t n, uint8_t side, const uint8_t *one, size_t one_length, const uint8_t *zero,
                           size_t zero_length, uint8_t *copy, size_t copy_length);

#ifdef __cplusplus
}
#endif

#endif
