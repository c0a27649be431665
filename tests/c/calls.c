/*
 * Calls every function of the header: with numbered cases of the specification, but Rearrange with a filter of its own;
 * and each at least once so that it refuses.
 */
#include <ekthavrul.h>
#include <stdio.h>
#include <string.h>

#if EKTHAVRUL_VERSION_MAJOR != 1
#error "these are the calls of version 1"
#endif

enum { POINTS = EKTHAVRUL_POINTS };

/* The file of the printed sheet. */
static const uint8_t printed_file[] = {0x02, 0x04, 0x00, 0x01, 0x01, 0x01, 0x01, 0x03};

static uint64_t workspace[EKTHAVRUL_WORKSPACE], certificate[EKTHAVRUL_CERTIFICATE];
static uint8_t set[POINTS], table[POINTS], one[POINTS], zero[POINTS], kept[POINTS];
static int faults;

/* Counts a fault, and says which, unless the condition holds. */
static void expect(int condition, const char *what) {
    if (!condition) {
        printf("wrong: %s\n", what);
        faults++;
    }
}

/* The mask becomes 1 at the points of the list, which ends in -1, and 0 elsewhere. */
static void choose(uint8_t *mask, const int *points) {
    memset(mask, 0, POINTS);
    for (; *points >= 0; points++)
        mask[*points] = 1;
}

/* Whether every byte is this one. */
static int all(const void *memory, size_t length, uint8_t byte) {
    const uint8_t *bytes = memory;
    while (length > 0 && bytes[length - 1] == byte)
        length--;
    return length == 0;
}

/* Whether every byte is 0. */
static int zeros(const void *memory, size_t length) {
    return all(memory, length, 0);
}

/* Every byte of the mask of the kept points becomes one that no mask has. */
static void spoil_kept(void) {
    memset(kept, 77, sizeof kept);
}

/* Whether the mask marks the points of the list, which ends in -1. */
static int marks(const uint8_t *mask, const int *points) {
    uint8_t wanted[POINTS];
    choose(wanted, points);
    return memcmp(mask, wanted, sizeof wanted) == 0;
}

/* Whether the mask of the kept points marks the points of the list, which ends in -1. */
static int kept_are(const int *points) {
    return marks(kept, points);
}

/* Whether the mask of the kept points is as it was spoiled. */
static int kept_stays(void) {
    return all(kept, sizeof kept, 77);
}

/* Read of the file of the printed sheet leaves its filter in the set and the table. */
static void check_read(void) {
    size_t n = 77, length = sizeof printed_file;
    expect(ekthavrul_read(printed_file, length - 1, set, POINTS, table, POINTS, &n) == EKTHAVRUL_REFUSED_FILE_ENDS &&
               n == 77,
           "Read refuses");
    expect(ekthavrul_read(printed_file, length, set, POINTS, table, POINTS, &n) == 0 && n == 2, "Read accepts");
    expect(set[0] && set[1] && set[2] && set[3] && !set[4], "the set read");
    expect(!table[0] && !table[2] && table[3] && !table[4], "the table read");
}

/* Write of the filter of n taps into an output of so many bytes; its status. */
static uint8_t write_file(size_t n, uint8_t *output, size_t room, size_t *length) {
    return ekthavrul_write(set, POINTS, table, POINTS, n, output, room, length);
}

/* Write of what Read left is the file of the printed sheet; the byte behind it stays. A refusal leaves all as it was. */
static void check_write(void) {
    uint8_t output[sizeof printed_file + 1], entry[sizeof output];
    size_t length = 77, enough = sizeof printed_file;
    memset(output, 77, sizeof output);
    memcpy(entry, output, sizeof entry);
    expect(write_file(2, output, enough - 1, &length) == EKTHAVRUL_REFUSED_SHORT_OUTPUT,
           "Write refuses a short output");
    expect(write_file(1, output, sizeof output, &length) == EKTHAVRUL_REFUSED_BYTES,
           "Write refuses a point past the last");
    expect(length == 77, "the length after Write refused");
    expect(memcmp(output, entry, sizeof output) == 0, "the output after Write refused");
    expect(write_file(2, output, sizeof output, &length) == 0 && length == enough, "Write accepts");
    expect(memcmp(output, printed_file, enough) == 0 && output[enough] == 77, "the file written");
}

/* Convert and Degree: cases 1 and 3. */
static void check_normal_form(void) {
    uint8_t bytes[POINTS], wanted[POINTS];
    uint32_t degree = 77;
    choose(bytes, (int[]){7, -1});
    choose(wanted, (int[]){7, -1});
    expect(ekthavrul_convert(bytes, POINTS, 3) == 0 && memcmp(bytes, wanted, POINTS) == 0, "Convert, case 1");
    expect(ekthavrul_degree(bytes, POINTS, 3, &degree) == 0 && degree == 3, "Degree, case 1");
    expect(ekthavrul_convert(bytes, POINTS - 1, 3) == EKTHAVRUL_REFUSED_LENGTH, "Convert refuses a length");
    choose(bytes, (int[]){-1});
    expect(ekthavrul_degree(bytes, POINTS, 1, &degree) == EKTHAVRUL_REFUSED_ZERO_POLYNOMIAL && degree == 3,
           "Degree, case 3");
}

/* Rank of the mask of two taps at the degree, with so many bytes for the kept points, spoiled before; its status. */
static uint8_t rank_mask(const uint8_t *mask, size_t d, size_t length, size_t *rank, uint32_t *additions) {
    spoil_kept();
    return ekthavrul_rank(mask, POINTS, 2, d, workspace, EKTHAVRUL_WORKSPACE, kept, length, rank, additions);
}

/* Rank: case 4, and the set of case 5 at degree 1, where the last point is not kept. A refusal leaves all as it was. */
static void check_rank(void) {
    uint8_t none[POINTS] = {0};
    size_t rank = 77;
    uint32_t additions = 77;
    expect(rank_mask(none, 1, POINTS, &rank, &additions) == 0, "Rank, case 4");
    expect(rank == 0 && additions == 0 && kept_are((int[]){-1}), "the rank of no points");
    expect(rank_mask(set, 1, POINTS, &rank, &additions) == 0 && rank == 3, "Rank, case 5");
    expect(kept_are((int[]){0, 1, 2, -1}), "the kept points of case 5");
    expect(rank_mask(set, 3, POINTS, &rank, &additions) == EKTHAVRUL_REFUSED_DEGREE, "Rank refuses a degree");
    expect(rank == 3 && kept_stays(), "the kept points after Rank refused a degree");
    expect(rank_mask(set, 3, POINTS - 1, &rank, &additions) == EKTHAVRUL_REFUSED_LENGTH, "Rank refuses a length");
    expect(rank == 3 && kept_stays(), "the kept points after Rank refused a length");
}

/* Judge of the filter of n taps, with so many bytes for the kept points, spoiled before, and a report; its status. */
static uint8_t judge_lent(size_t n, size_t kept_length, uint32_t *report, size_t report_length) {
    spoil_kept();
    return ekthavrul_judge(set, POINTS, table, POINTS, n, workspace, EKTHAVRUL_WORKSPACE, one, POINTS, zero, POINTS,
                           kept, kept_length, report, report_length);
}

/* The same with as many as there must be. */
static uint8_t judge(size_t n, uint32_t *report) {
    return judge_lent(n, POINTS, report, EKTHAVRUL_REPORT);
}

/* Judge refuses a report of so many numbers, at most one more than there must be; all that is lent is as it was. */
static void check_report_length(size_t length) {
    uint32_t report[EKTHAVRUL_REPORT + 1];
    memset(report, 77, sizeof report);
    memset(workspace, 77, sizeof workspace);
    memset(one, 77, sizeof one);
    memset(zero, 77, sizeof zero);
    expect(judge_lent(2, POINTS, report, length) == EKTHAVRUL_REFUSED_LENGTH, "Judge refuses a report");
    expect(all(report, sizeof report, 77), "the report that Judge refused");
    expect(all(workspace, sizeof workspace, 77), "the workspace after Judge refused a report");
    expect(all(one, sizeof one, 77) && all(zero, sizeof zero, 77) && kept_stays(), "the masks after a refused report");
}

/* The report of case 5, lent with a number behind it, which stays; a refusal leaves all of it as it was. */
static void check_report(void) {
    const uint32_t wanted[EKTHAVRUL_REPORT] = {
        1, 1, 1, 3, 1, 3, 4, 1, 3, [EKTHAVRUL_DEGREE_AT] = 1, [EKTHAVRUL_SIDE_AT] = 1, [EKTHAVRUL_ADDITIONS_AT] = 19,
        [EKTHAVRUL_DEGREE_ONE_AT] = 1, [EKTHAVRUL_DEGREE_ZERO_AT] = 2, [EKTHAVRUL_MARK_AT] = 1};
    uint32_t report[EKTHAVRUL_REPORT + 1], entry[EKTHAVRUL_REPORT + 1];
    const uint32_t *last = report + 2 * EKTHAVRUL_RANKS_OF_DEGREE;
    memset(report, 77, sizeof report);
    memcpy(entry, report, sizeof entry);
    expect(judge(10, report) == EKTHAVRUL_REFUSED_TAPS && memcmp(report, entry, sizeof report) == 0,
           "Judge refuses taps");
    expect(kept_stays(), "the kept points after Judge refused taps");
    expect(judge_lent(10, POINTS - 1, report, EKTHAVRUL_REPORT) == EKTHAVRUL_REFUSED_LENGTH && kept_stays(),
           "Judge refuses a length");
    check_report_length(EKTHAVRUL_REPORT - 1);
    check_report_length(EKTHAVRUL_REPORT + 1);
    check_report_length(0);
    expect(judge(2, report) == 0 && memcmp(report, wanted, sizeof wanted) == 0, "Judge, case 5");
    expect(kept_are((int[]){0, 1, 2, -1}), "the kept points of case 5 at its degree");
    expect(report[EKTHAVRUL_REPORT] == entry[EKTHAVRUL_REPORT], "the number behind the report");
    expect(last[EKTHAVRUL_RANK_SET_AT] == 4 && last[EKTHAVRUL_RANK_ONE_AT] == 1 && last[EKTHAVRUL_RANK_ZERO_AT] == 3,
           "the ranks at degree 2");
}

/* Hand over of what Judge left: case 5. */
static void check_hand_over(void) {
    uint8_t copy[4] = {0};
    expect(ekthavrul_hand_over(2, 1, one, POINTS, zero, POINTS, copy, sizeof copy) == 4, "Hand over");
    expect(copy[0] == 1 && copy[1] == 1 && copy[2] == 0 && copy[3] == 0, "the witness handed over");
    expect(ekthavrul_hand_over(2, 2, one, POINTS, zero, POINTS, copy, sizeof copy) == 0, "Hand over refuses a side");
}

/* Certify of the filter of two taps at the side and the degree; its status. */
static uint8_t certify(uint8_t side, size_t d) {
    return ekthavrul_certify(set, POINTS, table, POINTS, 2, side, d, workspace, EKTHAVRUL_WORKSPACE, certificate,
                             EKTHAVRUL_CERTIFICATE);
}

/* Certify: case 5 at degree 0, and where the ranks differ. */
static void check_certify(void) {
    expect(certify(1, 0) == 0, "Certify, case 5, side 1");
    expect(certificate[0] == 8 && certificate[EKTHAVRUL_ROW_WORDS] == 8 && certificate[2 * EKTHAVRUL_ROW_WORDS] == 8 &&
               certificate[3 * EKTHAVRUL_ROW_WORDS] == 0,
           "the sums of side 1");
    expect(certify(0, 0) == 0 && certificate[0] == 0 && certificate[3 * EKTHAVRUL_ROW_WORDS] == 1, "side 0");
    expect(certify(1, 1) == EKTHAVRUL_REFUSED_RANKS_DIFFER, "Certify refuses where the ranks differ");
}

/* Check of the certificate, so many of its numbers, for side 0 of the filter of two taps at the degree; its status. */
static uint8_t check(size_t d, size_t length, uint8_t *yes) {
    return ekthavrul_check(set, POINTS, table, POINTS, 2, 0, d, certificate, length, yes);
}

/* Check answers so for side 0 of case 5 at the degree, and leaves the certificate as it was. */
static void check_answer(size_t d, uint8_t wanted, const char *what) {
    static uint64_t entry[EKTHAVRUL_CERTIFICATE];
    uint8_t yes = 77;
    memcpy(entry, certificate, sizeof entry);
    expect(check(d, EKTHAVRUL_CERTIFICATE, &yes) == 0 && yes == wanted, what);
    expect(memcmp(entry, certificate, sizeof entry) == 0, "the certificate after Check");
}

/* Check: case 5, the point 3 of side 0 as a sum of 0, which Certify leaves, of 0, 1 and 2, and of 0 and 1. */
static void check_check(void) {
    uint64_t *sum = certificate + 3 * EKTHAVRUL_ROW_WORDS;
    uint8_t yes = 77;
    check_answer(0, 1, "Check says yes to what Certify wrote");
    check_answer(1, 0, "Check says no at a higher degree");
    *sum = 7;
    check_answer(1, 1, "Check says yes to another sum");
    check_answer(2, 0, "Check says no where the ranks differ");
    *sum = 3;
    check_answer(0, 0, "Check says no to a wrong sum");
    *sum = 1;
    certificate[EKTHAVRUL_CERTIFICATE - 1] = 1;
    check_answer(0, 0, "Check says no to a bit of the last number");
    expect(check(3, EKTHAVRUL_CERTIFICATE, &yes) == EKTHAVRUL_REFUSED_DEGREE && yes == 77, "Check refuses a degree");
    expect(check(0, EKTHAVRUL_CERTIFICATE - 1, &yes) == EKTHAVRUL_REFUSED_LENGTH && yes == 77,
           "Check refuses a length");
}

/* Judge of the point 0 of one tap, with f one at the listed points: side 1's own degree and side 0's. */
static void check_own_degrees(const int *points, uint32_t of_one, uint32_t of_zero, const char *what) {
    uint32_t report[EKTHAVRUL_REPORT];
    choose(set, (int[]){0, -1});
    choose(table, points);
    expect(judge(1, report) == 0 && report[EKTHAVRUL_DEGREE_ONE_AT] == of_one &&
               report[EKTHAVRUL_DEGREE_ZERO_AT] == of_zero,
           what);
}

/* Judge, case 11, the six points of weight 2 in four taps, of rank 4 at degree 1: the mark is 1, and four are kept. */
static void check_mark(void) {
    uint32_t report[EKTHAVRUL_REPORT];
    choose(set, (int[]){3, 5, 6, 9, 10, 12, -1});
    choose(table, (int[]){3, 5, 6, -1});
    expect(judge(4, report) == 0 && report[EKTHAVRUL_RANKS_OF_DEGREE + EKTHAVRUL_RANK_SET_AT] == 4 &&
               report[EKTHAVRUL_MARK_AT] == 1 && report[EKTHAVRUL_DEGREE_AT] == 1,
           "Judge, case 11");
    expect(kept_are((int[]){3, 5, 6, 9, -1}), "the kept points of case 11 at its degree");
}

/* Rearrange of the filter of n taps by the wiring, of which so many entries are lent; its status. */
static uint8_t rearrange(size_t n, const uint8_t *wiring, size_t length) {
    return ekthavrul_rearrange(set, POINTS, table, POINTS, n, wiring, length);
}

/*
 * Rearrange of three taps: the old tap 2 becomes tap 1, 3 becomes 2 and 1 becomes 3, so that the old point 010 becomes 100
 * and 110 becomes 101. The inverse restores both masks, and a refusal leaves them as they were.
 */
static void check_rearrange(void) {
    const uint8_t wiring[] = {2, 3, 1}, inverse[] = {3, 1, 2}, twice[] = {2, 3, 2};
    choose(set, (int[]){2, 6, -1});
    choose(table, (int[]){6, -1});
    expect(rearrange(3, twice, sizeof twice) == EKTHAVRUL_REFUSED_WIRING, "Rearrange refuses a tap named twice");
    expect(rearrange(3, wiring, 2) == EKTHAVRUL_REFUSED_WIRING, "Rearrange refuses a short wiring");
    expect(rearrange(2, wiring, 2) == EKTHAVRUL_REFUSED_BYTES, "Rearrange refuses a point past the last");
    expect(marks(set, (int[]){2, 6, -1}) && marks(table, (int[]){6, -1}), "the masks after Rearrange refused");
    expect(rearrange(3, wiring, sizeof wiring) == 0, "Rearrange accepts");
    expect(marks(set, (int[]){4, 5, -1}) && marks(table, (int[]){5, -1}), "the masks rearranged");
    expect(rearrange(3, inverse, sizeof inverse) == 0, "Rearrange accepts the inverse");
    expect(marks(set, (int[]){2, 6, -1}) && marks(table, (int[]){6, -1}), "the masks restored");
}

/* The file of one tap, no point and f zero, read into masks that held other bytes, and written again. */
static void check_empty_file(void) {
    const uint8_t file[] = {0x01, 0x00, 0x00};
    uint8_t output[sizeof file];
    size_t n = 77, length = 77;
    memset(set, 77, sizeof set);
    memset(table, 77, sizeof table);
    expect(ekthavrul_read(file, 2, set, POINTS, table, POINTS, &n) == EKTHAVRUL_REFUSED_FILE_ENDS && n == 77,
           "Read of 01 00");
    expect(ekthavrul_read(file, sizeof file, set, POINTS, table, POINTS, &n) == 0 && n == 1, "Read of 01 00 00");
    expect(zeros(set, sizeof set) && zeros(table, sizeof table), "the set and the table of 01 00 00");
    expect(write_file(1, output, sizeof output, &length) == 0 && length == sizeof file, "Write of no point");
    expect(memcmp(output, file, sizeof file) == 0, "the file of no point");
}

/* Judge of no point of n taps, lent buffers that held other numbers: there is no degree, no side and no mark. */
static void check_empty_report(size_t n) {
    const uint32_t wanted[EKTHAVRUL_REPORT] = {[EKTHAVRUL_DEGREE_AT] = EKTHAVRUL_NO_DEGREE,
                                               [EKTHAVRUL_SIDE_AT] = EKTHAVRUL_NO_SIDE,
                                               [EKTHAVRUL_DEGREE_ONE_AT] = EKTHAVRUL_NO_DEGREE,
                                               [EKTHAVRUL_DEGREE_ZERO_AT] = EKTHAVRUL_NO_DEGREE,
                                               [EKTHAVRUL_MARK_AT] = EKTHAVRUL_NO_DEGREE};
    uint32_t report[EKTHAVRUL_REPORT];
    memset(report, 77, sizeof report);
    memset(workspace, 77, sizeof workspace);
    memset(one, 77, sizeof one);
    memset(zero, 77, sizeof zero);
    expect(judge(n, report) == 0 && memcmp(report, wanted, sizeof wanted) == 0, "Judge of no point");
    expect(zeros(one, sizeof one) && zeros(zero, sizeof zero), "the witnesses on no point");
    expect(zeros(kept, sizeof kept), "the kept points of no point");
    expect(zeros(workspace, sizeof workspace), "the workspace after Judge of no point");
}

/* Certify of no point of two taps writes zeros at the degree, and Check says yes to these alone. */
static void check_empty_certificate(size_t d) {
    for (int side = 1; side >= 0; side--) {
        memset(certificate, 77, sizeof certificate);
        expect(certify((uint8_t)side, d) == 0 && zeros(certificate, sizeof certificate), "Certify of no point");
    }
    check_answer(d, 1, "Check says yes to zeros");
    certificate[EKTHAVRUL_ROW_WORDS] = 1;
    check_answer(d, 0, "Check says no to a sum where there is no point");
}

/* The set of no points: its file, its report with f zero and with f one, its certificates, and its taps rearranged. */
static void check_empty_set(void) {
    uint8_t yes = 77;
    check_empty_file();
    check_empty_report(1);
    choose(table, (int[]){0, 1, 2, 3, -1});
    check_empty_report(2);
    for (size_t d = 0; d <= 2; d++)
        check_empty_certificate(d);
    expect(certify(0, 3) == EKTHAVRUL_REFUSED_DEGREE && certify(2, 2) == EKTHAVRUL_REFUSED_SIDE,
           "Certify of no point refuses");
    expect(check(3, EKTHAVRUL_CERTIFICATE, &yes) == EKTHAVRUL_REFUSED_DEGREE && yes == 77, "Check of no point refuses");
    choose(table, (int[]){1, -1});
    expect(rearrange(2, (uint8_t[]){2, 1}, 2) == 0 && zeros(set, sizeof set) && marks(table, (int[]){2, -1}),
           "Rearrange of no point");
}

/* Makes every check; the status is 0 if there was no fault. */
int main(void) {
    check_read();
    check_write();
    check_normal_form();
    check_rank();
    check_report();
    check_hand_over();
    check_certify();
    check_check();
    check_own_degrees((int[]){-1}, 0, EKTHAVRUL_NO_DEGREE, "Judge, case 8");
    check_own_degrees((int[]){0, -1}, EKTHAVRUL_NO_DEGREE, 0, "Judge, case 9");
    check_mark();
    check_rearrange();
    check_empty_set();
    return faults != 0;
}
