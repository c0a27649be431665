/*
 * Reads a filter file, judges it, and prints the mark, the degree, the side and each side's own degree: judge FILE, or -
 * for standard input. It answers by the statuses of the script `sheet`: see `help`.
 */
#include <ekthavrul.h>
#include <inttypes.h>
#include <stdio.h>
#include <string.h>

enum { ROOM = 4096, USAGE = 2, REFUSED = 3, FAILED = 4 };

static const char help[] = "usage: judge FILE\n"
                           "\n"
                           "Prints the mark, the degree, the side and each side's own degree of the filter file FILE,\n"
                           "or of standard input where FILE is -.\n"
                           "\n"
                           "status  0  they were printed\n"
                           "        2  wrong usage\n"
                           "        3  the file was refused: `refused` and the number were printed\n"
                           "        4  the input could not be read, or the output could not be written\n";

/* What a refusal of Read says. */
static const char *words_of(uint8_t status) {
    switch (status) {
    case EKTHAVRUL_REFUSED_FILE_ENDS:
        return "the file ends before or inside a number";
    case EKTHAVRUL_REFUSED_NUMBER_FORM:
        return "the second byte of a number has the top bit set, or is 0";
    case EKTHAVRUL_REFUSED_TAPS:
        return "n is not from 1 to 9";
    case EKTHAVRUL_REFUSED_RANGE:
        return "a count over N, a difference of 0, or a point of N or more";
    case EKTHAVRUL_REFUSED_SURPLUS:
        return "bytes remain after the last number";
    default:
        return "see ekthavrul.h";
    }
}

/* Prints the refusal, and says what it means. */
static int refused(uint8_t status) {
    printf("refused %d\n", status);
    fprintf(stderr, "judge: refused %d: %s\n", status, words_of(status));
    return REFUSED;
}

/* Prints a degree or a mark after a space, or `none`. */
static void print_degree(uint32_t degree) {
    if (degree == EKTHAVRUL_NO_DEGREE)
        printf(" none");
    else
        printf(" %" PRIu32, degree);
}

/* Prints the side with its word after a space, where there is one. */
static void print_side(uint32_t side) {
    if (side != EKTHAVRUL_NO_SIDE)
        printf(" side %" PRIu32, side);
}

/* Prints the mark; below it the degree and the side of the filter; and below these side 1's own degree and side 0's. */
static void print_report(const uint32_t *report) {
    printf("mark");
    print_degree(report[EKTHAVRUL_MARK_AT]);
    printf("\ndegree");
    print_degree(report[EKTHAVRUL_DEGREE_AT]);
    print_side(report[EKTHAVRUL_SIDE_AT]);
    printf("\nsides");
    print_degree(report[EKTHAVRUL_DEGREE_ONE_AT]);
    print_degree(report[EKTHAVRUL_DEGREE_ZERO_AT]);
    printf("\n");
}

/* Judges the filter, and prints what is reported, or the refusal. */
static int judge(const uint8_t *set, const uint8_t *table, size_t n) {
    static uint64_t workspace[EKTHAVRUL_WORKSPACE];
    uint8_t one[EKTHAVRUL_POINTS], zero[EKTHAVRUL_POINTS], kept[EKTHAVRUL_POINTS];
    uint32_t report[EKTHAVRUL_REPORT];
    uint8_t status = ekthavrul_judge(set, EKTHAVRUL_POINTS, table, EKTHAVRUL_POINTS, n, workspace, EKTHAVRUL_WORKSPACE,
                                     one, sizeof one, zero, sizeof zero, kept, sizeof kept, report, EKTHAVRUL_REPORT);
    if (status != EKTHAVRUL_ACCEPTED)
        return refused(status);
    print_report(report);
    return 0;
}

/* Reads the filter from the first bytes of the file, and judges it. */
static int judge_file(FILE *file) {
    uint8_t bytes[ROOM], set[EKTHAVRUL_POINTS], table[EKTHAVRUL_POINTS];
    size_t n, length = fread(bytes, 1, sizeof bytes, file);
    if (ferror(file)) {
        perror("judge: the input could not be read");
        return FAILED;
    }
    uint8_t status = ekthavrul_read(bytes, length, set, sizeof set, table, sizeof table, &n);
    if (status != EKTHAVRUL_ACCEPTED)
        return refused(status);
    return judge(set, table, n);
}

/* Judges the file that the word names. */
static int judge_named(const char *name) {
    FILE *file = strcmp(name, "-") == 0 ? stdin : fopen(name, "rb");
    if (file == NULL) {
        perror(name);
        return FAILED;
    }
    int status = judge_file(file);
    fclose(file);
    return status;
}

/* The status, unless something that was printed could not be written. */
static int written(int status) {
    if (fflush(stdout) == 0 && !ferror(stdout))
        return status;
    perror("judge: the output could not be written");
    return FAILED;
}

/* Judges the file that the one word names. */
int main(int count, char **words) {
    if (count == 2 && strcmp(words[1], "--help") == 0) {
        fputs(help, stdout);
        return written(0);
    }
    if (count != 2 || (words[1][0] == '-' && words[1][1] != '\0')) {
        fputs(help, stderr);
        return USAGE;
    }
    return written(judge_named(words[1]));
}
