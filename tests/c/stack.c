/*
 * How much stack each call of the library takes, on the longest inputs: nine taps, all points. Each call runs on a stack of
 * its own, which holds a pattern before; what is no longer the pattern was used. Ends with status 1 where a call takes more
 * than the header says.
 */
#define _XOPEN_SOURCE 700
#include <ekthavrul.h>
#include <stdio.h>
#include <string.h>
#include <ucontext.h>

enum { STACK = 1 << 20, PATTERN = 0xA5 };

static ucontext_t caller, callee;
static unsigned char stack[STACK];
static uint8_t set[EKTHAVRUL_POINTS], table[EKTHAVRUL_POINTS], one[EKTHAVRUL_POINTS], zero[EKTHAVRUL_POINTS],
    kept[EKTHAVRUL_POINTS], file[EKTHAVRUL_FILE_MAX];
static uint64_t workspace[EKTHAVRUL_WORKSPACE], certificate[EKTHAVRUL_CERTIFICATE];
static uint32_t report[EKTHAVRUL_REPORT], number;
static size_t n = EKTHAVRUL_TAPS_MAX, length = EKTHAVRUL_FILE_MAX;
static const uint8_t wiring[EKTHAVRUL_TAPS_MAX] = {5, 9, 1, 7, 3, 8, 2, 6, 4};
static uint8_t yes, status;

static void nothing(void) { status = EKTHAVRUL_ACCEPTED; }
static void write_file(void) {
    status = ekthavrul_write(set, sizeof set, table, sizeof table, n, file, sizeof file, &length);
}
static void read_file(void) { status = ekthavrul_read(file, length, set, sizeof set, table, sizeof table, &n); }
static void rearrange(void) {
    status = ekthavrul_rearrange(set, sizeof set, table, sizeof table, n, wiring, sizeof wiring);
}
static void convert(void) { status = ekthavrul_convert(table, sizeof table, n); }
static void degree(void) { status = ekthavrul_degree(table, sizeof table, n, &number); }
static void rank(void) {
    status = ekthavrul_rank(set, sizeof set, n, n, workspace, EKTHAVRUL_WORKSPACE, kept, sizeof kept, &length, &number);
}
static void judge(void) {
    status = ekthavrul_judge(set, sizeof set, table, sizeof table, n, workspace, EKTHAVRUL_WORKSPACE, one, sizeof one, zero,
                             sizeof zero, kept, sizeof kept, report, EKTHAVRUL_REPORT);
}
static void certify(void) {
    status = ekthavrul_certify(set, sizeof set, table, sizeof table, n, 1, 0, workspace, EKTHAVRUL_WORKSPACE, certificate,
                               EKTHAVRUL_CERTIFICATE);
}
static void check(void) {
    status = ekthavrul_check(set, sizeof set, table, sizeof table, n, 1, 0, certificate, EKTHAVRUL_CERTIFICATE, &yes);
}
static void hand_over(void) {
    status = ekthavrul_hand_over(n, 1, one, sizeof one, zero, sizeof zero, kept, sizeof kept) == 0;
}

static const struct {
    const char *name;
    void (*run)(void);
} calls[] = {{"nothing", nothing}, {"Write", write_file}, {"Read", read_file}, {"Rearrange", rearrange},
             {"Convert", convert}, {"Convert", convert},  {"Degree", degree},  {"Rank", rank},
             {"Judge", judge},     {"Certify", certify},  {"Check", check},    {"Hand over", hand_over}};

/* The bytes of the stack that the call changes. */
static size_t used_by(void (*run)(void)) {
    size_t untouched = 0;
    memset(stack, PATTERN, STACK);
    getcontext(&callee);
    callee.uc_stack.ss_sp = stack;
    callee.uc_stack.ss_size = STACK;
    callee.uc_link = &caller;
    makecontext(&callee, run, 0);
    swapcontext(&caller, &callee);
    while (untouched < STACK && stack[untouched] == PATTERN)
        untouched++;
    return STACK - untouched;
}

int main(void) {
    size_t most = 0;
    for (size_t a = 0; a < EKTHAVRUL_POINTS; a++) {
        set[a] = 1;
        table[a] = (uint8_t)((a * a / 7 + a / 3) % 2);
    }
    for (size_t i = 0; i < sizeof calls / sizeof calls[0]; i++) {
        size_t used = used_by(calls[i].run);
        if (status != EKTHAVRUL_ACCEPTED) {
            fprintf(stderr, "%s refused by %d\n", calls[i].name, status);
            return 1;
        }
        printf("stack of %s: %zu bytes\n", calls[i].name, used);
        most = used > most ? used : most;
    }
    return most > EKTHAVRUL_STACK;
}
