/* Random calls of the C functions for some seconds:  fuzz SECONDS SEED [FIRST [COUNT]]   or   fuzz --self-test
 * Each case is drawn from the seed and its own number, so FIRST begins at one and COUNT 1 runs it alone.
 * Prints how often each function gave each number. Exit status 1 at the first violation, with the case to begin at.
 * --self-test puts faults between the harness and the functions, each of which must be noticed. */
#define _GNU_SOURCE
#include "fuzz.h"
#include <fcntl.h>
#include <sanitizer/common_interface_defs.h>
#include <stdio.h>
#include <stdlib.h>
#include <string.h>
#include <sys/wait.h>
#include <time.h>
#include <unistd.h>

#define NUMBER(n) (UINT32_C(1) << (n))
#define TEXTS (NUMBER(19) | NUMBER(20) | NUMBER(21) | NUMBER(22) | NUMBER(24))
#define SHEETS (NUMBER(11) | NUMBER(12) | NUMBER(13) | NUMBER(14) | NUMBER(16) | NUMBER(25) | NUMBER(26))
#define LISTS (NUMBER(2) | NUMBER(3) | NUMBER(4) | NUMBER(5) | NUMBER(6) | NUMBER(7) | NUMBER(20))
#define CALLS (NUMBER(0) | NUMBER(15) | NUMBER(16) | NUMBER(17) | NUMBER(18) | NUMBER(27) | TEXTS)
#define ASKED (NUMBER(0) | NUMBER(15) | NUMBER(16))

/* A function's name, and the numbers that the header gives to it. */
static const struct {
    const char *name;
    uint32_t numbers;
} table[FUNCTIONS] = {
    {"retimer_sheet_check", NUMBER(0) | SHEETS},
    {"retimer_list_check", NUMBER(0) | LISTS},
    {"retimer_map", NUMBER(0) | SHEETS | LISTS | NUMBER(8) | NUMBER(9) | NUMBER(10)},
    {"retimer_open", ASKED},
    {"retimer_feed", CALLS},
    {"retimer_finish", CALLS},
    {"retimer_text", ASKED | TEXTS},
    {"retimer_cues", NUMBER(0) | NUMBER(16) | TEXTS},
    {"retimer_units_to_ticks", NUMBER(0)},
    {"retimer_ticks_to_units_floor", NUMBER(0)},
    {"retimer_ticks_to_units_ceil", NUMBER(0)},
    {"retimer_units_number", ASKED},
    {"retimer_ticks_number", ASKED},
    {"retimer_rough", ASKED},
    {"retimer_why", ASKED},
    {"retimer_census", ASKED | NUMBER(28)},
    {"retimer_best_delay", ASKED | NUMBER(29)},
    {"retimer_map_write", ASKED | NUMBER(20)},
    {"retimer_map_read", ASKED | NUMBER(23)},
};

static uint64_t seen[FUNCTIONS][32], seed, now;

/* ---- violations */
static void where(void) {
    fprintf(stderr, "fuzz: to see it again: target/fuzz 1 %llu %llu 1\n", (unsigned long long)seed, (unsigned long long)now);
}

void expect(int holds, enum function f, const char *what) {
    if (holds)
        return;
    fprintf(stderr, "fuzz: %s: %s\n", table[f].name, what);
    where();
    exit(1);
}

void expect_number(enum function f, uint32_t number, uint32_t as) {
    if (number == as)
        return;
    fprintf(stderr, "fuzz: %s answers %u, and not %u\n", table[f].name, number, as);
    expect(0, f, "a wrong number");
}

uint32_t answered(enum function f, uint32_t number) {
    expect(number < 32 && (table[f].numbers >> number & 1), f, "a number that is not the function's");
    seen[f][number]++;
    return number;
}

/* ---- cases */
static const struct {
    void (*run)(void);
    unsigned weight;
} cases[] = {{case_sheet, 10}, {case_list, 10}, {case_map, 12}, {case_session, 24}, {case_forged, 14}, {case_text, 12}, {case_cues, 10}, {case_conversions, 10}, {case_rough, 10}, {case_why, 12}, {case_census, 8}, {case_delay, 4}, {case_stored, 4}, {case_json, 6}};

static void one_case(uint64_t number) {
    unsigned sum = 0, k;
    uint64_t at;
    now = number;
    seed_with(seed, number);
    for (k = 0; k < sizeof cases / sizeof *cases; k++)
        sum += cases[k].weight;
    at = below(sum);
    for (k = 0; at >= cases[k].weight; k++)
        at -= cases[k].weight;
    cases[k].run();
}

static void show(uint64_t done) {
    unsigned f, k;
    for (f = 0; f < FUNCTIONS; f++) {
        uint64_t sum = 0;
        for (k = 0; k < 32; k++)
            sum += seen[f][k];
        printf("%-28s %10llu calls;", table[f].name, (unsigned long long)sum);
        for (k = 0; k < 32; k++)
            if (seen[f][k])
                printf("  %u: %llu", k, (unsigned long long)seen[f][k]);
        printf("\n");
    }
    printf("%llu cases of seed %llu, no violation\n", (unsigned long long)done, (unsigned long long)seed);
}

static double seconds(void) {
    struct timespec t;
    clock_gettime(CLOCK_MONOTONIC, &t);
    return (double)t.tv_sec + (double)t.tv_nsec / 1e9;
}

/* ---- the self-test: each fault in a process of its own */
static int noticed(int fault, int quiet) {
    int status = 0;
    pid_t child;
    fflush(stdout);
    child = fork();
    if (child == 0) {
        int nowhere = open("/dev/null", O_WRONLY);
        uint64_t k;
        if (quiet && nowhere >= 0)
            dup2(nowhere, 2);
        make_slots(); /* its own: a slot is shared with the process that made it */
        if (fault >= 0)
            put_fault((unsigned)fault);
        for (k = 0; k < 3000; k++)
            one_case(k);
        _exit(0);
    }
    return child < 0 || waitpid(child, &status, 0) < 0 || !WIFEXITED(status) || WEXITSTATUS(status);
}

static int self_test(void) {
    int k, missed = noticed(-1, 0);
    printf("no fault: %s\n", missed ? "a violation" : "none noticed");
    for (k = 0; faults[k]; k++) {
        int found = noticed(k, 1);
        printf("%s: %s\n", faults[k], found ? "noticed" : "MISSED");
        missed += !found;
    }
    return missed != 0;
}

int main(int count, char **words) {
    uint64_t k, first, many;
    double end;
    __sanitizer_set_death_callback(where);
    seed = count > 2 ? strtoull(words[2], NULL, 10) : 1;
    seed_with(seed, UINT64_MAX);
    if (count == 2 && !strcmp(words[1], "--self-test"))
        return self_test();
    if (count < 3 || count > 5) {
        fprintf(stderr, "usage: fuzz SECONDS SEED [FIRST [COUNT]]\n");
        return 2;
    }
    make_slots();
    first = count > 3 ? strtoull(words[3], NULL, 10) : 0;
    many = count > 4 ? strtoull(words[4], NULL, 10) : UINT64_MAX;
    end = seconds() + strtod(words[1], NULL);
    for (k = 0; k < many && (k % 16 || seconds() < end); k++)
        one_case(first + k);
    show(k);
    return 0;
}
