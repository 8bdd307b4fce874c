/* Labelling: the proved run beside the plain C one, same input, one run after the other.
   Prints the median over the rounds of labels a second, and the ratio to plain C; then openings, records, and eight runs in one unit
   beside the same runs alone. */
#define _POSIX_C_SOURCE 200809L
#include "mastdock.h"
#include "plain.h"
#include <stdio.h>
#include <stdlib.h>
#include <string.h>
#include <time.h>

enum { DEPTH = 18, MEMORY = 10, STORE = MASTDOCK_STORE_SIZE(MEMORY), ROUNDS = 9 };
static const uint64_t ALL = MASTDOCK_LABELS(DEPTH);

static double now(void) {
    struct timespec t;
    clock_gettime(CLOCK_MONOTONIC, &t);
    return (double)t.tv_sec + 1e-9 * (double)t.tv_nsec;
}

static int by_value(const void *a, const void *b) {
    double x = *(const double *)a, y = *(const double *)b;
    return (x > y) - (x < y);
}

static double proved(uint64_t budget, uint8_t *store, uint8_t root[32]) {
    uint8_t statement[32] = {1, 2, 3};
    double start = now();
    mastdock_run run = mastdock_run_start(statement, DEPTH, MEMORY, store, STORE).run;
    while (run.made < ALL)
        run = mastdock_run_advance(run, budget, store, STORE).run;
    memcpy(root, run.held, 32);
    return now() - start;
}

static double plain(uint64_t budget, uint8_t *store, uint8_t root[32]) {
    struct plain_run run = {.statement = {1, 2, 3}, .depth = DEPTH, .memory = MEMORY};
    double start = now();
    while (run.made < ALL)
        plain_advance(&run, budget, store);
    memcpy(root, run.held, 32);
    return now() - start;
}

static int compare(const char *name, uint64_t budget) {
    static uint8_t a[STORE], b[STORE];
    uint8_t x[32], y[32];
    double p[ROUNDS], c[ROUNDS];
    for (int r = 0; r < ROUNDS; r++) {
        p[r] = proved(budget, a, x);
        c[r] = plain(budget, b, y);
        if (memcmp(x, y, 32) || memcmp(a, b, STORE)) {
            printf("the roots or stores differ\n");
            return 1;
        }
    }
    qsort(p, ROUNDS, sizeof(double), by_value);
    qsort(c, ROUNDS, sizeof(double), by_value);
    printf("%-28s proved %8.0f labels/s  plain C %8.0f labels/s  ratio %.2f\n", name, (double)ALL / p[ROUNDS / 2],
           (double)ALL / c[ROUNDS / 2], c[ROUNDS / 2] / p[ROUNDS / 2]);
    return 0;
}

/* An opening at memory level 0 labels the whole tree anew but the root, so a label costs what a run's does. */
static double opened(uint8_t *store) {
    uint8_t statement[32] = {1, 2, 3}, out[32 * (DEPTH + 1)];
    double start = now();
    mastdock_opening o =
        mastdock_opening_start(MASTDOCK_NEW_EDITION, statement, DEPTH, 0, 12345, store, 32, out, sizeof out).opening;
    mastdock_opening_advance(o, ALL - 1, store, 32, out, sizeof out);
    return now() - start;
}

static void openings(void) {
    static uint8_t store[STORE];
    uint8_t root[32];
    double o[ROUNDS], p[ROUNDS];
    for (int r = 0; r < ROUNDS; r++) {
        p[r] = proved(ALL, store, root);
        o[r] = opened(store);
    }
    qsort(p, ROUNDS, sizeof(double), by_value);
    qsort(o, ROUNDS, sizeof(double), by_value);
    printf("%-28s opening %7.0f labels/s  run %12.0f labels/s  ratio %.2f\n", "labels made anew", (double)(ALL - 1) / o[ROUNDS / 2],
           (double)ALL / p[ROUNDS / 2], p[ROUNDS / 2] / o[ROUNDS / 2]);
}

/* W-201: the longest record, of depth 40 after its last leaf, written and read; in labels of the run above. */
static double recorded(int read, double *sum) {
    enum { TURNS = 20000 };
    uint8_t record[MASTDOCK_MAX_RECORD];
    mastdock_run run = {.edition = MASTDOCK_NEW_EDITION, .depth = 40, .memory = 14, .made = MASTDOCK_LABELS(40) - 40};
    memset(run.held, 7, sizeof run.held);
    size_t size = mastdock_run_record(run, record, sizeof record).size;
    double start = now();
    for (int i = 0; i < TURNS; i++) {
        run.statement[0] = record[size - 1] = (uint8_t)i;
        if (read)
            *sum += mastdock_run_resume(record, size).run.held[1311];
        else
            *sum += (double)mastdock_run_record(run, record, sizeof record).size;
    }
    return (now() - start) / TURNS;
}

static void records(void) {
    static uint8_t store[STORE];
    uint8_t root[32];
    double p[ROUNDS], w[ROUNDS], r[ROUNDS], sum = 0;
    for (int i = 0; i < ROUNDS; i++) {
        p[i] = proved(ALL, store, root) / (double)ALL;
        w[i] = recorded(0, &sum);
        r[i] = recorded(1, &sum);
    }
    qsort(p, ROUNDS, sizeof(double), by_value);
    qsort(w, ROUNDS, sizeof(double), by_value);
    qsort(r, ROUNDS, sizeof(double), by_value);
    double label = p[ROUNDS / 2];
    printf("%-28s written in %.2f labels, read in %.2f labels (%.0f)\n", "the longest record", w[ROUNDS / 2] / label, r[ROUNDS / 2] / label, sum);
}

/* W-208: eight runs of depth 14 in one unit with one budget, and the same runs alone, one after the other, with one budget each. */
enum { CARRIED = MASTDOCK_MAX_RUNS, UNIT_DEPTH = 14, UNIT_STORE = CARRIED * STORE };
static const uint64_t UNIT_LABELS = CARRIED * MASTDOCK_LABELS(UNIT_DEPTH);

static mastdock_unit eight_runs(const uint8_t *store) {
    mastdock_unit unit = {.count = CARRIED, .last = CARRIED};
    for (uint8_t i = 0; i < CARRIED; i++) {
        uint8_t statement[32] = {1, 2, 3, i};
        unit.runs[i] = mastdock_run_start(statement, UNIT_DEPTH, MEMORY, store, STORE).run;
    }
    return unit;
}

static double together(uint8_t *store, mastdock_unit *unit) {
    *unit = eight_runs(store);
    double start = now();
    *unit = mastdock_unit_advance(*unit, UNIT_LABELS, store, UNIT_STORE).unit;
    return now() - start;
}

static double alone(uint8_t *store, mastdock_unit *unit) {
    *unit = eight_runs(store);
    double start = now();
    for (size_t i = 0; i < CARRIED; i++)
        unit->runs[i] = mastdock_run_advance(unit->runs[i], UNIT_LABELS, store + i * STORE, STORE).run;
    return now() - start;
}

static int units(void) {
    static uint8_t a[UNIT_STORE], b[UNIT_STORE];
    static mastdock_unit x, y;
    double t[ROUNDS], s[ROUNDS];
    for (int r = 0; r < ROUNDS; r++) {
        t[r] = together(a, &x);
        s[r] = alone(b, &y);
        if (memcmp(&x, &y, sizeof x) || memcmp(a, b, UNIT_STORE)) {
            printf("the runs or stores of the unit differ\n");
            return 1;
        }
    }
    qsort(t, ROUNDS, sizeof(double), by_value);
    qsort(s, ROUNDS, sizeof(double), by_value);
    printf("%-28s unit %10.0f labels/s  alone %10.0f labels/s  ratio %.2f\n", "eight runs of depth 14", (double)UNIT_LABELS / t[ROUNDS / 2],
           (double)UNIT_LABELS / s[ROUNDS / 2], s[ROUNDS / 2] / t[ROUNDS / 2]);
    return 0;
}

int main(void) {
    if (compare("depth 18, one budget", ALL) || compare("depth 18, budget 1 a call", 1))
        return 1;
    openings();
    records();
    return units();
}
