/* Checking 200 openings of depth 40 beside plain C; comparing them and planning their chain beside checking them.
   A file of depth 40 whose openings are all right takes 2^41 labels to make, since its root picks its leaves. So the leaves
   are chosen here, and the openings are of a tree whose subtrees without a chosen leaf have arbitrary labels: every one is right. */
#define _POSIX_C_SOURCE 200809L
#include "mastdock.h"
#include "plain.h"
#include <stdio.h>
#include <stdlib.h>
#include <string.h>
#include <time.h>

enum { DEPTH = 40, COUNT = 200, SIZE = MASTDOCK_OPENING_SIZE(DEPTH), ROUNDS = 15 };
static const uint8_t statement[32] = {1, 2, 3};
static uint8_t openings[COUNT * SIZE], root[32];
static uint64_t leaves[COUNT], list[MASTDOCK_MAX_CHAIN];

static void arbitrary(uint8_t label[32]) {
    static uint64_t x = 88172645463325252u;
    for (int i = 0; i < 32; i++) {
        x ^= x << 13, x ^= x >> 7, x ^= x << 17;
        label[i] = (uint8_t)x;
    }
}

/* Labels the subtree of the leaves from..to − 1, which increase, and puts siblings' labels into their openings. */
static void grow(unsigned level, uint64_t position, int from, int to, uint8_t label[32]) {
    if (from == to) {
        arbitrary(label);
        return;
    }
    if (level == DEPTH) {
        for (int i = from; i < to; i++) {
            plain_leaf_label(statement, DEPTH, position, openings + i * SIZE + 32, label);
            memcpy(openings + i * SIZE, label, 32);
        }
        return;
    }
    int middle = from;
    uint8_t left[32], right[32];
    while (middle < to && !(leaves[middle] >> (DEPTH - level - 1) & 1))
        middle++;
    grow(level + 1, 2 * position, from, middle, left);
    for (int i = middle; i < to; i++)
        memcpy(openings + i * SIZE + 32 * (DEPTH - level), left, 32);
    grow(level + 1, 2 * position + 1, middle, to, right);
    for (int i = from; i < middle; i++)
        memcpy(openings + i * SIZE + 32 * (DEPTH - level), right, 32);
    plain_inner_label(statement, level, position, left, right, label);
}

static double now(void) {
    struct timespec t;
    clock_gettime(CLOCK_MONOTONIC, &t);
    return (double)t.tv_sec + 1e-9 * (double)t.tv_nsec;
}

static int by_value(const void *a, const void *b) {
    double x = *(const double *)a, y = *(const double *)b;
    return (x > y) - (x < y);
}

static double median(double *t) {
    qsort(t, ROUNDS, sizeof(double), by_value);
    return t[ROUNDS / 2];
}

static double checked(int proved) {
    uint64_t refused = 0;
    double start = now();
    for (int i = 0; i < COUNT; i++)
        refused += proved ? mastdock_check_opening(MASTDOCK_NEW_EDITION, statement, root, DEPTH, leaves[i], openings + i * SIZE,
                                                   SIZE)
                          : (uint64_t)plain_check_opening(statement, root, DEPTH, leaves[i], openings + i * SIZE);
    double took = now() - start;
    if (refused) {
        printf("an opening is refused\n");
        exit(1);
    }
    return took;
}

static double compared(void) {
    double start = now();
    mastdock_compared c =
        mastdock_compare(MASTDOCK_NEW_EDITION, statement, DEPTH, leaves, COUNT, openings, sizeof openings);
    double took = now() - start;
    if (c.refusal || c.clash.i) {
        printf("the openings disagree\n");
        exit(1);
    }
    return took;
}

static double planned(uint64_t *count) {
    double start = now();
    *count = mastdock_plan(DEPTH, leaves, COUNT, list, MASTDOCK_MAX_CHAIN).count;
    return now() - start;
}

static void measure(const char *name) {
    double proved[ROUNDS], plain[ROUNDS], compare[ROUNDS], plan[ROUNDS];
    uint64_t count = 0;
    grow(0, 0, 0, COUNT, root);
    for (int r = 0; r < ROUNDS; r++) {
        proved[r] = checked(1);
        plain[r] = checked(0);
        compare[r] = compared();
        plan[r] = planned(&count);
    }
    double c = median(proved), p = median(plain), d = median(compare), l = median(plan);
    printf("%-28s proved %8.2f ms  plain C %8.2f ms  ratio %.2f\n", name, 1e3 * c, 1e3 * p, p / c);
    printf("%-28s compare %7.2f ms  plan %.3f ms of %u nodes  check, compare and plan over check %.2f\n", "", 1e3 * d, 1e3 * l,
           (unsigned)count, (c + d + l) / c);
}

int main(void) {
    for (uint64_t i = 0; i < COUNT; i++)
        leaves[i] = i * (((uint64_t)1 << DEPTH) / COUNT) + 7 * i;
    measure("200 spread leaves, depth 40");
    for (uint64_t i = 0; i < COUNT; i++)
        leaves[i] = 0x5555555555;
    measure("200 times the same leaf");
    return 0;
}
