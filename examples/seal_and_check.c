/* Seals a small report and checks the seal: the stamping unit's part and the office's part, in C.
   It prints what examples/seal_and_check.stdout holds. */
#include "mastdock.h"
#include <stdio.h>
#include <stdlib.h>
#include <string.h>

enum { DEPTH = 14, MEMORY = 6, COUNT = 21, BUDGET = 1000 };

static const char REPORT[] = "big 14 21";

static void fail(const char *call, uint64_t refusal) {
    fprintf(stderr, "%s: refused %llu\n", call, (unsigned long long)refusal);
    exit(1);
}

static void print_label(const char *name, const uint8_t label[32]) {
    printf("%s ", name);
    for (int i = 0; i < 32; i++)
        printf("%02x", label[i]);
    printf("\n");
}

/* The statement of a report that comes in portions. */
static void hash_report(const char *report, size_t len, uint8_t statement[32]) {
    mastdock_hash hash = mastdock_hash_new();
    for (size_t at = 0; at < len; at += 4) {
        size_t part = len - at < 4 ? len - at : 4;
        mastdock_hash_updated updated = mastdock_hash_update(hash, (const uint8_t *)report + at, part);
        if (updated.refusal)
            fail("mastdock_hash_update", updated.refusal);
        hash = updated.hash;
    }
    mastdock_hash_finished finished = mastdock_hash_finish(hash);
    if (finished.refusal)
        fail("mastdock_hash_finish", finished.refusal);
    memcpy(statement, finished.digest, 32);
}

/* Labels the tree, some labels a call; the root is the last one held. Gives the run's edition, which its openings and file need. */
static uint64_t label_tree(const uint8_t statement[32], uint8_t *store, size_t store_len, uint8_t root[32]) {
    mastdock_run_started started = mastdock_run_start(statement, DEPTH, MEMORY, store, store_len);
    if (started.refusal)
        fail("mastdock_run_start", started.refusal);
    mastdock_run run = started.run;
    while (run.made < MASTDOCK_LABELS(DEPTH)) {
        mastdock_run_advanced advanced = mastdock_run_advance(run, BUDGET, store, store_len);
        if (advanced.refusal)
            fail("mastdock_run_advance", advanced.refusal);
        run = advanced.run;
    }
    memcpy(root, run.held, 32);
    return run.edition;
}

/* The head and the openings, some labels a call. */
static void write_file(uint64_t edition, const uint8_t statement[32], const uint8_t root[32], const uint8_t *store,
                       size_t store_len, uint8_t *file, size_t file_len) {
    mastdock_writing_started started =
        mastdock_writing_start(edition, statement, root, DEPTH, MEMORY, COUNT, store, store_len, file, file_len);
    if (started.refusal)
        fail("mastdock_writing_start", started.refusal);
    mastdock_writing writing = started.writing;
    for (uint64_t left = COUNT * MASTDOCK_LABELS_ANEW(DEPTH, MEMORY); left != 0;) {
        mastdock_writing_advanced advanced = mastdock_writing_advance(writing, BUDGET, store, store_len, file, file_len);
        if (advanced.refusal)
            fail("mastdock_writing_advance", advanced.refusal);
        writing = advanced.writing;
        left -= advanced.labels;
    }
}

/* The chain of the nodes that the file opens. */
static void draw_chain(const uint8_t statement[32], const uint8_t *file, size_t file_len) {
    uint64_t list[MASTDOCK_MAX_CHAIN];
    mastdock_drawn drawn = mastdock_draw(file, file_len, statement, DEPTH, COUNT, list, MASTDOCK_MAX_CHAIN);
    if (drawn.kind != MASTDOCK_CHAIN)
        fail("mastdock_draw", drawn.code);
    printf("chain %llu nodes, last %llu\n", (unsigned long long)drawn.count, (unsigned long long)list[drawn.count - 1]);
}

int main(void) {
    size_t store_len = MASTDOCK_STORE_SIZE(MEMORY), file_len = MASTDOCK_FILE_SIZE(DEPTH, COUNT);
    uint8_t *store = malloc(store_len), *file = malloc(file_len), statement[32], root[32];
    if (!store || !file)
        return 1;
    hash_report(REPORT, strlen(REPORT), statement);
    print_label("statement", statement);
    uint64_t edition = label_tree(statement, store, store_len, root);
    print_label("root", root);
    memset(file, 0, file_len);
    write_file(edition, statement, root, store, store_len, file, file_len);
    print_label("file", mastdock_digest(file, file_len).digest);
    mastdock_head head = mastdock_read_head(file, file_len);
    printf("head edition %llu depth %llu count %llu\n", (unsigned long long)head.edition, (unsigned long long)head.depth,
           (unsigned long long)head.count);
    printf("check %llu\n", (unsigned long long)mastdock_check_file(file, file_len, statement, DEPTH, COUNT));
    draw_chain(statement, file, file_len);

    /* One byte of opening 5 changed, checked in the file and alone. */
    mastdock_place place = mastdock_opening_place(file, file_len, 5);
    uint64_t leaf = mastdock_challenge(head.edition, statement, root, DEPTH, 5).leaf;
    file[place.offset] ^= 1;
    uint64_t code = mastdock_check_file(file, file_len, statement, DEPTH, COUNT);
    uint64_t refusal = mastdock_check_opening(head.edition, statement, root, DEPTH, leaf, file + place.offset, place.length);
    printf("damaged: check %llu, opening %llu\n", (unsigned long long)code, (unsigned long long)refusal);
    free(store);
    free(file);
    return 0;
}
