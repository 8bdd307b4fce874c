/* What include/mastdock.h says of lent memory and of answers: a null pointer where the number is 0, for every call that takes a
   pointer with a number, and answers without padding; of the memory level's limit; of a run's record; of blocks; of editions; and of
   several runs in one unit. The refusals are document 01's for memory of no bytes. Prints nothing. */
#include "mastdock.h"
#include <stdio.h>
#include <stdlib.h>
#include <string.h>

static void expect(int line, uint64_t found, uint64_t wanted) {
    if (found == wanted)
        return;
    fprintf(stderr, "tests/lent.c:%d: %llu, not %llu\n", line, (unsigned long long)found, (unsigned long long)wanted);
    exit(1);
}
#define EXPECT(found, wanted) expect(__LINE__, (found), (wanted))

static int all_zero(const void *bytes, size_t size) {
    const uint8_t *at = bytes;
    for (size_t i = 0; i < size; i++)
        if (at[i])
            return 0;
    return 1;
}

/* Fills the stack below with other bytes, so that an answer with padding would show them. */
static void fill_stack(void) {
    volatile uint8_t bytes[4096];
    for (size_t i = 0; i < sizeof bytes; i++)
        bytes[i] = 0xa5;
}

static const uint8_t ZERO[32];

/* A null hash portion and a null message are of no bytes. */
static void null_hashes(void) {
    mastdock_hash hash = mastdock_hash_new();
    mastdock_hash_updated updated = mastdock_hash_update(hash, NULL, 0);
    EXPECT(updated.refusal, 0);
    EXPECT((uint64_t)memcmp(&updated.hash, &hash, sizeof hash), 0);
    mastdock_digested digested = mastdock_digest(NULL, 0);
    mastdock_hash_finished finished = mastdock_hash_finish(hash);
    EXPECT(digested.refusal, 0);
    EXPECT((uint64_t)memcmp(digested.digest, finished.digest, 32), 0);
}

/* No store, output or file of no bytes is enough. */
static void null_states(void) {
    uint8_t store[MASTDOCK_STORE_SIZE(1)] = {0}, out[MASTDOCK_OPENING_SIZE(1)] = {0};
    mastdock_run_started run = mastdock_run_start(ZERO, 1, 1, store, sizeof store);
    mastdock_opening_started opening = mastdock_opening_start(2, ZERO, 1, 1, 0, store, sizeof store, out, sizeof out);
    uint8_t file[MASTDOCK_FILE_SIZE(1, 1)] = {0};
    mastdock_writing_started writing = mastdock_writing_start(2, ZERO, ZERO, 1, 1, 1, store, sizeof store, file, sizeof file);
    EXPECT(run.refusal + opening.refusal + writing.refusal, 0);
    EXPECT(mastdock_run_start(ZERO, 1, 0, NULL, 0).refusal, MASTDOCK_SHORT_STORE);
    EXPECT(mastdock_run_advance(run.run, 1, NULL, 0).refusal, MASTDOCK_SHORT_STORE);
    EXPECT(mastdock_run_record(run.run, NULL, 0).refusal, MASTDOCK_SHORT_OUTPUT);
    EXPECT(mastdock_run_resume(NULL, 0).refusal, MASTDOCK_BYTES_END);
    mastdock_unit unit = {.count = 1, .last = 1, .runs = {run.run}};
    EXPECT(mastdock_unit_advance(unit, 1, NULL, 0).refusal, MASTDOCK_SHORT_STORE);
    EXPECT(mastdock_unit_store_place(unit, 1, NULL, 0).length, 0);
    EXPECT(mastdock_opening_start(2, ZERO, 1, 1, 0, NULL, 0, NULL, 0).refusal, MASTDOCK_SHORT_STORE);
    EXPECT(mastdock_opening_start(2, ZERO, 1, 1, 0, store, sizeof store, NULL, 0).refusal, MASTDOCK_SHORT_OUTPUT);
    EXPECT(mastdock_opening_advance(opening.opening, 1, NULL, 0, NULL, 0).refusal, MASTDOCK_SHORT_STORE);
    EXPECT(mastdock_opening_advance(opening.opening, 1, store, sizeof store, NULL, 0).refusal, MASTDOCK_SHORT_OUTPUT);
    EXPECT(mastdock_writing_start(2, ZERO, ZERO, 1, 1, 1, NULL, 0, NULL, 0).refusal, MASTDOCK_SHORT_STORE);
    EXPECT(mastdock_writing_start(2, ZERO, ZERO, 1, 1, 1, store, sizeof store, NULL, 0).refusal, MASTDOCK_SHORT_OUTPUT);
    EXPECT(mastdock_writing_advance(writing.writing, 1, NULL, 0, NULL, 0).refusal, MASTDOCK_SHORT_STORE);
    EXPECT(mastdock_writing_advance(writing.writing, 1, store, sizeof store, NULL, 0).refusal, MASTDOCK_SHORT_OUTPUT);
}

/* Starting and continuing a run, an opening and a file: refused with these numbers. */
static void at_level(uint64_t depth, uint64_t memory, uint8_t *store, size_t len, uint64_t start, uint64_t go_on) {
    uint8_t out[MASTDOCK_OPENING_SIZE(40)] = {0}, file[MASTDOCK_FILE_SIZE(40, 1)] = {0};
    mastdock_run run = {.edition = 2, .depth = depth, .memory = memory};
    mastdock_opening opening = {.edition = 2, .depth = depth, .memory = memory};
    mastdock_writing writing = {.count = 1, .number = 1, .opening = opening};
    EXPECT(mastdock_run_start(ZERO, depth, memory, store, len).refusal, start);
    EXPECT(mastdock_opening_start(2, ZERO, depth, memory, 0, store, len, out, sizeof out).refusal, start);
    EXPECT(mastdock_writing_start(2, ZERO, ZERO, depth, memory, 1, store, len, file, sizeof file).refusal, start);
    EXPECT(mastdock_run_advance(run, 1, store, len).refusal, go_on);
    EXPECT(mastdock_opening_advance(opening, 1, store, len, out, sizeof out).refusal, go_on);
    EXPECT(mastdock_writing_advance(writing, 1, store, len, file, sizeof file).refusal, go_on);
}

/* W-209: level 14 is the most, and a store of MASTDOCK_MAX_STORE bytes is never short. */
static void levels(void) {
    static uint8_t store[MASTDOCK_MAX_STORE];
    const uint64_t depths[] = {13, 14, 15, 40}, memories[] = {13, 14, 15, 20, 21};
    EXPECT(sizeof store, 1048544);
    for (size_t i = 0; i < sizeof depths / sizeof *depths; i++)
        for (size_t j = 0; j < sizeof memories / sizeof *memories; j++) {
            uint64_t n = depths[i], m = memories[j];
            if (m > n || m > 14) {
                at_level(n, m, store, sizeof store, MASTDOCK_MEMORY_LEVEL, MASTDOCK_STATE);
                at_level(n, m, NULL, 0, MASTDOCK_MEMORY_LEVEL, MASTDOCK_STATE);
            } else {
                at_level(n, m, store, sizeof store, 0, 0);
                at_level(n, m, store, MASTDOCK_STORE_SIZE(m) - 1, MASTDOCK_SHORT_STORE, MASTDOCK_SHORT_STORE);
            }
        }
}

/* W-201: the record of a run with something in every place, over an output of just its size with bytes behind it and a byte short;
   and what is read back, whose other places are zero. */
static void recorded(uint64_t edition, uint64_t depth, uint64_t made, size_t numbers, size_t held) {
    mastdock_run run = {.edition = edition, .depth = depth, .memory = 1, .made = made};
    uint8_t out[MASTDOCK_MAX_RECORD + 1];
    size_t size = numbers + 32 + 32 * held;
    memset(run.statement, 201, sizeof run.statement);
    memset(run.held, 7, sizeof run.held);
    memset(out, 90, sizeof out);
    mastdock_run_recorded answer = mastdock_run_record(run, out, size - 1);
    EXPECT(answer.refusal, MASTDOCK_SHORT_OUTPUT);
    EXPECT(answer.size, 0);
    EXPECT(out[0], 90);
    EXPECT((uint64_t)memcmp(out, out + 1, sizeof out - 1), 0);
    answer = mastdock_run_record(run, out, size);
    EXPECT(answer.refusal, 0);
    EXPECT(answer.size, size);
    EXPECT(out[size], 90);
    EXPECT(out[0], edition);
    EXPECT((uint64_t)memcmp(out + numbers, run.statement, 32), 0);
    EXPECT((uint64_t)memcmp(out + numbers + 32, run.held, 32 * held), 0);
    fill_stack();
    mastdock_run_started back = mastdock_run_resume(out, size);
    memset(run.held + 32 * held, 0, sizeof run.held - 32 * held);
    EXPECT(back.refusal, 0);
    EXPECT((uint64_t)memcmp(&back.run, &run, sizeof run), 0);
    EXPECT(mastdock_run_resume(out, size - 1).refusal, MASTDOCK_RECORD_LENGTH);
    EXPECT(mastdock_run_resume(out, size + 1).refusal, MASTDOCK_RECORD_LENGTH);
}

/* Records refused: writing with 4 before 7, reading with 4 before 18; beside a refusal all is zero. */
static void records_refused(void) {
    const uint8_t numbers[][4] = {{1, 0, 0, 0}, {2, 41, 0, 0}, {1, 1, 2, 0}, {2, 40, 15, 0}, {2, 3, 1, 16}};
    uint8_t out[MASTDOCK_MAX_RECORD];
    memset(out, 90, sizeof out);
    for (size_t i = 0; i < sizeof numbers / sizeof *numbers; i++) {
        mastdock_run run = {
            .edition = numbers[i][0], .depth = numbers[i][1], .memory = numbers[i][2], .made = numbers[i][3]};
        EXPECT(mastdock_run_record(run, NULL, 0).refusal, MASTDOCK_STATE);
        EXPECT(mastdock_run_record(run, out, sizeof out).refusal, MASTDOCK_STATE);
        EXPECT(mastdock_run_record(run, out, sizeof out).size, 0);
        fill_stack();
        mastdock_run_started back = mastdock_run_resume(numbers[i], 4);
        EXPECT(back.refusal, MASTDOCK_STATE);
        EXPECT((uint64_t)all_zero(&back.run, sizeof back.run), 1);
    }
    EXPECT(out[0], 90);
    EXPECT((uint64_t)memcmp(out, out + 1, sizeof out - 1), 0);
}

/* 41 labels are held when the last leaf of depth 40 is labelled. */
static void records(void) {
    for (uint64_t edition = 1; edition <= MASTDOCK_MAX_EDITION; edition++) {
        recorded(edition, 1, 0, 4, 0);
        recorded(edition, 1, 2, 4, 2);
        recorded(edition, 3, 11, 4, 3);
        recorded(edition, 3, 15, 4, 1);
        recorded(edition, 40, MASTDOCK_LABELS(40) - 40, 9, 41);
        recorded(edition, 40, MASTDOCK_LABELS(40), 9, 1);
    }
    records_refused();
}

/* W-207: blocks of messages, the longest among them, and of one byte more, which is refused. */
static void message_blocks(void) {
    const size_t lengths[] = {0, 55, 56, 119, 120, 1321}, blocks[] = {1, 1, 2, 2, 3, 21};
    const uint8_t message[1321] = {0};
    mastdock_hash hash = mastdock_hash_new();
    for (size_t i = 0; i < sizeof lengths / sizeof *lengths; i++)
        EXPECT(mastdock_digest(message, lengths[i]).blocks, blocks[i]);
    EXPECT(mastdock_hash_finish(hash).blocks, 1);
    hash.taken = (MASTDOCK_NUMBER(1) << 61) - 1;
    EXPECT(mastdock_hash_finish(hash).blocks, (MASTDOCK_NUMBER(1) << 55) + 1);
    hash.taken++;
    EXPECT(mastdock_hash_finish(hash).refusal, MASTDOCK_TOO_MANY_BYTES);
    EXPECT(mastdock_hash_finish(hash).blocks, 0);
}

/* W-207: the dearest leaf, which is the last of depth 40; and no block of budget 0, of a refused run and of a finished one. */
static void label_blocks(void) {
    mastdock_run run = {.edition = 2, .depth = 40, .made = MASTDOCK_LABELS(40) - 41};
    uint8_t store[MASTDOCK_STORE_SIZE(0)] = {0};
    EXPECT(mastdock_run_advance(run, 1, store, sizeof store).blocks, 21);
    EXPECT(mastdock_run_advance(run, 0, store, sizeof store).blocks, 0);
    mastdock_run_advanced refused = mastdock_run_advance(run, 1, NULL, 0);
    EXPECT(refused.refusal, MASTDOCK_SHORT_STORE);
    EXPECT(refused.labels, 0);
    EXPECT(refused.blocks, 0);
    run.made = MASTDOCK_LABELS(40);
    EXPECT(mastdock_run_advance(run, 1, store, sizeof store).blocks, 0);
}

/* W-206: in the calls that take it, an edition that does not exist is refused first, whatever else is wrong. */
static void no_edition(uint64_t edition) {
    const uint64_t leaf = 2;
    EXPECT(mastdock_opening_start(edition, ZERO, 0, 9, 9, NULL, 0, NULL, 0).refusal, MASTDOCK_EDITION);
    EXPECT(mastdock_challenge(edition, ZERO, ZERO, 0, 0).refusal, MASTDOCK_EDITION);
    EXPECT(mastdock_write_head(edition, ZERO, ZERO, 0, 0, NULL, 0), MASTDOCK_EDITION);
    EXPECT(mastdock_check_opening(edition, ZERO, ZERO, 0, 9, NULL, 0), MASTDOCK_EDITION);
    EXPECT(mastdock_writing_start(edition, ZERO, ZERO, 0, 9, 0, NULL, 0, NULL, 0).refusal, MASTDOCK_EDITION);
    EXPECT(mastdock_compare(edition, ZERO, 0, &leaf, 1, NULL, 0).refusal, MASTDOCK_EDITION);
}

/* W-206: in a state it is 4, before a store or an output that is short; the state is handed back as it was. */
static void no_edition_in_states(uint64_t edition) {
    mastdock_run run = {.edition = edition, .depth = 1};
    mastdock_opening opening = {.edition = edition, .depth = 1};
    mastdock_writing writing = {.count = 1, .number = 1, .opening = opening};
    mastdock_run_advanced advanced = mastdock_run_advance(run, 1, NULL, 0);
    EXPECT(advanced.refusal, MASTDOCK_STATE);
    EXPECT((uint64_t)memcmp(&advanced.run, &run, sizeof run), 0);
    EXPECT(mastdock_run_record(run, NULL, 0).refusal, MASTDOCK_STATE);
    EXPECT(mastdock_opening_advance(opening, 1, NULL, 0, NULL, 0).refusal, MASTDOCK_STATE);
    EXPECT(mastdock_writing_advance(writing, 1, NULL, 0, NULL, 0).refusal, MASTDOCK_STATE);
}

/* The head of a file: its edition, and 0 beside a refusal. */
static void head_edition(uint8_t edition, uint64_t refusal) {
    const uint8_t bytes[] = {edition, 1, 1};
    mastdock_head head = mastdock_read_head(bytes, sizeof bytes);
    EXPECT(head.refusal, refusal);
    EXPECT(head.edition, refusal ? 0 : edition);
    EXPECT(head.depth, refusal ? 0 : 1);
    EXPECT(head.count, refusal ? 0 : 1);
}

static void editions(void) {
    const uint64_t none[] = {0, 3, 4, 128, (MASTDOCK_NUMBER(1) << 32) + 2, UINT64_MAX};
    uint8_t store[MASTDOCK_STORE_SIZE(1)] = {0}, record[36] = {1, 1, 1, 0};
    for (size_t i = 0; i < sizeof none / sizeof *none; i++) {
        no_edition(none[i]);
        no_edition_in_states(none[i]);
    }
    head_edition(0, MASTDOCK_EDITION);
    head_edition(1, 0);
    head_edition(2, 0);
    head_edition(3, MASTDOCK_EDITION);
    mastdock_run run = mastdock_run_start(ZERO, 1, 1, store, sizeof store).run;
    EXPECT(run.edition, MASTDOCK_NEW_EDITION);
    EXPECT(mastdock_run_advance(run, 9, store, sizeof store).run.edition, MASTDOCK_NEW_EDITION);
    run = mastdock_run_resume(record, sizeof record).run;
    EXPECT(run.edition, 1);
    EXPECT(mastdock_run_advance(run, 9, store, sizeof store).run.edition, 1);
}

/* W-208: three runs whose stores of 96, 224 and 32 bytes lie end to end; whose turn it is, label by label, beginning with run 1. */
enum { UNIT_STORE = 96 + 224 + 32, UNIT_LABELS = 15 + 7 + 3 };
static const uint8_t TURNS[UNIT_LABELS] = {1, 2, 3, 1, 2, 3, 1, 2, 3, 1, 2, 1, 2, 1, 2, 1, 2, 1, 1, 1, 1, 1, 1, 1, 1};

/* The places beyond the count hold other bytes. */
static mastdock_unit three_runs(void) {
    const uint64_t depths[] = {3, 2, 1}, memories[] = {1, 2, 0};
    const uint8_t store[224] = {0};
    mastdock_unit unit;
    memset(&unit, 0xa5, sizeof unit);
    unit.count = unit.last = 3;
    for (uint8_t i = 0; i < 3; i++) {
        const uint8_t statement[32] = {i};
        unit.runs[i] = mastdock_run_start(statement, depths[i], memories[i], store, sizeof store).run;
    }
    return unit;
}

/* One call with a budget: each run and its store are as alone after as many labels, and all else is as it was. */
static void unit_after(uint64_t budget) {
    uint8_t store[UNIT_STORE + 5], alone[UNIT_STORE + 5];
    uint64_t got[3] = {0}, blocks = 0, labels = budget < UNIT_LABELS ? budget : UNIT_LABELS;
    mastdock_unit unit = three_runs();
    memset(store, 90, sizeof store);
    memset(alone, 90, sizeof alone);
    mastdock_unit_advanced answer = mastdock_unit_advance(unit, budget, store, sizeof store);
    for (uint64_t k = 0; k < labels; k++) {
        unit.last = TURNS[k];
        got[TURNS[k] - 1]++;
    }
    for (uint64_t i = 0; i < 3; i++) {
        mastdock_place place = mastdock_unit_store_place(unit, i + 1, alone, sizeof alone);
        mastdock_run_advanced own = mastdock_run_advance(unit.runs[i], got[i], alone + place.offset, place.length);
        EXPECT(own.labels, got[i]);
        blocks += own.blocks;
        unit.runs[i] = own.run;
    }
    EXPECT(answer.refusal, 0);
    EXPECT(answer.labels, labels);
    EXPECT(answer.blocks, blocks);
    EXPECT((uint64_t)memcmp(&answer.unit, &unit, sizeof unit), 0);
    EXPECT((uint64_t)memcmp(store, alone, sizeof store), 0);
}

/* A refused call of a unit changes nothing. */
static void unit_refused(mastdock_unit unit, size_t len, uint64_t refusal) {
    uint8_t store[UNIT_STORE];
    memset(store, 90, sizeof store);
    mastdock_unit_advanced answer = mastdock_unit_advance(unit, 9, store, len);
    EXPECT(answer.refusal, refusal);
    EXPECT(answer.labels + answer.blocks, 0);
    EXPECT((uint64_t)memcmp(&answer.unit, &unit, sizeof unit), 0);
    EXPECT(store[0], 90);
    EXPECT((uint64_t)memcmp(store, store + 1, sizeof store - 1), 0);
}

/* 21 first, whatever else is wrong; then each run in order: 4 before 3 of one run, but 3 of run 2 before 4 of run 3. */
static void units_refused(void) {
    const uint64_t counts[] = {0, 9, UINT64_MAX, 3, 3, 3}, names[] = {1, 1, 1, 0, 4, UINT64_MAX};
    mastdock_unit unit = three_runs();
    unit.runs[0].edition = 0;
    for (size_t i = 0; i < sizeof counts / sizeof *counts; i++) {
        unit.count = counts[i];
        unit.last = names[i];
        unit_refused(unit, 0, MASTDOCK_RUNS);
        EXPECT(mastdock_unit_advance(unit, 0, NULL, 0).refusal, MASTDOCK_RUNS);
    }
    unit = three_runs();
    unit_refused(unit, 95, MASTDOCK_SHORT_STORE);
    unit_refused(unit, 96 + 223, MASTDOCK_SHORT_STORE);
    unit_refused(unit, UNIT_STORE - 1, MASTDOCK_SHORT_STORE);
    unit.runs[2].made = 4;
    unit_refused(unit, UNIT_STORE, MASTDOCK_STATE);
    unit_refused(unit, UNIT_STORE - 1, MASTDOCK_STATE);
    unit_refused(unit, 96 + 223, MASTDOCK_SHORT_STORE);
    unit.runs[0].memory = 4;
    unit_refused(unit, 0, MASTDOCK_STATE);
}

static void expect_place(int line, mastdock_place place, size_t offset, size_t length) {
    expect(line, place.offset, offset);
    expect(line, place.length, length);
}
#define EXPECT_PLACE(place, offset, length) expect_place(__LINE__, (place), (offset), (length))

/* Where the stores lie: the named run and those before it are checked, `last` and those after it are not. */
static void store_places(void) {
    const uint8_t store[UNIT_STORE] = {0};
    mastdock_unit unit = three_runs();
    unit.last = 0;
    EXPECT_PLACE(mastdock_unit_store_place(unit, 1, store, sizeof store), 0, 96);
    EXPECT_PLACE(mastdock_unit_store_place(unit, 2, store, sizeof store), 96, 224);
    EXPECT_PLACE(mastdock_unit_store_place(unit, 3, store, sizeof store), 320, 32);
    EXPECT_PLACE(mastdock_unit_store_place(unit, 0, store, sizeof store), 0, 0);
    EXPECT_PLACE(mastdock_unit_store_place(unit, 4, store, sizeof store), 0, 0);
    EXPECT_PLACE(mastdock_unit_store_place(unit, UINT64_MAX, store, sizeof store), 0, 0);
    EXPECT_PLACE(mastdock_unit_store_place(unit, 3, store, sizeof store - 1), 0, 0);
    unit.runs[1].depth = 0;
    EXPECT_PLACE(mastdock_unit_store_place(unit, 1, store, 96), 0, 96);
    EXPECT_PLACE(mastdock_unit_store_place(unit, 3, store, sizeof store), 0, 0);
    unit.count = 0;
    EXPECT_PLACE(mastdock_unit_store_place(unit, 0, store, sizeof store), 0, 0);
    unit.count = 9;
    EXPECT_PLACE(mastdock_unit_store_place(unit, 1, store, sizeof store), 0, 0);
}

static void units(void) {
    for (uint64_t budget = 0; budget <= UNIT_LABELS + 1; budget++)
        unit_after(budget);
    unit_after(UINT64_MAX);
    units_refused();
    store_places();
}

/* A file, an opening, leaves and a list of no elements. */
static void null_files(void) {
    const uint64_t leaf = 0;
    uint64_t list[2] = {7, 7};
    mastdock_place place = mastdock_opening_place(NULL, 0, 1);
    EXPECT(place.offset + place.length, 0);
    EXPECT(mastdock_write_head(2, ZERO, ZERO, 1, 1, NULL, 0), MASTDOCK_SHORT_OUTPUT);
    EXPECT(mastdock_read_head(NULL, 0).refusal, MASTDOCK_BYTES_END);
    EXPECT(mastdock_check_opening(2, ZERO, ZERO, 1, 0, NULL, 0), MASTDOCK_BYTES_END);
    EXPECT(mastdock_check_file(NULL, 0, ZERO, 1, 1), 256 * MASTDOCK_BYTES_END);
    mastdock_planned planned = mastdock_plan(1, NULL, 0, list, 2);
    EXPECT(planned.refusal + planned.count, 0);
    EXPECT(list[0], 7);
    EXPECT(list[1], 7);
    planned = mastdock_plan(40, NULL, 0, NULL, 0);
    EXPECT(planned.refusal + planned.count, 0);
    EXPECT(mastdock_plan(41, NULL, 0, NULL, 0).refusal, MASTDOCK_DEPTH);
    EXPECT(mastdock_plan(1, &leaf, 1, NULL, 0).refusal, MASTDOCK_SHORT_LIST);
    EXPECT(mastdock_compare(2, ZERO, 1, NULL, 0, NULL, 0).refusal, MASTDOCK_COUNT);
    EXPECT(mastdock_compare(2, ZERO, 1, &leaf, 1, NULL, 0).refusal, MASTDOCK_BYTES_END);
    EXPECT(mastdock_draw(NULL, 0, ZERO, 1, 1, NULL, 0).code, 256 * MASTDOCK_BYTES_END);
}

/* An answer that is all zero is so in every byte, and two openings that disagree fill every field of a clash. */
static void answers(void) {
    uint8_t openings[2 * MASTDOCK_OPENING_SIZE(1)] = {0};
    const uint64_t leaves[2] = {0, 0};
    mastdock_compared compared;
    mastdock_drawn drawn;
    memset(&compared, 0xa5, sizeof compared);
    fill_stack();
    compared = mastdock_compare(2, ZERO, 1, leaves, 2, openings, sizeof openings);
    EXPECT((uint64_t)all_zero(&compared, sizeof compared), 1);
    openings[sizeof openings - 1] = 1;
    fill_stack();
    compared = mastdock_compare(2, ZERO, 1, leaves, 2, openings, sizeof openings);
    EXPECT(compared.refusal, 0);
    EXPECT(compared.clash.i, 1);
    EXPECT(compared.clash.j, 2);
    EXPECT(compared.clash.level, 0);
    /* the right child's label, whose last byte differs, is the first after 41 bytes in edition 2, and the second in edition 1 */
    EXPECT((uint64_t)memcmp(compared.clash.first, compared.clash.second, 72), 0);
    EXPECT(compared.clash.first[72], 0);
    EXPECT(compared.clash.second[72], 1);
    EXPECT((uint64_t)memcmp(compared.clash.first + 73, compared.clash.second + 73, 32), 0);
    compared = mastdock_compare(1, ZERO, 1, leaves, 2, openings, sizeof openings);
    EXPECT((uint64_t)memcmp(compared.clash.first, compared.clash.second, 104), 0);
    EXPECT(compared.clash.first[104], 0);
    EXPECT(compared.clash.second[104], 1);
    EXPECT((uint64_t)all_zero(compared.clash.zero, sizeof compared.clash.zero), 1);
    memset(&drawn, 0xa5, sizeof drawn);
    fill_stack();
    drawn = mastdock_draw(NULL, 0, ZERO, 1, 1, NULL, 0);
    drawn.code = 0;
    EXPECT((uint64_t)all_zero(&drawn, sizeof drawn), 1);
}

int main(void) {
    null_hashes();
    null_states();
    levels();
    records();
    message_blocks();
    label_blocks();
    editions();
    units();
    null_files();
    answers();
    return 0;
}
