/* Mastdock for C11 and C++17: the calls of libcapi.a, which `./build library` writes to target/staticlib.
 *
 * Conventions
 * - Every call is decided for every value of its arguments. A state (hash, run, unit, opening, writing) is plain data: it may be
 *   copied, kept in a file and continued later, and a call that is given one that cannot be continued refuses it.
 * - A refusal is document 01's number (from 18 on a change request's), 0 where there is none; enum mastdock_refusal names them. Each
 *   call lists its refusals in the order in which they are tested. A refused call changes no lent byte, hands a state back as it was
 *   and makes 0 labels of 0 blocks; a refused start, and a record refused, hands back an all-zero state, and other values beside a
 *   refusal are 0.
 * - Lent memory is a pointer and a number of elements. Where the number is 0 the pointer may be null: so it is for every pointer of
 *   every call that a number follows, and the call answers as for memory of that length.
 * - No struct has padding: its bytes are those of its fields, `zero` among them, so two answers are equal just when memcmp says so.
 *
 * What pointers owe
 * - A pointer to an array of 32 bytes points to 32 readable bytes and is not null. A pointer with a number of elements points to so
 *   many, readable or, where it is not const, writable. A uint64_t pointer is aligned, unless it is null.
 * - Memory that a call may write overlaps no other memory lent to that call.
 * Nothing else is asked. No call keeps a pointer, allocates, or uses global data, so calls on different memory may run at once.
 *
 * Editions (W-206)
 * - The edition of a run, an opening or a file decides in which order a node's label hashes the labels of its parents. In edition 1 the
 *   label made first comes first: left child before right, and for a leaf the smallest level first. In edition 2 the label made last comes
 *   first: right child before left, and for a leaf the largest level first. Nothing else differs: a challenge's leaf comes
 *   from statement and root in the same way.
 * - A new run has MASTDOCK_NEW_EDITION. A run, an opening and a file under writing keep their edition, and a record carries it. A run of
 *   edition 1 comes only from a record of edition 1 or from a struct with that edition.
 * - A file is checked and drawn by the edition that its head says; mastdock_read_head tells it. The other calls about openings take the
 *   edition as their first argument: it is the edition of the run whose store, root or opening it is. */
#ifndef MASTDOCK_H
#define MASTDOCK_H

#include <stddef.h>
#include <stdint.h>

#ifdef __cplusplus
extern "C" {
#endif

/* Refusals, with document 01's numbers and those of the change requests. */
enum mastdock_refusal {
    MASTDOCK_DEPTH = 1,           /* depth n not 1..40 */
    MASTDOCK_MEMORY_LEVEL = 2,    /* memory level m over min(n, 14) */
    MASTDOCK_SHORT_STORE = 3,     /* store short */
    MASTDOCK_STATE = 4,           /* a state that cannot be continued: an edition that does not exist, n not 1..40, m over min(n, 14), a
                                     leaf of 2^n or more, or more labels made than there are to make; or a record
                                     whose numbers after the edition are such */
    MASTDOCK_TOO_MANY_BYTES = 5,  /* over 2^61 - 1 bytes to hash in all */
    MASTDOCK_LEAF_POSITION = 6,   /* a leaf's position 2^n or more */
    MASTDOCK_SHORT_OUTPUT = 7,    /* output short */
    MASTDOCK_COUNT = 8,           /* a challenge, or a count of them or of leaves compared, not 1..200; over 200 leaves planned */
    MASTDOCK_NOT_WANTED = 9,      /* statement, depth or count not those wanted */
    MASTDOCK_BYTES_END = 10,      /* bytes end, or are too few */
    MASTDOCK_NOT_SHORTEST = 11,   /* a number of a file or record not in its shortest form, or too long */
    MASTDOCK_EDITION = 12,        /* edition neither 1 nor 2 */
    MASTDOCK_BYTES_LEFT = 13,     /* bytes too many */
    MASTDOCK_LEAF_LABEL = 14,     /* leaf label wrong */
    MASTDOCK_ROOT = 15,           /* root wrong */
    MASTDOCK_SHORT_LIST = 16,     /* list short */
    MASTDOCK_INPUT = 17,          /* input of the planning program; no call here gives it */
    MASTDOCK_RECORD_LENGTH = 18,  /* the record's length is not what its numbers require */
    MASTDOCK_RUNS = 21            /* not 1..8 runs in a unit, or the run named as served last not among them */
};

/* Limits and sizes. A state's size is its sizeof. The sizes are constant where their arguments are; n is 1..40, m at most
 * min(n, 14), t 1..200. */
#ifdef __cplusplus
#define MASTDOCK_SIZE(x) static_cast<size_t>(x)
#define MASTDOCK_NUMBER(x) static_cast<uint64_t>(x)
#else
#define MASTDOCK_SIZE(x) ((size_t)(x))
#define MASTDOCK_NUMBER(x) ((uint64_t)(x))
#endif
#define MASTDOCK_MAX_EDITION 2                                              /* the editions that exist are 1 to this one */
#define MASTDOCK_NEW_EDITION 2                                              /* the edition of a new run */
#define MASTDOCK_MAX_DEPTH 40
#define MASTDOCK_MAX_MEMORY 14
#define MASTDOCK_MAX_COUNT 200
#define MASTDOCK_MAX_RUNS 8                                                 /* the most runs of a unit */
#define MASTDOCK_HELD_SIZE 1312                                             /* 41 places of 32 bytes */
#define MASTDOCK_MAX_RECORD 1353                                            /* bytes of the longest record of a run */
#define MASTDOCK_STORE_SIZE(m) (32 * ((MASTDOCK_SIZE(2) << (m)) - 1))       /* bytes of a store of levels 0 to m */
#define MASTDOCK_MAX_STORE MASTDOCK_STORE_SIZE(MASTDOCK_MAX_MEMORY)         /* 1,048,544 bytes: no run asks for more */
#define MASTDOCK_OPENING_SIZE(n) (32 * (MASTDOCK_SIZE(n) + 1))              /* bytes of an opening */
#define MASTDOCK_HEAD_SIZE(t) MASTDOCK_SIZE((t) < 128 ? 67 : 68)            /* bytes before the openings */
#define MASTDOCK_FILE_SIZE(n, t) (MASTDOCK_HEAD_SIZE(t) + MASTDOCK_SIZE(t) * MASTDOCK_OPENING_SIZE(n))
#define MASTDOCK_LABELS(n) ((MASTDOCK_NUMBER(2) << (n)) - 1)                /* labels of a whole run */
#define MASTDOCK_LABELS_ANEW(n, m) ((MASTDOCK_NUMBER(2) << ((n) - (m))) - 2) /* labels that an opening makes anew */
#define MASTDOCK_INPUT_SIZE 105                                             /* bytes of an inner node's hash input */
#define MASTDOCK_MAX_CHAIN 6855                                             /* nodes of a chain of 200 leaves, at most */

/* ---- Hashing: SHA-256 in portions ---- */

/* A hash under way: the eight hash words, the bytes that wait for their block to fill, and how many were taken in all. Of the tail
 * the first taken % 64 bytes wait; when they fill a block they go into the words, and the whole tail is zero again. Behind the
 * bytes that wait, the tail of a hash begun with mastdock_hash_new is zero. */
typedef struct mastdock_hash {
    uint32_t words[8];
    uint8_t tail[64];
    uint64_t taken;
} mastdock_hash;

typedef struct mastdock_hash_updated {
    uint64_t refusal;
    mastdock_hash hash;
} mastdock_hash_updated;

typedef struct mastdock_hash_finished {
    uint64_t refusal;
    uint64_t blocks;
    uint8_t digest[32];
    mastdock_hash hash;
} mastdock_hash_finished;

typedef struct mastdock_digested {
    uint64_t refusal;
    uint64_t blocks;
    uint8_t digest[32];
} mastdock_digested;

/* A hash that has taken nothing. No refusal. */
mastdock_hash mastdock_hash_new(void);

/* Takes a portion more. Refusals: 5. */
mastdock_hash_updated mastdock_hash_update(mastdock_hash hash, const uint8_t *part, size_t part_len);

/* The digest of all that was taken, and the number of 64-byte blocks compressed by SHA-256 for the whole message, whatever its portions
 * were: for L bytes (L + 8) / 64, rounded down, plus 1; refused: 0. The hash is handed back as it was. Refusals: 5. */
mastdock_hash_finished mastdock_hash_finish(mastdock_hash hash);

/* The digest of a whole message, and its blocks, counted as by mastdock_hash_finish. A report's digest is its statement. Refusals: 5. */
mastdock_digested mastdock_digest(const uint8_t *message, size_t message_len);

/* ---- Runs in lent memory ----
 *
 * Units in the field: until W-209 the greatest memory level was 20. A run of level 15 to 20 is refused with 4, so one that is not
 * finished cannot be carried on. The store of a finished one is opened, and its file written, at level 14 over the same bytes, since a
 * label's slot does not depend on the level. Files do not carry the level: all old ones are good. */

/* A run: statement, edition, n, m, the labels made, and the held labels. When all labels are made, the root is in held[0..31]. */
typedef struct mastdock_run {
    uint8_t statement[32];
    uint64_t edition;
    uint64_t depth;
    uint64_t memory;
    uint64_t made;
    uint8_t held[MASTDOCK_HELD_SIZE];
} mastdock_run;

typedef struct mastdock_run_started {
    uint64_t refusal;
    mastdock_run run;
} mastdock_run_started;

typedef struct mastdock_run_advanced {
    uint64_t refusal;
    uint64_t labels;
    uint64_t blocks;
    mastdock_run run;
} mastdock_run_advanced;

/* A new run of MASTDOCK_NEW_EDITION, for a store of MASTDOCK_STORE_SIZE(memory) bytes or more, which it leaves as it is. Refusals: 1, 2,
 * 3. */
mastdock_run_started mastdock_run_start(const uint8_t statement[32], uint64_t depth, uint64_t memory, const uint8_t *store,
                                        size_t store_len);

/* Makes exactly the smaller of the budget and the labels that remain; stored labels are written as made. `blocks` is the number of 64-byte
 * blocks compressed by SHA-256 for the labels made in this call, 2 for an inner node and 1 to 21 for a leaf; a refused call, budget 0 and a
 * finished run: 0. Challenges and the report's hash are not labels and not in it. Refusals: 4, 3. */
mastdock_run_advanced mastdock_run_advance(mastdock_run run, uint64_t budget, uint8_t *store, size_t store_len);

/* ---- A run paused: its record ----
 *
 * The record of a run is those bytes of it that another machine needs to go on: edition, depth, memory level and labels made, then the
 * statement, then the held labels and no place beyond them. The store travels separately. Over the same store a run that was paused
 * after any label and resumed ends with the root and store of one never paused. A resumed run has the edition of its record. */

typedef struct mastdock_run_recorded {
    uint64_t refusal;
    size_t size;
} mastdock_run_recorded;

/* Writes the run's record over the front of the output and gives the number of its bytes, at most MASTDOCK_MAX_RECORD. Places that
 * hold no label are not looked at. Refusals: 4 (as mastdock_run_advance), 7. */
mastdock_run_recorded mastdock_run_record(mastdock_run run, uint8_t *out, size_t out_len);

/* The run of a record; its places that hold no label are zero. Two different records never give the same run. Refusals: edition 10,
 * 11, 12; depth 10, 11; memory level 10, 11; labels made 10, 11; then 4 (mastdock_run_advance would refuse a run of these numbers with
 * 4); 18 (bytes too few or too many for them). */
mastdock_run_started mastdock_run_resume(const uint8_t *record, size_t record_len);

/* ---- Several runs in one unit (W-208) ----
 *
 * A unit carries 1 to MASTDOCK_MAX_RUNS runs, each with its own statement, edition, depth and memory level. Their stores lie end to end
 * in one piece of lent memory, in the order of the runs: run 1's is its first MASTDOCK_STORE_SIZE(memory) bytes, run 2's begins right
 * behind it, and so on. A unit has no start of its own: start each run with mastdock_run_start, which asks only for the length of its
 * store, or resume it from its record, and put it in its place of the unit. Each run's root and store are those that it would have
 * alone; only how far it has come depends on its neighbours. */

/* A unit: how many runs it has, the number of the run served last, and the runs; run i, from 1, is runs[i - 1]. `last` names one of
 * runs 1 to count, finished or not; 0 is refused. To begin with run 1, name the last run: last = count. Places of the array beyond the
 * count are not looked at. When all labels of a run are made, its root is in its held[0..31]. */
typedef struct mastdock_unit {
    uint64_t count;
    uint64_t last;
    mastdock_run runs[MASTDOCK_MAX_RUNS];
} mastdock_unit;

typedef struct mastdock_unit_advanced {
    uint64_t refusal;
    uint64_t labels;
    uint64_t blocks;
    mastdock_unit unit;
} mastdock_unit_advanced;

/* A part of lent bytes; 0 and 0 where there is none. */
typedef struct mastdock_place {
    size_t offset;
    size_t length;
} mastdock_place;

/* Makes exactly the smaller of the budget and the labels that remain of all runs together, one at a time, in turn, beginning after the
 * run named as served last; after run `count` comes run 1, and finished runs are passed over. The unit handed back names the run that
 * made the last label; a call that makes none leaves the name as it was. If the unit is handed on as it was handed back, the others
 * together make at most 7 labels between two of an unfinished run. If no run finishes in a call, the numbers of labels got by those
 * unfinished at its start differ by at most one. `labels` and `blocks` are of all runs together, blocks counted as by
 * mastdock_run_advance; what one run got is read off its `made`. Bytes behind the last store and places of the array beyond the count
 * come back as they were. Refusals: 21 (count not 1..8, or last not 1..count); then each run in order, as by mastdock_run_advance: run 1
 * with 4, 3; run 2 with 4, 3; and so on to run `count`. The store of a run is short if fewer bytes than it needs are left behind those
 * of the runs before it. One refusal changes nothing in any run. Holds copies of the unit on the stack: its thread wants 0.1 MB. */
mastdock_unit_advanced mastdock_unit_advance(mastdock_unit unit, uint64_t budget, uint8_t *store, size_t store_len);

/* Where the store of run i, from 1, lies in the memory of the unit: nowhere if count is not 1..8, i is not 1..count, or one of runs 1
 * to i would be refused with 4 or 3; `last` and the runs after run i are not looked at. That part alone is the store that the calls for
 * one run, for its openings and for its file take. No refusal. Its stack is that of mastdock_unit_advance at most. */
mastdock_place mastdock_unit_store_place(mastdock_unit unit, uint64_t i, const uint8_t *store, size_t store_len);

/* ---- Openings ---- */

/* An opening under way: a run's state with the leaf; count and held labels are those of the nodes labelled anew. */
typedef struct mastdock_opening {
    uint8_t statement[32];
    uint64_t edition;
    uint64_t depth;
    uint64_t memory;
    uint64_t leaf;
    uint64_t made;
    uint8_t held[MASTDOCK_HELD_SIZE];
} mastdock_opening;

typedef struct mastdock_opening_started {
    uint64_t refusal;
    mastdock_opening opening;
} mastdock_opening_started;

typedef struct mastdock_opening_advanced {
    uint64_t refusal;
    uint64_t labels;
    uint64_t blocks;
    mastdock_opening opening;
} mastdock_opening_advanced;

/* A new opening of a leaf: copies what the store holds of it to the MASTDOCK_OPENING_SIZE(depth) bytes of the output. The store is
 * a finished run's of the same edition, statement and depth, and of this memory level or a higher one. Refusals: 12, 1, 2, 3, 6, 7. */
mastdock_opening_started mastdock_opening_start(uint64_t edition, const uint8_t statement[32], uint64_t depth, uint64_t memory,
                                                uint64_t leaf, const uint8_t *store, size_t store_len, uint8_t *out, size_t out_len);

/* Makes anew exactly the smaller of the budget and the labels that remain, and puts those of the opening in their places of the
 * output. `blocks` are those of the labels made in this call, counted as by mastdock_run_advance. Refusals: 4, 3, 7. */
mastdock_opening_advanced mastdock_opening_advance(mastdock_opening opening, uint64_t budget, const uint8_t *store,
                                                   size_t store_len, uint8_t *out, size_t out_len);

/* ---- Challenges and the file ---- */

typedef struct mastdock_challenged {
    uint64_t refusal;
    uint64_t leaf;
} mastdock_challenged;

/* The leaf of challenge i, from 1. Refusals: 12, 1, 8. */
mastdock_challenged mastdock_challenge(uint64_t edition, const uint8_t statement[32], const uint8_t root[32], uint64_t depth, uint64_t i);

/* Writes the head of a file of so many openings: MASTDOCK_HEAD_SIZE(count) bytes at its front. The openings follow it in the order
 * of their challenges. Gives the refusal: 12, 1, 8, 7 (the whole file must fit). */
uint64_t mastdock_write_head(uint64_t edition, const uint8_t statement[32], const uint8_t root[32], uint64_t depth, uint64_t count,
                             uint8_t *file, size_t file_len);

typedef struct mastdock_head {
    uint64_t refusal;
    uint64_t edition;
    uint64_t depth;
    uint64_t count;
} mastdock_head;

/* Reads edition, depth and count out of a file's head, whose first bytes are enough; what follows them is not looked at. The statement
 * is the 32 bytes from MASTDOCK_HEAD_SIZE(count) - 64 on, the root the 32 after it, and the file should be
 * MASTDOCK_FILE_SIZE(depth, count) bytes long. Refusals: edition 10, 11, 12; depth 10, 11, 1; count 10, 11, 8. */
mastdock_head mastdock_read_head(const uint8_t *file, size_t file_len);

/* Where opening i, from 1, lies in a file: nowhere if a head number is refused, the length is not the layout's, or there is no
 * opening of that number. No refusal. */
mastdock_place mastdock_opening_place(const uint8_t *file, size_t file_len, uint64_t i);

/* Checks one opening of a leaf against a root. Gives the refusal, 0 if it is right: 12, 1, 6, 10, 13, 14, 15. */
uint64_t mastdock_check_opening(uint64_t edition, const uint8_t statement[32], const uint8_t root[32], uint64_t depth, uint64_t leaf,
                                const uint8_t *opening, size_t opening_len);

/* Checks a file, by the edition that its head says, against the statement, depth and count that are wanted. Gives 0 if it is accepted,
 * else 256 * refusal + opening, the opening from 1, or 0 outside openings. Refusals: edition 10, 11, 12; depth 10, 11, 1; count 10, 11,
 * 8; 10; 13; 9; then for each opening 14, 15. */
uint64_t mastdock_check_file(const uint8_t *file, size_t file_len, const uint8_t statement[32], uint64_t depth, uint64_t count);

/* ---- The whole file written by budgets ---- */

/* A file under writing: root, count, the number of the opening under way, from 1, and that opening. All openings before that number
 * are in the file. The whole file is done when number == count and opening.made == MASTDOCK_LABELS_ANEW(opening.depth,
 * opening.memory); with the memory level equal to the depth that is so from the start. */
typedef struct mastdock_writing {
    uint8_t root[32];
    uint64_t count;
    uint64_t number;
    mastdock_opening opening;
} mastdock_writing;

typedef struct mastdock_writing_started {
    uint64_t refusal;
    mastdock_writing writing;
} mastdock_writing_started;

typedef struct mastdock_writing_advanced {
    uint64_t refusal;
    uint64_t labels;
    uint64_t blocks;
    mastdock_writing writing;
} mastdock_writing_advanced;

/* Begins a file of so many openings: writes its head and what the store holds of the first opening, and of the next ones where
 * nothing is to be labelled anew. The store is a finished run's of the same edition, statement and depth, and of this memory level or
 * a higher one, and the root its root. Refusals: 12, 1, 2, 3, 8, 7 (the whole file must fit). */
mastdock_writing_started mastdock_writing_start(uint64_t edition, const uint8_t statement[32], const uint8_t root[32], uint64_t depth,
                                                uint64_t memory, uint64_t count, const uint8_t *store, size_t store_len,
                                                uint8_t *file, size_t file_len);

/* Makes anew exactly the smaller of the budget and the labels that remain for all openings, and puts those of the openings in
 * their places of the file; the next opening is begun when one is done. The file is done when no label remains: all together there
 * are count * MASTDOCK_LABELS_ANEW(depth, memory), and a call with a budget over 0 that is not refused and gives 0 labels says so.
 * `blocks` are those of the labels made in this call, counted as by mastdock_run_advance: the challenges, 2 each, are not in it.
 * Refusals: 4 (the opening cannot be continued, count not 1..200, number not 1..count, or an opening that is done but not the last;
 * no start and no call leaves such a writing), 3, 7 (the whole file must fit). */
mastdock_writing_advanced mastdock_writing_advance(mastdock_writing writing, uint64_t budget, const uint8_t *store,
                                                   size_t store_len, uint8_t *file, size_t file_len);

/* ---- Chains ---- */

typedef struct mastdock_planned {
    uint64_t refusal;
    uint64_t count;
} mastdock_planned;

/* Writes the nodes on the leaves' ways to the root, in labelling order, each once, as 2^level + position, and gives their count.
 * Leaves may stand in any order and repeat. With no leaf (leaves may be null, leaves_len is 0) the count is 0 and nothing is written.
 * Refusals: 1, 8 (only over 200 leaves), 6, 16. */
mastdock_planned mastdock_plan(uint64_t depth, const uint64_t *leaves, size_t leaves_len, uint64_t *list, size_t list_len);

/* Two openings that disagree: the first pair i < j, from 1, the smallest level, and both hash inputs there. All zero where no pair
 * does; i is 0 just then. The last six bytes are always 0. */
typedef struct mastdock_clash {
    uint64_t i;
    uint64_t j;
    uint64_t level;
    uint8_t first[MASTDOCK_INPUT_SIZE];
    uint8_t second[MASTDOCK_INPUT_SIZE];
    uint8_t zero[6];
} mastdock_clash;

typedef struct mastdock_compared {
    uint64_t refusal;
    mastdock_clash clash;
} mastdock_compared;

/* Compares openings of leaves, given one after the other in one piece; they need not be right. Two disagree at a shared inner node
 * if their child labels there, computed or given, differ. Holds a table of 512,000 bytes on the stack: its thread wants 0.6 MB.
 * The inputs of a clash are of this edition. Refusals: 12, 1, 8 (not 1..200 leaves), 6, 10, 13. */
mastdock_compared mastdock_compare(uint64_t edition, const uint8_t statement[32], uint64_t depth, const uint64_t *leaves,
                                   size_t leaves_len, const uint8_t *openings, size_t openings_len);

/* What drawing found. */
enum mastdock_drawing {
    MASTDOCK_NOT_DRAWN = 0, /* refused: the code as mastdock_check_file gives it */
    MASTDOCK_CHAIN = 1,     /* a chain: the count of its nodes */
    MASTDOCK_CLASH = 2      /* two openings that disagree */
};

/* The fields of the kind that it is; all others are 0. */
typedef struct mastdock_drawn {
    uint64_t kind;
    uint64_t code;
    uint64_t count;
    mastdock_clash clash;
} mastdock_drawn;

/* Draws the chain of a file: checks it as mastdock_check_file does; then, if two of its openings disagree, names the first pair and
 * leaves the list, and the two inputs are in the order of the file's edition; else writes the chain as mastdock_plan does. Holds a table
 * of 512,000 bytes on the stack: its thread wants 0.6 MB. Refusals: those of mastdock_check_file; then, if no pair disagrees, 16. */
mastdock_drawn mastdock_draw(const uint8_t *file, size_t file_len, const uint8_t statement[32], uint64_t depth, uint64_t count,
                             uint64_t *list, size_t list_len);

#ifdef __cplusplus
}
#endif

/* The layout that the library was compiled with. Since W-207 five answers have `blocks` and are 8 bytes longer; since W-206 runs, openings,
 * all that holds one of them, and mastdock_head have `edition` and are 8 bytes longer, and six calls take an edition first. A program
 * compiled with an older header still links; it must be given the editions and compiled again. */
#ifdef __cplusplus
#define MASTDOCK_ASSERT(condition) static_assert(condition, #condition)
#else
#define MASTDOCK_ASSERT(condition) _Static_assert(condition, #condition)
#endif
#define MASTDOCK_AT(type, field, offset) MASTDOCK_ASSERT(offsetof(type, field) == (offset))

MASTDOCK_ASSERT(sizeof(size_t) == 8);

MASTDOCK_ASSERT(sizeof(mastdock_hash) == 104);
MASTDOCK_AT(mastdock_hash, words, 0);
MASTDOCK_AT(mastdock_hash, tail, 32);
MASTDOCK_AT(mastdock_hash, taken, 96);

MASTDOCK_ASSERT(sizeof(mastdock_hash_updated) == 112);
MASTDOCK_AT(mastdock_hash_updated, refusal, 0);
MASTDOCK_AT(mastdock_hash_updated, hash, 8);

MASTDOCK_ASSERT(sizeof(mastdock_hash_finished) == 152);
MASTDOCK_AT(mastdock_hash_finished, refusal, 0);
MASTDOCK_AT(mastdock_hash_finished, blocks, 8);
MASTDOCK_AT(mastdock_hash_finished, digest, 16);
MASTDOCK_AT(mastdock_hash_finished, hash, 48);

MASTDOCK_ASSERT(sizeof(mastdock_digested) == 48);
MASTDOCK_AT(mastdock_digested, refusal, 0);
MASTDOCK_AT(mastdock_digested, blocks, 8);
MASTDOCK_AT(mastdock_digested, digest, 16);

MASTDOCK_ASSERT(sizeof(mastdock_run) == 1376);
MASTDOCK_AT(mastdock_run, statement, 0);
MASTDOCK_AT(mastdock_run, edition, 32);
MASTDOCK_AT(mastdock_run, depth, 40);
MASTDOCK_AT(mastdock_run, memory, 48);
MASTDOCK_AT(mastdock_run, made, 56);
MASTDOCK_AT(mastdock_run, held, 64);

MASTDOCK_ASSERT(sizeof(mastdock_run_started) == 1384);
MASTDOCK_AT(mastdock_run_started, refusal, 0);
MASTDOCK_AT(mastdock_run_started, run, 8);

MASTDOCK_ASSERT(sizeof(mastdock_run_advanced) == 1400);
MASTDOCK_AT(mastdock_run_advanced, refusal, 0);
MASTDOCK_AT(mastdock_run_advanced, labels, 8);
MASTDOCK_AT(mastdock_run_advanced, blocks, 16);
MASTDOCK_AT(mastdock_run_advanced, run, 24);

MASTDOCK_ASSERT(sizeof(mastdock_run_recorded) == 16);
MASTDOCK_AT(mastdock_run_recorded, refusal, 0);
MASTDOCK_AT(mastdock_run_recorded, size, 8);

MASTDOCK_ASSERT(sizeof(mastdock_unit) == 11024);
MASTDOCK_AT(mastdock_unit, count, 0);
MASTDOCK_AT(mastdock_unit, last, 8);
MASTDOCK_AT(mastdock_unit, runs, 16);

MASTDOCK_ASSERT(sizeof(mastdock_unit_advanced) == 11048);
MASTDOCK_AT(mastdock_unit_advanced, refusal, 0);
MASTDOCK_AT(mastdock_unit_advanced, labels, 8);
MASTDOCK_AT(mastdock_unit_advanced, blocks, 16);
MASTDOCK_AT(mastdock_unit_advanced, unit, 24);

MASTDOCK_ASSERT(sizeof(mastdock_opening) == 1384);
MASTDOCK_AT(mastdock_opening, statement, 0);
MASTDOCK_AT(mastdock_opening, edition, 32);
MASTDOCK_AT(mastdock_opening, depth, 40);
MASTDOCK_AT(mastdock_opening, memory, 48);
MASTDOCK_AT(mastdock_opening, leaf, 56);
MASTDOCK_AT(mastdock_opening, made, 64);
MASTDOCK_AT(mastdock_opening, held, 72);

MASTDOCK_ASSERT(sizeof(mastdock_opening_started) == 1392);
MASTDOCK_AT(mastdock_opening_started, refusal, 0);
MASTDOCK_AT(mastdock_opening_started, opening, 8);

MASTDOCK_ASSERT(sizeof(mastdock_opening_advanced) == 1408);
MASTDOCK_AT(mastdock_opening_advanced, refusal, 0);
MASTDOCK_AT(mastdock_opening_advanced, labels, 8);
MASTDOCK_AT(mastdock_opening_advanced, blocks, 16);
MASTDOCK_AT(mastdock_opening_advanced, opening, 24);

MASTDOCK_ASSERT(sizeof(mastdock_challenged) == 16);
MASTDOCK_AT(mastdock_challenged, refusal, 0);
MASTDOCK_AT(mastdock_challenged, leaf, 8);

MASTDOCK_ASSERT(sizeof(mastdock_head) == 32);
MASTDOCK_AT(mastdock_head, refusal, 0);
MASTDOCK_AT(mastdock_head, edition, 8);
MASTDOCK_AT(mastdock_head, depth, 16);
MASTDOCK_AT(mastdock_head, count, 24);

MASTDOCK_ASSERT(sizeof(mastdock_place) == 16);
MASTDOCK_AT(mastdock_place, offset, 0);
MASTDOCK_AT(mastdock_place, length, 8);

MASTDOCK_ASSERT(sizeof(mastdock_writing) == 1432);
MASTDOCK_AT(mastdock_writing, root, 0);
MASTDOCK_AT(mastdock_writing, count, 32);
MASTDOCK_AT(mastdock_writing, number, 40);
MASTDOCK_AT(mastdock_writing, opening, 48);

MASTDOCK_ASSERT(sizeof(mastdock_writing_started) == 1440);
MASTDOCK_AT(mastdock_writing_started, refusal, 0);
MASTDOCK_AT(mastdock_writing_started, writing, 8);

MASTDOCK_ASSERT(sizeof(mastdock_writing_advanced) == 1456);
MASTDOCK_AT(mastdock_writing_advanced, refusal, 0);
MASTDOCK_AT(mastdock_writing_advanced, labels, 8);
MASTDOCK_AT(mastdock_writing_advanced, blocks, 16);
MASTDOCK_AT(mastdock_writing_advanced, writing, 24);

MASTDOCK_ASSERT(sizeof(mastdock_planned) == 16);
MASTDOCK_AT(mastdock_planned, refusal, 0);
MASTDOCK_AT(mastdock_planned, count, 8);

MASTDOCK_ASSERT(sizeof(mastdock_clash) == 240);
MASTDOCK_AT(mastdock_clash, i, 0);
MASTDOCK_AT(mastdock_clash, j, 8);
MASTDOCK_AT(mastdock_clash, level, 16);
MASTDOCK_AT(mastdock_clash, first, 24);
MASTDOCK_AT(mastdock_clash, second, 129);
MASTDOCK_AT(mastdock_clash, zero, 234);

MASTDOCK_ASSERT(sizeof(mastdock_compared) == 248);
MASTDOCK_AT(mastdock_compared, refusal, 0);
MASTDOCK_AT(mastdock_compared, clash, 8);

MASTDOCK_ASSERT(sizeof(mastdock_drawn) == 264);
MASTDOCK_AT(mastdock_drawn, kind, 0);
MASTDOCK_AT(mastdock_drawn, code, 8);
MASTDOCK_AT(mastdock_drawn, count, 16);
MASTDOCK_AT(mastdock_drawn, clash, 24);

/* Document 01's table: T5, T8 and T9. */
MASTDOCK_ASSERT(MASTDOCK_STORE_SIZE(0) == 32 && MASTDOCK_STORE_SIZE(10) == 65504);
MASTDOCK_ASSERT(MASTDOCK_FILE_SIZE(1, 1) == 131 && MASTDOCK_FILE_SIZE(40, 200) == 262468);
MASTDOCK_ASSERT(MASTDOCK_LABELS(2) == 7 && MASTDOCK_LABELS_ANEW(3, 3) == 0 && MASTDOCK_LABELS_ANEW(3, 1) == 6);

/* W-201: three numbers of one byte, one of six, the statement and 41 labels. */
MASTDOCK_ASSERT(MASTDOCK_MAX_RECORD == 3 + 6 + 32 + MASTDOCK_HELD_SIZE);

#undef MASTDOCK_AT
#undef MASTDOCK_ASSERT

#endif
