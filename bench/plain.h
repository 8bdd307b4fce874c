/* Plain C versions of what Mastdock does, written from the documents for comparison of speed. Labels are those of edition 2,
   which new runs have: of a label's parents the one made last is hashed first (W-206). */
#ifndef PLAIN_H
#define PLAIN_H
#include <stddef.h>
#include <stdint.h>

/* SHA-256 of a message (FIPS 180-4). */
void plain_sha256(const uint8_t *message, size_t len, uint8_t digest[32]);

/* A run of document 01: the same fields as the proved one's. */
struct plain_run {
    uint8_t statement[32];
    uint64_t depth, memory, made;
    uint8_t held[1312];
};

/* Labels the smaller of the budget and what remains. */
void plain_advance(struct plain_run *run, uint64_t budget, uint8_t *store);

/* The label of a leaf from an opening's siblings, from level n to level 1; that of an inner node from its children's. */
void plain_leaf_label(const uint8_t statement[32], unsigned depth, uint64_t leaf, const uint8_t *siblings, uint8_t label[32]);
void plain_inner_label(const uint8_t statement[32], unsigned level, uint64_t position, const uint8_t left[32],
                       const uint8_t right[32], uint8_t label[32]);

/* One opening checked: 14, 15, or 0 if it is right. */
int plain_check_opening(const uint8_t statement[32], const uint8_t root[32], unsigned depth, uint64_t leaf,
                        const uint8_t *opening);

#endif
