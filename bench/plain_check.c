/* One opening of document 01 checked in the order of edition 2, in plain C. */
#include "plain.h"
#include <string.h>

static size_t head(const uint8_t statement[32], unsigned level, uint64_t position, uint8_t *input) {
    memcpy(input, statement, 32);
    input[32] = (uint8_t)level;
    for (int i = 0; i < 8; i++)
        input[33 + i] = (uint8_t)(position >> (56 - 8 * i));
    return 41;
}

void plain_leaf_label(const uint8_t statement[32], unsigned depth, uint64_t leaf, const uint8_t *siblings, uint8_t label[32]) {
    uint8_t input[41 + 32 * 40];
    size_t at = head(statement, depth, leaf, input);
    for (unsigned level = depth; level >= 1; level--) /* largest level first */
        if (leaf >> (depth - level) & 1) {
            memcpy(input + at, siblings + 32 * (depth - level), 32);
            at += 32;
        }
    plain_sha256(input, at, label);
}

void plain_inner_label(const uint8_t statement[32], unsigned level, uint64_t position, const uint8_t left[32],
                       const uint8_t right[32], uint8_t label[32]) {
    uint8_t input[105];
    head(statement, level, position, input);
    memcpy(input + 41, right, 32);
    memcpy(input + 73, left, 32);
    plain_sha256(input, 105, label);
}

int plain_check_opening(const uint8_t statement[32], const uint8_t root[32], unsigned depth, uint64_t leaf,
                        const uint8_t *opening) {
    uint8_t label[32];
    plain_leaf_label(statement, depth, leaf, opening + 32, label);
    if (memcmp(label, opening, 32))
        return 14;
    for (unsigned h = 0; h < depth; h++) {
        const uint8_t *beside = opening + 32 * (h + 1);
        int odd = (int)(leaf >> h & 1);
        uint8_t next[32];
        plain_inner_label(statement, depth - h - 1, leaf >> (h + 1), odd ? beside : label, odd ? label : beside, next);
        memcpy(label, next, 32);
    }
    return memcmp(label, root, 32) ? 15 : 0;
}
