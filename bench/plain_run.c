/* A run of document 01 in plain C, of edition 2: one label at a time, held labels and the store in lent memory. */
#include "plain.h"
#include <string.h>

/* The parents stand in the order made; the last comes first. */
static void label(struct plain_run *run, unsigned level, uint64_t position, const uint8_t *parents, size_t len,
                  uint8_t out[32]) {
    uint8_t input[41 + 32 * 40];
    memcpy(input, run->statement, 32);
    input[32] = (uint8_t)level;
    for (int i = 0; i < 8; i++)
        input[33 + i] = (uint8_t)(position >> (56 - 8 * i));
    for (size_t at = 0; at < len; at += 32)
        memcpy(input + 41 + at, parents + len - 32 - at, 32);
    plain_sha256(input, 41 + len, out);
}

/* The node at place `made` of the labelling order. */
static void next_node(const struct plain_run *run, unsigned *level, uint64_t *position) {
    uint64_t half = ((uint64_t)1 << run->depth) - 1, left = run->made;
    *level = 0, *position = 0;
    while (left < 2 * half) {
        *position *= 2;
        if (left >= half)
            *position += 1, left -= half;
        *level += 1;
        half /= 2;
    }
}

void plain_advance(struct plain_run *run, uint64_t budget, uint8_t *store) {
    uint64_t all = ((uint64_t)2 << run->depth) - 1;
    for (; budget > 0 && run->made < all; budget--) {
        unsigned level;
        uint64_t position;
        uint8_t made[32];
        next_node(run, &level, &position);
        uint8_t *place = run->held + 32 * (size_t)__builtin_popcountll(position);
        if (level == run->depth) {
            label(run, level, position, run->held, (size_t)(place - run->held), made);
            memcpy(place, made, 32);
        } else {
            label(run, level, position, place, 64, made);
            memcpy(place, made, 32);
            memset(place + 32, 0, 32);
        }
        if (level <= run->memory)
            memcpy(store + 32 * (((uint64_t)1 << level) - 1 + position), made, 32);
        run->made++;
    }
}
