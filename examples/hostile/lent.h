/*
 * lent.h - buffers that a call is lent, with a watch on what it does around them.
 */
#ifndef LENT_H
#define LENT_H

#include <stdbool.h>
#include <stddef.h>
#include <stdint.h>

enum { LENT_MOST = 2048, LENT_GUARD = 64 };

/* Bytes and their count. */
typedef struct {
    const void *bytes;
    size_t count;
} part;

static inline part part_of(const void *bytes, size_t count)
{
    part these = {bytes, count};
    return these;
}

/* A lent buffer: guard bytes on one side of it, and memory that can't be touched on the other. */
typedef struct {
    uint8_t *room;
    uint8_t *bytes; /* null in some calls where the count is 0 */
    size_t count;
    uint8_t *guard;
    unsigned turn; /* how often it was lent */
    uint8_t was[LENT_MOST];
} lent;

void lent_make(lent *buffer);

/* Fills the buffer with the part, at the one side and at the other by turns. */
void lend(lent *buffer, part content);

/* The guard bytes are as they were. */
bool lent_kept_in(const lent *buffer);

/* So is every byte from the given one on. */
bool lent_same_from(const lent *buffer, size_t from);

#endif
