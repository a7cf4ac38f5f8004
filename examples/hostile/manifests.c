/*
 * manifests.c - see manifests.h.
 */
#include "manifests.h"

#include "made.h"

#include <string.h>

enum { WIDEST = 32767 }; /* what 15 bits hold */

static uint16_t *any_of(uint16_t *list, size_t count)
{
    return &list[made_below((uint32_t)count)];
}

static uint16_t *greatest_of(uint16_t *list, size_t count)
{
    uint16_t *found = list;
    for (size_t i = 1; i < count; i++)
        found = list[i] > *found ? &list[i] : found;
    return found;
}

/* ---- the slips, each of consists that are right without it */

/* All of one part goes to another. */
static void empty_one(uint16_t *list, size_t count)
{
    size_t from = made_once_in(2) ? made_below(2) * (count - 1) : made_below((uint32_t)count);
    size_t to = (from + 1) % count;
    list[to] = (uint16_t)(list[to] + list[from]);
    list[from] = 0;
}

static void no_length(manifest *m)
{
    empty_one(m->lengths, m->count);
}

static void no_weight(manifest *m)
{
    empty_one(m->weights, m->count);
}

static void foot_short(manifest *m)
{
    *greatest_of(m->lengths, m->count) -= 1;
}

static void foot_over(manifest *m)
{
    *any_of(m->lengths, m->count) += 1;
}

static void ton_short(manifest *m)
{
    *greatest_of(m->weights, m->count) -= 1;
}

static void ton_over(manifest *m)
{
    *any_of(m->weights, m->count) += 1;
}

static void exchanged(manifest *m)
{
    uint16_t lengths[ROOM_BLOCKS];
    memcpy(lengths, m->lengths, sizeof lengths);
    memcpy(m->lengths, m->weights, sizeof lengths);
    memcpy(m->weights, lengths, sizeof lengths);
}

/* Blocks more, which add 2 to the 15th or to the 16th to one of the sums: a sum in too few bits would not show it. */
static void wrap(manifest *m, uint16_t *wrapped, uint16_t *other, uint32_t whole)
{
    bool far = made_once_in(2);
    size_t more = far ? 3 : 2, at = m->count;
    m->count += more;
    made_parts(other, m->count, whole);
    wrapped[at] = WIDEST;
    wrapped[at + 1] = far ? WIDEST : 1;
    wrapped[at + 2] = 2;
}

static void length_wrapped(manifest *m)
{
    wrap(m, m->lengths, m->weights, m->weight);
}

static void weight_wrapped(manifest *m)
{
    wrap(m, m->weights, m->lengths, m->length);
}

static void spare_set(manifest *m)
{
    m->spares[made_below((uint32_t)m->count)] = (uint8_t)(1 + made_below(3));
}

static void bytes_over(manifest *m)
{
    m->more = 1 + (int)made_below(3);
}

static void bytes_short(manifest *m)
{
    m->more = -1 - (int)made_below(3);
}

/* What is judged before the blocks, be these whole or not. */
static void too_light(manifest *m)
{
    second_put_bits(m->front, 0, 9, 250);
    second_put_bits(m->front, 20, 15, 2499);
    m->more = (int)made_below(4);
}

static void out_of_range(manifest *m)
{
    second_put_bits(m->front, 9, 11, made_once_in(2) ? 1 : 2001);
    m->more = (int)made_below(4);
}

static void cut(manifest *m)
{
    m->count = 0;
    m->more = -1 - (int)made_below(CONSIST);
}

const kind kinds[KINDS] = {
    {"none", 0, 0, 0, NULL},
    {"one", 0, 1, 1, NULL},
    {"some", 0, 2, MOST - 1, NULL},
    {"64", 0, MOST, MOST, NULL},
    {"65", 13, MOST + 1, MOST + 1, NULL},
    {"more", 13, MOST + 2, ROOM_BLOCKS, NULL},
    {"bytes-over", 13, 0, MOST, bytes_over},
    {"bytes-short", 13, 1, MOST, bytes_short},
    {"no-length", 13, 2, MOST, no_length},
    {"no-weight", 13, 2, MOST, no_weight},
    {"spare", 13, 1, MOST, spare_set},
    {"foot-short", 13, 1, MOST, foot_short},
    {"foot-over", 13, 1, MOST, foot_over},
    {"ton-short", 13, 1, MOST, ton_short},
    {"ton-over", 13, 1, MOST, ton_over},
    {"exchanged", 13, 1, MOST, exchanged},
    {"length-wrapped", 13, 1, MOST - 3, length_wrapped},
    {"weight-wrapped", 13, 1, MOST - 3, weight_wrapped},
    {"too-light", 5, 0, MOST, too_light},
    {"out-of-range", 4, 0, MOST, out_of_range},
    {"cut", 2, 0, 0, cut},
};

/* ---- a consist of a kind */

static size_t made_number(size_t least, size_t most)
{
    return made_once_in(3) ? least : made_once_in(3) ? most : (size_t)made_between((int64_t)least, (int64_t)most);
}

/* Heavy and long enough for the most blocks and a slip, and not as heavy as long. */
static void make_front(manifest *m)
{
    do {
        made_consist(m->front, &m->length);
        m->weight = (uint32_t)second_bits(m->front, 20, 15);
    } while (m->length < 2 * ROOM_BLOCKS || m->weight < 2 * ROOM_BLOCKS || m->length == m->weight);
}

void make_manifest(const kind *k, manifest *m)
{
    memset(m, 0, sizeof *m);
    make_front(m);
    m->count = made_number(k->least, k->most);
    made_parts(m->lengths, m->count, m->length);
    made_parts(m->weights, m->count, m->weight);
    if (k->slip != NULL)
        k->slip(m);
}

size_t manifest_bytes(const manifest *m, uint8_t *bytes)
{
    made_noise(bytes, CONSIST + ROOM_BLOCKS * BLOCK);
    memcpy(bytes, m->front, CONSIST);
    for (size_t i = 0; i < m->count; i++) {
        uint8_t *block = bytes + CONSIST + i * BLOCK;
        second_put_bits(block, 0, 15, m->lengths[i]);
        second_put_bits(block, 15, 15, m->weights[i]);
        second_put_bits(block, 30, 2, m->spares[i]);
    }
    return (size_t)((int)(CONSIST + m->count * BLOCK) + m->more);
}
