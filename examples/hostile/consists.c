/*
 * consists.c - see consists.h.
 */
#include "consists.h"

#include "made.h"
#include "manifests.h"

#include <stdio.h>

enum { TIMES = 60 }; /* each kind */

static unsigned long kinds_tried[KINDS];

/* The session's buffer a byte short, just right and longer, each at both sides of its room, by either call. */
static void try_openings(part consist)
{
    static const size_t rooms[] = {BUONGILACH_SESSION_BYTES - 1, BUONGILACH_SESSION_BYTES, BUONGILACH_SESSION_BYTES + 9, 0};
    for (size_t i = 0; i < 2 * (sizeof rooms / sizeof *rooms); i++)
        if (made_once_in(2))
            try_open(made_part(rooms[i / 2]), consist, NULL);
        else
            try_open_with(made_part(rooms[i / 2]), consist, choices[made_below(CHOICES)], NULL);
}

/* ---- the same numbers, told to the writer */

static void numbers_of(const manifest *m, uint32_t *fields)
{
    static const int widths[9] = {9, 11, 15, 15, 24, 18, 10, 14, 12};
    int at = 0;
    for (int i = 0; i < 9; i++) {
        fields[i] = (uint32_t)second_bits(m->front, at, widths[i]);
        at += widths[i];
    }
}

/* Rooms about what is written, and lists of which one has an element more or fewer. */
static void try_writer(const manifest *m)
{
    uint32_t fields[9];
    size_t size = CONSIST + m->count * BLOCK;
    part lengths = part_of(m->lengths, m->count), weights = part_of(m->weights, m->count);
    part fewer = part_of(m->weights, m->count - (m->count > 0)), more = part_of(m->weights, m->count + 1);
    numbers_of(m, fields);
    for (size_t room = size - 5; room < size + 6; room++)
        try_write_manifest(fields, lengths, weights, made_part(room));
    try_write_manifest(fields, lengths, fewer, made_part(size + made_below(5)));
    try_write_manifest(fields, fewer, lengths, made_part(size + made_below(5)));
    if (m->count < ROOM_BLOCKS)
        try_write_manifest(fields, lengths, more, made_part(size + made_below(9)));
}

/* A part that is wider than its field, in lists that sum right in 16 bits. */
static void try_wide(manifest *m)
{
    uint32_t fields[9];
    uint16_t *list = made_once_in(2) ? m->lengths : m->weights;
    numbers_of(m, fields);
    list[0] = (uint16_t)(list[0] + 32768);
    list[1] = (uint16_t)(list[1] + 32768);
    try_write_manifest(fields, part_of(m->lengths, m->count), part_of(m->weights, m->count),
                       made_part(BUONGILACH_CONSIST_BYTES_MOST));
}

static void try_kind(size_t place)
{
    static manifest m;
    static uint8_t bytes[CONSIST + ROOM_BLOCKS * BLOCK];
    make_manifest(&kinds[place], &m);
    part consist = part_of(bytes, manifest_bytes(&m, bytes));
    try_consist(consist, kinds[place].due);
    try_openings(consist);
    kinds_tried[place]++;
    try_writer(&m);
    if (m.count >= 2)
        try_wide(&m);
}

void run_consists(void)
{
    for (size_t place = 0; place < KINDS; place++)
        for (int i = 0; i < TIMES; i++)
            try_kind(place);
}

bool consists_all_seen(void)
{
    for (size_t place = 0; place < KINDS; place++)
        if (kinds_tried[place] == 0)
            return false;
    return true;
}

void consists_print(void)
{
    for (size_t place = 0; place < KINDS; place++)
        printf(" %s:%lu", kinds[place].name, kinds_tried[place]);
}
