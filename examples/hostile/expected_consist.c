/*
 * expected_consist.c - see expected.h: consists, with blocks and without, by documents 01 and 02.
 */
#include "expected.h"

enum { NUMBERS = 9, CARS = 0, WEIGHT = 2, LENGTH = 3 };

/* "Consist, 16 bytes": where each field begins, its width, and its range. */
static const struct {
    int at, width;
    int64_t least, most;
} consist_field[NUMBERS] = {{0, 9, 1, 250},           {9, 11, 2, 2000},        {20, 15, 10, 30000},
                            {35, 15, 50, 20000},      {50, 24, 0, 10000000},   {74, 18, 1000, 240000},
                            {92, 10, 1, 1000},        {102, 14, 7000, 11000},  {116, 12, 0, 4000}};

/* "A consist may be followed by 1 to 64 blocks, each with length and weight .., head end first" (02, R-1). */
typedef struct {
    size_t count;
    int64_t lengths[BUONGILACH_BLOCKS_MOST], weights[BUONGILACH_BLOCKS_MOST];
} blocks;

/* "4: a consist .. field out of its range", "5: weight under 10 tons a car". */
static unsigned judge_numbers(const int64_t *numbers)
{
    for (int i = 0; i < NUMBERS; i++)
        if (numbers[i] < consist_field[i].least || numbers[i] > consist_field[i].most)
            return 4;
    return numbers[WEIGHT] < 10 * numbers[CARS] ? 5 : 0;
}

/* "Each with length and weight of at least 1, .. summing to the consist's length and weight"; none at all is right. */
static bool blocks_right(const blocks *these, const int64_t *numbers)
{
    int64_t length = 0, weight = 0;
    for (size_t i = 0; i < these->count; i++) {
        if (these->lengths[i] < 1 || these->weights[i] < 1)
            return false;
        length += these->lengths[i];
        weight += these->weights[i];
    }
    return these->count == 0 || (length == numbers[LENGTH] && weight == numbers[WEIGHT]);
}

/* "Each block is two bit fields, length 15 and weight 15, with two spare zero bits": false where the bytes are no blocks. */
static bool read_blocks(part bytes, blocks *these)
{
    if (bytes.count % BUONGILACH_BLOCK_BYTES != 0 || bytes.count / BUONGILACH_BLOCK_BYTES > BUONGILACH_BLOCKS_MOST)
        return false;
    these->count = bytes.count / BUONGILACH_BLOCK_BYTES;
    for (size_t i = 0; i < these->count; i++) {
        const uint8_t *block = (const uint8_t *)bytes.bytes + i * BUONGILACH_BLOCK_BYTES;
        these->lengths[i] = second_bits(block, 0, 15);
        these->weights[i] = second_bits(block, 15, 15);
        if (second_bits(block, 30, 2) != 0)
            return false;
    }
    return true;
}

/* "2 now means a consist under 16 bytes; 13, blocks that break these rules, their byte count included, checked after 5." */
unsigned expected_judge_consist(part consist)
{
    blocks these;
    int64_t numbers[NUMBERS];
    if (consist.count < BUONGILACH_CONSIST_BYTES)
        return 2;
    for (int i = 0; i < NUMBERS; i++)
        numbers[i] = second_bits(consist.bytes, consist_field[i].at, consist_field[i].width);
    unsigned refusal = judge_numbers(numbers);
    if (refusal != 0)
        return refusal;
    part behind = {(const uint8_t *)consist.bytes + BUONGILACH_CONSIST_BYTES, consist.count - BUONGILACH_CONSIST_BYTES};
    return read_blocks(behind, &these) && blocks_right(&these, numbers) ? 0 : 13;
}

bool expected_alike(part consist)
{
    second_session opened;
    return (unsigned)second_open(&opened, consist.bytes, consist.count) == expected_judge_consist(consist);
}

static void put_consist(const int64_t *numbers, const blocks *these, uint8_t *record)
{
    for (int i = 0; i < NUMBERS; i++)
        second_put_bits(record, consist_field[i].at, consist_field[i].width, numbers[i]);
    for (size_t i = 0; i < these->count; i++) {
        uint8_t *block = record + BUONGILACH_CONSIST_BYTES + i * BUONGILACH_BLOCK_BYTES;
        second_put_bits(block, 0, 15, these->lengths[i]);
        second_put_bits(block, 15, 15, these->weights[i]);
        second_put_bits(block, 30, 2, 0);
    }
}

/* False where the two lists are no blocks: of different lengths, or too long. */
static bool listed(part lengths, part weights, blocks *these)
{
    if (lengths.count != weights.count || lengths.count > BUONGILACH_BLOCKS_MOST)
        return false;
    these->count = lengths.count;
    for (size_t i = 0; i < these->count; i++) {
        these->lengths[i] = ((const uint16_t *)lengths.bytes)[i];
        these->weights[i] = ((const uint16_t *)weights.bytes)[i];
    }
    return true;
}

unsigned expected_write_manifest(const uint32_t *fields, part lengths, part weights, size_t room, uint8_t *record)
{
    blocks these;
    int64_t numbers[NUMBERS];
    for (int i = 0; i < NUMBERS; i++)
        numbers[i] = fields[i];
    unsigned refusal = judge_numbers(numbers);
    if (refusal != 0)
        return refusal;
    if (room < BUONGILACH_CONSIST_BYTES + lengths.count * BUONGILACH_BLOCK_BYTES)
        return 12;
    if (!listed(lengths, weights, &these) || !blocks_right(&these, numbers))
        return 13;
    put_consist(numbers, &these, record);
    return 0;
}

unsigned expected_write_consist(const uint32_t *fields, size_t room, uint8_t *record)
{
    const part none = {NULL, 0};
    return expected_write_manifest(fields, none, none, room, record);
}
