/*
 * standin_consists.c - see standin.c: consists judged and written, with blocks and without.
 */
#include "standin.h"

/* ---- a judge that leaves a rule out */

/* Whether a block is right by itself. */
static bool block_right(const uint8_t *block)
{
    return (second_bits(block, 0, 15) > 0 || planted("judge_consist: a length of 0"))
        && (second_bits(block, 15, 15) > 0 || planted("judge_consist: a weight of 0"))
        && (second_bits(block, 30, 2) == 0 || planted("judge_consist: spare bits"));
}

static bool sums_right(int64_t lengths, int64_t weights, int64_t length, int64_t weight)
{
    if (planted("judge_consist: lengths at most the train's"))
        return lengths <= length && weights == weight;
    if (planted("judge_consist: weights at least the train's"))
        return lengths == length && weights >= weight;
    if (planted("judge_consist: weight and length exchanged"))
        return lengths == weight && weights == length;
    if (planted("judge_consist: lengths summed in 16 bits"))
        return lengths % 65536 == length && weights == weight;
    if (planted("judge_consist: weights summed in 15 bits"))
        return lengths == length && weights % 32768 == weight;
    return lengths == length && weights == weight;
}

/* Whether what stands behind a consist's 16 bytes would be right but for the planted fault. */
static bool blocks_right(const uint8_t *consist, size_t consist_bytes)
{
    size_t most = BUONGILACH_BLOCKS_MOST + planted("judge_consist: 65 blocks");
    size_t count = consist_bytes / BUONGILACH_BLOCK_BYTES - BUONGILACH_CONSIST_BYTES / BUONGILACH_BLOCK_BYTES;
    int64_t lengths = 0, weights = 0;
    if (consist_bytes % BUONGILACH_BLOCK_BYTES != 0 && !planted("judge_consist: bytes past the last block"))
        return false;
    for (size_t i = 0; i < count; i++) {
        const uint8_t *block = consist + BUONGILACH_CONSIST_BYTES + i * BUONGILACH_BLOCK_BYTES;
        if (!block_right(block))
            return false;
        lengths += second_bits(block, 0, 15);
        weights += second_bits(block, 15, 15);
    }
    return count <= most && sums_right(lengths, weights, second_bits(consist, 35, 15), second_bits(consist, 20, 15));
}

uint8_t buongilach_judge_consist(const uint8_t *consist, size_t consist_bytes)
{
    unsigned answer = expected_judge_consist(part_of(consist, consist_bytes));
    if (planted("judge_consist: 4 for 5") && answer == 5)
        return 4;
    if (planted("judge_consist: 13 before 5") && answer == 5 && consist_bytes % BUONGILACH_BLOCK_BYTES != 0)
        return 13;
    if (planted("judge_consist: 16 bytes only") && consist_bytes > BUONGILACH_CONSIST_BYTES)
        return 2;
    return (uint8_t)(answer == 13 && blocks_right(consist, consist_bytes) ? 0 : answer);
}

/* ---- the writers */

uint8_t buongilach_write_consist(uint16_t cars, uint16_t axles, uint16_t weight, uint16_t length, uint32_t rated,
                                 uint32_t application, uint16_t recharge, uint16_t set, uint16_t offset, uint8_t *out,
                                 size_t out_bytes)
{
    const uint32_t fields[9] = {cars, axles, weight, length, rated, application, recharge, set, offset};
    uint8_t due[BUONGILACH_CONSIST_BYTES] = {0};
    unsigned answer = expected_write_consist(fields, out_bytes, due);
    if (planted("write_consist: room of 15 bytes") && answer == 12 && out_bytes == 15)
        return (uint8_t)written(0, out, due, 15);
    return (uint8_t)written(answer, out, due, sizeof due);
}

uint8_t buongilach_write_manifest(uint16_t cars, uint16_t axles, uint16_t weight, uint16_t length, uint32_t rated,
                                  uint32_t application, uint16_t recharge, uint16_t set, uint16_t offset, const uint16_t *lengths,
                                  size_t lengths_count, const uint16_t *weights, size_t weights_count, uint8_t *out,
                                  size_t out_bytes)
{
    const uint32_t fields[9] = {cars, axles, weight, length, rated, application, recharge, set, offset};
    uint8_t due[BUONGILACH_CONSIST_BYTES_MOST] = {0};
    size_t due_bytes = BUONGILACH_CONSIST_BYTES + BUONGILACH_BLOCK_BYTES * lengths_count;
    if (planted("write_manifest: the shorter of two lengths") && out_bytes >= due_bytes && weights_count < lengths_count)
        lengths_count = weights_count;
    unsigned answer = expected_write_manifest(fields, part_of(lengths, lengths_count), part_of(weights, weights_count), out_bytes,
                                              due);
    due_bytes = BUONGILACH_CONSIST_BYTES + BUONGILACH_BLOCK_BYTES * lengths_count;
    if (planted("write_manifest: 13 before 12") && answer == 12 && lengths_count != weights_count)
        return 13;
    if (planted("write_manifest: room for 64 blocks will do") && answer == 12 && out_bytes >= BUONGILACH_CONSIST_BYTES_MOST)
        return 13;
    if (planted("write_manifest: room a byte short") && answer == 12 && out_bytes + 1 == due_bytes
        && expected_write_manifest(fields, part_of(lengths, lengths_count), part_of(weights, weights_count), due_bytes, due) == 0)
        return (uint8_t)written(0, out, due, out_bytes);
    if (planted("write_manifest: begun before it is judged") && answer == 13 && out_bytes > 0)
        out[0] ^= 1;
    if (planted("write_manifest: the blocks unwritten") && answer == 0)
        due_bytes = BUONGILACH_CONSIST_BYTES;
    if (planted("write_manifest: weights before lengths") && answer == 0 && lengths_count > 0) {
        second_put_bits(due + BUONGILACH_CONSIST_BYTES, 0, 15, weights[0]);
        second_put_bits(due + BUONGILACH_CONSIST_BYTES, 15, 15, lengths[0]);
    }
    return (uint8_t)written(answer, out, due, due_bytes);
}
