/*
 * calls_records.c - see calls.h: the calls that make, judge and read records.
 */
#include "calls.h"

#include "watch.h"

static lent consist, sample, profile, targets, out, first, second, third;

void calls_make_records(void)
{
    lent *const all[] = {&consist, &sample, &profile, &targets, &out, &first, &second, &third};
    for (size_t i = 0; i < sizeof all / sizeof *all; i++)
        lent_make(all[i]);
}

/* Elements of `size` bytes, lent as bytes. */
static void lend_numbers(lent *buffer, part numbers, size_t size)
{
    part bytes = {numbers.bytes, numbers.count * size};
    lend(buffer, bytes);
}

void try_judges(part consist_given, part sample_given, part profile_given, part targets_given)
{
    lend(&consist, consist_given);
    lend(&sample, sample_given);
    lend(&profile, profile_given);
    lend(&targets, targets_given);
    hold_answer(buongilach_judge_consist(consist.bytes, consist.count), expected_judge_consist(consist_given), "judge_consist");
    hold_answer(buongilach_judge_sample(sample.bytes, sample.count), expected_judge_sample(sample_given), "judge_sample");
    hold_answer(buongilach_judge_profile(profile.bytes, profile.count), expected_judge_profile(profile_given), "judge_profile");
    hold_answer(buongilach_judge_targets(targets.bytes, targets.count), expected_judge_targets(targets_given), "judge_targets");
    hold_read(&consist, "judge_consist");
    hold_read(&sample, "judge_sample");
    hold_read(&profile, "judge_profile");
    hold_read(&targets, "judge_targets");
}

void try_consist(part consist_given, unsigned due)
{
    lend(&consist, consist_given);
    hold(expected_judge_consist(consist_given) == due, "the papers", "judge a consist otherwise than it was made");
    hold(expected_alike(consist_given), "the second program", "judges a consist otherwise");
    hold_answer(buongilach_judge_consist(consist.bytes, consist.count), due, "judge_consist");
    hold_read(&consist, "judge_consist");
}

unsigned try_write_consist(const uint32_t *fields, part out_before)
{
    uint8_t due[BUONGILACH_CONSIST_BYTES];
    unsigned wanted = expected_write_consist(fields, out_before.count, due);
    lend(&out, out_before);
    unsigned answer = buongilach_write_consist((uint16_t)fields[0], (uint16_t)fields[1], (uint16_t)fields[2],
                                               (uint16_t)fields[3], fields[4], fields[5], (uint16_t)fields[6],
                                               (uint16_t)fields[7], (uint16_t)fields[8], out.bytes, out.count);
    hold_answer(answer, wanted, "write_consist");
    hold_written(&out, due, wanted == 0 ? sizeof due : 0, "write_consist");
    return answer;
}

unsigned try_write_manifest(const uint32_t *fields, part lengths, part weights, part out_before)
{
    uint8_t due[BUONGILACH_CONSIST_BYTES_MOST];
    unsigned wanted = expected_write_manifest(fields, lengths, weights, out_before.count, due);
    lend_numbers(&first, lengths, sizeof(uint16_t));
    lend_numbers(&second, weights, sizeof(uint16_t));
    lend(&out, out_before);
    unsigned answer = buongilach_write_manifest((uint16_t)fields[0], (uint16_t)fields[1], (uint16_t)fields[2],
                                                (uint16_t)fields[3], fields[4], fields[5], (uint16_t)fields[6],
                                                (uint16_t)fields[7], (uint16_t)fields[8],
                                                (const uint16_t *)(const void *)first.bytes, lengths.count,
                                                (const uint16_t *)(const void *)second.bytes, weights.count, out.bytes,
                                                out.count);
    hold_answer(answer, wanted, "write_manifest");
    hold_read(&first, "write_manifest");
    hold_read(&second, "write_manifest");
    hold_written(&out, due, wanted == 0 ? BUONGILACH_CONSIST_BYTES + lengths.count * BUONGILACH_BLOCK_BYTES : 0,
                 "write_manifest");
    return answer;
}

unsigned try_write_profile(part starts, part grades, part curvatures, part out_before)
{
    uint8_t due[BUONGILACH_PROFILE_BYTES_MOST];
    unsigned wanted = expected_write_profile(starts, grades, curvatures, out_before.count, due);
    lend_numbers(&first, starts, sizeof(uint32_t));
    lend_numbers(&second, grades, sizeof(int16_t));
    lend_numbers(&third, curvatures, sizeof(uint16_t));
    lend(&out, out_before);
    unsigned answer = buongilach_write_profile((const uint32_t *)(const void *)first.bytes, starts.count,
                                               (const int16_t *)(const void *)second.bytes, grades.count,
                                               (const uint16_t *)(const void *)third.bytes, curvatures.count, out.bytes,
                                               out.count);
    hold_answer(answer, wanted, "write_profile");
    hold_read(&first, "write_profile");
    hold_read(&second, "write_profile");
    hold_read(&third, "write_profile");
    hold_written(&out, due, wanted == 0 ? starts.count * BUONGILACH_PROFILE_RECORD_BYTES : 0, "write_profile");
    return answer;
}

unsigned try_write_targets(part locations, part speeds, part out_before)
{
    uint8_t due[BUONGILACH_TARGETS_BYTES_MOST];
    unsigned wanted = expected_write_targets(locations, speeds, out_before.count, due);
    lend_numbers(&first, locations, sizeof(uint32_t));
    lend_numbers(&second, speeds, sizeof(uint16_t));
    lend(&out, out_before);
    unsigned answer = buongilach_write_targets((const uint32_t *)(const void *)first.bytes, locations.count,
                                               (const uint16_t *)(const void *)second.bytes, speeds.count, out.bytes, out.count);
    hold_answer(answer, wanted, "write_targets");
    hold_read(&first, "write_targets");
    hold_read(&second, "write_targets");
    hold_written(&out, due, wanted == 0 ? locations.count * BUONGILACH_TARGET_RECORD_BYTES : 0, "write_targets");
    return answer;
}

unsigned try_write_sample(const uint32_t *fields, part out_before)
{
    uint8_t due[BUONGILACH_SAMPLE_BYTES];
    unsigned wanted = expected_write_sample(fields, out_before.count, due);
    lend(&out, out_before);
    unsigned answer = buongilach_write_sample(fields[0], fields[1], fields[2], fields[3], fields[4], fields[5], out.bytes,
                                              out.count);
    hold_answer(answer, wanted, "write_sample");
    hold_written(&out, due, wanted == 0 ? sizeof due : 0, "write_sample");
    return answer;
}

unsigned try_read_decision(part decision, part numbers)
{
    uint32_t due[BUONGILACH_DECISION_NUMBERS];
    unsigned wanted = expected_read_decision(decision, numbers.count, due);
    lend(&first, decision);
    lend_numbers(&second, numbers, sizeof(uint32_t));
    unsigned answer = buongilach_read_decision(first.bytes, first.count, (uint32_t *)(void *)second.bytes, numbers.count);
    hold_answer(answer, wanted, "read_decision");
    hold_read(&first, "read_decision");
    hold_written(&second, due, wanted == 0 ? sizeof due : 0, "read_decision");
    return answer;
}
