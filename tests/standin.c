/*
 * standin.c - a stand-in for the C library, over the rules that `hostile` expects, so that its tests need no archive. The
 * variable PLANTED names one fault, which `hostile` must find. Here are the tables, the sample's record and the decision's;
 * standin_consists.c has the consists, standin_sessions.c opening and sample, standin_rears.c what a lost rear counts as,
 * standin_learning.c the application time.
 */
#include "standin.h"

#include <stdlib.h>
#include <string.h>

bool planted(const char *fault)
{
    static const char *now;
    if (now == NULL)
        now = getenv("PLANTED");
    return now != NULL && strcmp(now, fault) == 0;
}

unsigned written(unsigned answer, uint8_t *out, const void *due, size_t count)
{
    if (answer == 0 && count > 0)
        memcpy(out, due, count);
    return answer;
}

uint32_t buongilach_version(void)
{
    return planted("version: an older one") ? BUONGILACH_VERSION - 1 : BUONGILACH_VERSION;
}

uint8_t buongilach_write_profile(const uint32_t *starts, size_t starts_count, const int16_t *grades, size_t grades_count,
                                 const uint16_t *curvatures, size_t curvatures_count, uint8_t *out, size_t out_bytes)
{
    uint8_t due[BUONGILACH_PROFILE_BYTES_MOST] = {0};
    unsigned answer = expected_write_profile(part_of(starts, starts_count), part_of(grades, grades_count),
                                             part_of(curvatures, curvatures_count), out_bytes, due);
    if (planted("write_profile: begun before it is judged") && answer == 6 && out_bytes > 0)
        out[0] ^= 1;
    return (uint8_t)written(answer, out, due, BUONGILACH_PROFILE_RECORD_BYTES * starts_count);
}

uint8_t buongilach_judge_profile(const uint8_t *profile, size_t profile_bytes)
{
    if (planted("judge_profile: writes what it reads") && profile_bytes > 0)
        *(uint8_t *)(uintptr_t)profile ^= 1;
    return (uint8_t)expected_judge_profile(part_of(profile, profile_bytes));
}

uint8_t buongilach_write_targets(const uint32_t *locations, size_t locations_count, const uint16_t *speeds, size_t speeds_count,
                                 uint8_t *out, size_t out_bytes)
{
    uint8_t due[BUONGILACH_TARGETS_BYTES_MOST] = {0};
    if (planted("write_targets: the shorter of two lengths"))
        locations_count = speeds_count = locations_count < speeds_count ? locations_count : speeds_count;
    unsigned answer = expected_write_targets(part_of(locations, locations_count), part_of(speeds, speeds_count), out_bytes, due);
    return (uint8_t)written(answer, out, due, BUONGILACH_TARGET_RECORD_BYTES * locations_count);
}

uint8_t buongilach_judge_targets(const uint8_t *targets, size_t targets_bytes)
{
    if (planted("judge_targets: none is wrong") && targets_bytes == 0)
        return 7;
    return (uint8_t)expected_judge_targets(part_of(targets, targets_bytes));
}

uint8_t buongilach_write_sample(uint32_t time, uint32_t head, uint32_t speed, uint32_t front, uint32_t present, uint32_t rear,
                                uint8_t *out, size_t out_bytes)
{
    const uint32_t fields[6] = {time, head, speed, front, present, rear};
    uint8_t due[BUONGILACH_SAMPLE_BYTES] = {0};
    unsigned answer = expected_write_sample(fields, out_bytes, due);
    if (planted("write_sample: present in a byte") && answer == 0 && (uint8_t)present == 0)
        second_put_bits(due, 32, 1, 0);
    if (planted("write_sample: 8 before 3") && answer == 3 && rear == 0x7FC00000)
        return 8;
    return (uint8_t)written(answer, out, due, sizeof due);
}

uint8_t buongilach_judge_sample(const uint8_t *sample, size_t sample_bytes)
{
    unsigned answer = expected_judge_sample(part_of(sample, sample_bytes));
    if (planted("judge_sample: 100 mph is too fast") && answer == 0 && second_bits(sample, 64, 32) == 0x42C80000)
        return 8;
    return (uint8_t)answer;
}

uint8_t buongilach_read_decision(const uint8_t *decision, size_t decision_bytes, uint32_t *numbers, size_t numbers_count)
{
    uint32_t due[BUONGILACH_DECISION_NUMBERS] = {0};
    unsigned answer = expected_read_decision(part_of(decision, decision_bytes), numbers_count, due);
    if (planted("read_decision: a sixth number") && answer == 0)
        numbers[5] = 0;
    if (planted("read_decision: 0x44 only") && answer == 0 && decision[0] != 0x44)
        return 3;
    if (planted("read_decision: the no-stop value refused") && answer == 0 && due[4] == BUONGILACH_NO_STOP)
        return 4;
    if (answer == 0)
        memcpy(numbers, due, sizeof due);
    return (uint8_t)answer;
}
