/*
 * ground.c - plain C's averages of grade and curvature under a train, in one call. Each end is looked for from record `near` on.
 */
#include "../bench/plain.c"

int ground_of(const uint8_t *consist, size_t consist_bytes, const uint8_t *profile_bytes, size_t profile_count, int64_t head,
              int near, int64_t *averages)
{
    static plain_consist train;
    static profile_read profile;
    size_t records[PLAIN_BLOCKS + 1];
    if (read_consist(consist, consist_bytes, &train) != 0 || read_profile(profile_bytes, profile_count, &profile) != 0)
        return 1;
    for (int i = 0; i <= PLAIN_BLOCKS; i++)
        records[i] = (size_t)(near % profile.records);
    ground under = under_head(&profile, &train, head, records);
    averages[0] = under.grade;
    averages[1] = under.curve;
    return 0;
}
