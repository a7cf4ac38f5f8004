/*
 * manifest.c - runs what docs/MOUNTING.md shows of a train in blocks, which SNIPPET names: two samples in the sag that the page
 * tells of. Prints the penalty's line of each.
 */
#include "buongilach.h"

#include <stdio.h>

enum { MPH_20 = 0x41A00000, PSI_90 = 0x42B40000 };

static int judge(uint8_t *session, uint32_t time, uint32_t head)
{
    const uint32_t starts[3] = {0, 10000, 60000}, locations[1] = {14300};
    const int16_t grades[3] = {-100, 100, 0};
    const uint16_t curvatures[3] = {0, 0, 0}, speeds[1] = {0};
    uint8_t profile[18], targets[5], sample[20], decisions[16];
    uint32_t n[5];
    if (buongilach_write_profile(starts, 3, grades, 3, curvatures, 3, profile, sizeof profile)
        || buongilach_write_targets(locations, 1, speeds, 1, targets, sizeof targets)
        || buongilach_write_sample(time, head, MPH_20, PSI_90, 1, PSI_90, sample, sizeof sample)
        || buongilach_sample(session, BUONGILACH_SESSION_BYTES, sample, sizeof sample, profile, sizeof profile, targets,
                             sizeof targets, decisions, sizeof decisions)
        || buongilach_read_decision(decisions, 8, n, 5))
        return 1;
    printf("%u %u %u %u %u\n", (unsigned)n[0], (unsigned)n[1], (unsigned)n[2], (unsigned)n[3], (unsigned)n[4]);
    return 0;
}

int main(void)
{
#include SNIPPET
    return refusal != BUONGILACH_ACCEPTED || judge(session, 0, 13000) || judge(session, 1, 13029);
}
