/*
 * quiet.c - runs what docs/MOUNTING.md shows of a rear device that goes quiet, which SNIPPET names, and beside it the default's
 * opening: a service application and a release, the last rear 7 seconds before the last sample. Prints the last sample's two lines
 * under each choice, the default's first.
 */
#include "buongilach.h"

#include <stdio.h>

enum { PSI_80 = 0x42A00000, PSI_85 = 0x42AA0000, PSI_90 = 0x42B40000, SAMPLES = 8 };

static int judge(uint8_t *session)
{
    static const uint32_t times[SAMPLES] = {0, 1, 6, 7, 8, 12, 13, 14};
    static const uint32_t fronts[SAMPLES] = {PSI_90, PSI_85, PSI_85, PSI_85, PSI_85, PSI_85, PSI_90, PSI_90};
    static const uint32_t rears[SAMPLES] = {PSI_90, PSI_85, PSI_85, PSI_80, 0, 0, 0, 0}; /* 0 where it is lost */
    static const uint8_t profile[12] = {[7] = 0x9C, [8] = 0x40};
    uint8_t sample[20], decisions[16];
    uint32_t n[5];
    for (int i = 0; i < SAMPLES; i++)
        if (buongilach_write_sample(times[i], 5000, 0, fronts[i], rears[i] != 0, rears[i], sample, sizeof sample)
            || buongilach_sample(session, BUONGILACH_SESSION_BYTES, sample, sizeof sample, profile, sizeof profile, NULL, 0,
                                 decisions, sizeof decisions))
            return 1;
    for (int i = 0; i < 2; i++) {
        if (buongilach_read_decision(decisions + 8 * i, 8, n, 5))
            return 1;
        printf("%u %u %u %u %u\n", (unsigned)n[0], (unsigned)n[1], (unsigned)n[2], (unsigned)n[3], (unsigned)n[4]);
    }
    return 0;
}

int main(void)
{
    uint8_t by_default[BUONGILACH_SESSION_BYTES], consist[16];
    if (buongilach_write_consist(10, 40, 1000, 600, 200000, 30000, 50, 9000, 500, consist, sizeof consist)
        || buongilach_open(by_default, sizeof by_default, consist, sizeof consist))
        return 1;
#include SNIPPET
    return refusal != BUONGILACH_ACCEPTED || judge(by_default) || judge(session);
}
