/*
 * learnt.c - runs what docs/MOUNTING.md shows of the application time that is learnt, which SNIPPET names: the service application
 * that the page tells of. Prints what the page's lines log after each sample.
 */
#include "buongilach.h"

#include <stdio.h>
#include <string.h>

#include SNIPPET

enum { SAMPLES = 9 };

static uint32_t bits_of(float reading)
{
    uint32_t bits;
    memcpy(&bits, &reading, sizeof bits);
    return bits;
}

int main(void)
{
    static const float rears[SAMPLES] = {90, 90, 90, 90, 87, 84, 81, 80.5, 80.5};
    static const uint8_t profile[12] = {[7] = 0x9C, [8] = 0x40};
    uint8_t session[BUONGILACH_SESSION_BYTES], consist[16], sample[20], decisions[16];
    if (buongilach_write_consist(10, 40, 1000, 600, 200000, 30000, 50, 9000, 500, consist, sizeof consist)
        || buongilach_open(session, sizeof session, consist, sizeof consist))
        return 1;
    for (uint32_t time = 0; time < SAMPLES; time++) {
        if (buongilach_write_sample(time, 5000, 0, bits_of(time == 0 ? 90 : 80), 1, bits_of(rears[time]), sample, sizeof sample)
            || buongilach_sample(session, sizeof session, sample, sizeof sample, profile, sizeof profile, NULL, 0, decisions,
                                 sizeof decisions))
            return 1;
        printf("%u: ", (unsigned)time);
        log_application(session, sizeof session);
        printf("\n");
    }
    return 0;
}
