/*
 * case.c - the smallest use of the C library: document 01's case, a train of 10 cars that creeps toward a board at 5,531 ft. The
 * penalty is called at its second sample; by emergency air the train would stop before the board, and emergency is not called.
 */
#include "buongilach.h"

#include <stdio.h>
#include <string.h>

/* The bits of a reading, as a sample carries it. */
static uint32_t bits_of(float reading)
{
    uint32_t bits;
    memcpy(&bits, &reading, sizeof bits);
    return bits;
}

/* Prints one of a sample's two decisions: time, brake state, bit, cause and stopping location. */
static void print_decision(const uint8_t *decision)
{
    uint32_t n[BUONGILACH_DECISION_NUMBERS];
    uint8_t refusal = buongilach_read_decision(decision, BUONGILACH_DECISION_BYTES, n, BUONGILACH_DECISION_NUMBERS);
    if (refusal != BUONGILACH_ACCEPTED)
        printf("x %u\n", (unsigned)refusal);
    else
        printf("%u %u %u %u %u\n", (unsigned)n[BUONGILACH_TIME], (unsigned)n[BUONGILACH_STATE],
               (unsigned)n[BUONGILACH_PENALTY], (unsigned)n[BUONGILACH_CAUSE], (unsigned)n[BUONGILACH_STOP]);
}

int main(void)
{
    if (buongilach_version() != BUONGILACH_VERSION)
        return 1; /* header and archive of two releases */

    uint8_t session[BUONGILACH_SESSION_BYTES];
    uint8_t consist[BUONGILACH_CONSIST_BYTES];
    uint8_t profile[2 * BUONGILACH_PROFILE_RECORD_BYTES];
    uint8_t targets[1 * BUONGILACH_TARGET_RECORD_BYTES];

    /* level track from 0 to 40,000 ft, and one board, to be passed at speed 0 */
    const uint32_t starts[2] = {0, 40000};
    const int16_t grades[2] = {0, 0};
    const uint16_t curvatures[2] = {0, 0};
    const uint32_t locations[1] = {5531};
    const uint16_t speeds[1] = {0};

    /* 10 cars, 40 axles, 1,000 tons, 600 ft, 200,000 lb, 30,000 ms, recharge 50, set 9,000, offset 500 */
    if (buongilach_write_consist(10, 40, 1000, 600, 200000, 30000, 50, 9000, 500, consist, sizeof consist)
        || buongilach_write_profile(starts, 2, grades, 2, curvatures, 2, profile, sizeof profile)
        || buongilach_write_targets(locations, 1, speeds, 1, targets, sizeof targets)
        || buongilach_open(session, sizeof session, consist, sizeof consist))
        return 1;

    const uint32_t heads[3] = {5000, 5000, 5001};
    const float mph[3] = {0.0f, 1.0f, 0.0f};
    for (uint32_t time = 0; time < 3; time++) {
        uint8_t sample[BUONGILACH_SAMPLE_BYTES];
        uint8_t decisions[BUONGILACH_BOTH_DECISIONS_BYTES];
        if (buongilach_write_sample(time, heads[time], bits_of(mph[time]), bits_of(90.0f), true, bits_of(90.0f), sample,
                                    sizeof sample))
            return 1;
        uint8_t refusal = buongilach_sample(session, sizeof session, sample, sizeof sample, profile, sizeof profile, targets,
                                            sizeof targets, decisions, sizeof decisions);
        if (refusal != BUONGILACH_ACCEPTED) {
            printf("x %u\n", (unsigned)refusal);
            continue;
        }
        print_decision(decisions);                             /* the penalty's */
        print_decision(decisions + BUONGILACH_DECISION_BYTES); /* emergency's */
    }
    return 0;
}
