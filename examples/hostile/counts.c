/*
 * counts.c - see counts.h.
 */
#include "counts.h"

#include <stdio.h>
#include <string.h>

enum { KEPT = 5 }; /* seconds */

tally tried;

const uint32_t choices[CHOICES] = {0, 1, 2, 256, 65536, 0x80000000, 0xFFFFFFFF};

void count_choice(unsigned answer, uint32_t everlasting)
{
    tried.openings_with[answer < 14 ? answer : 0]++;
    for (int i = 0; i < CHOICES; i++)
        tried.chosen[i] += answer == 0 && everlasting == choices[i];
}

/* ---- calls */

/* The sample's speed in hundredths of a mph, exactly. */
static double hundredths_of_speed(const accepted *call)
{
    uint32_t bits = (uint32_t)second_bits(call->sample.bytes, 64, 32);
    float mph;
    memcpy(&mph, &bits, sizeof mph);
    return 100.0 * mph;
}

static bool is_unstopped(const accepted *call)
{
    return second_bits(call->decisions, 40, 24) == BUONGILACH_NO_STOP;
}

/* Whether the penalty was called, with a stop, for a target that allows the train's own speed: it must have sped up again. */
static bool has_sped_up(const accepted *call, const second_session *before, const second_session *after)
{
    if (before->cause != 0 || after->cause == 0 || is_unstopped(call))
        return false;
    const uint8_t *target = (const uint8_t *)call->targets.bytes + (after->cause - 1) * BUONGILACH_TARGET_RECORD_BYTES;
    return hundredths_of_speed(call) <= (double)second_bits(target, 24, 16);
}

/* Whether the same sample would be decided otherwise in that session. */
static bool decides_otherwise(const accepted *call, const uint8_t *session)
{
    uint8_t next[BUONGILACH_SESSION_BYTES], decisions[BUONGILACH_BOTH_DECISIONS_BYTES];
    unsigned answer = expected_sample(part_of(session, BUONGILACH_SESSION_BYTES), call->sample, call->profile, call->targets,
                                      sizeof decisions, next, decisions);
    return answer == 0 && memcmp(decisions, call->decisions, sizeof decisions) != 0;
}

static void count_blocks(const accepted *call, const expected_session *before)
{
    uint8_t even[BUONGILACH_SESSION_BYTES];
    if (before->consist_bytes == BUONGILACH_CONSIST_BYTES)
        return;
    expected_even(before, even);
    tried.in_blocks++;
    tried.otherwise += decides_otherwise(call, even);
}

/* ---- lost rears */

static int loss_of(const second_session *before, int64_t time)
{
    int64_t silence = time - before->brakes.heard_at;
    if (!before->brakes.heard)
        return before->begun ? LOST_NONE_YET : LOST_FIRST;
    return silence < KEPT ? LOST_TO_4 : silence == KEPT ? LOST_5 : silence == KEPT + 1 ? LOST_6 : LOST_LONGER;
}

static void count_rear(const accepted *call, const expected_session *before, int64_t state)
{
    uint8_t other[BUONGILACH_SESSION_BYTES];
    bool everlasting = before->now.brakes.choice == SECOND_EVERLASTING, present = second_bits(call->sample.bytes, 32, 1);
    if (present)
        return;
    int loss = loss_of(&before->now, second_bits(call->sample.bytes, 8, 24));
    bool apart = loss == LOST_NONE_YET || loss == LOST_6 || loss == LOST_LONGER;
    tried.lost[everlasting][loss]++;
    tried.given_up[state] += apart && !everlasting;
    expected_other(before, other);
    tried.parted[everlasting] += apart && decides_otherwise(call, other);
}

void count_accepted(const accepted *call, bool goes_on)
{
    expected_session before, after;
    if (!expected_held(call->before, &before) || !expected_held(part_of(call->after, BUONGILACH_SESSION_BYTES), &after))
        return;
    int64_t state = after.now.brakes.state;
    tried.states[state]++;
    tried.called[state] += before.now.emergency == 0 && after.now.emergency != 0;
    tried.sped_up += has_sped_up(call, &before.now, &after.now);
    tried.unstopped += is_unstopped(call);
    count_learning(&before, &after, second_bits(call->sample.bytes, 32, 1) == 1, goes_on);
    if (goes_on) {
        count_blocks(call, &before);
        count_rear(call, &before, state);
    }
}

/* ---- what is told of them */

bool counts_all_above_0(const unsigned long *counts, int count)
{
    for (int i = 0; i < count; i++)
        if (counts[i] == 0)
            return false;
    return true;
}

bool counts_rears_seen(void)
{
    return counts_all_above_0(tried.chosen, CHOICES) && counts_all_above_0(tried.lost[0], LOSSES)
        && counts_all_above_0(tried.lost[1], LOSSES) && counts_all_above_0(tried.given_up, 6)
        && counts_all_above_0(tried.parted, 2);
}

void counts_print(const unsigned long *counts, int first, int end)
{
    for (int i = first; i < end; i++)
        if (counts[i] > 0)
            printf(" %d:%lu", i, counts[i]);
}

void counts_print_rears(void)
{
    static const char *const names[LOSSES] = {"first", "none-yet", "to-4", "5", "6", "longer"};
    for (int everlasting = 0; everlasting < 2; everlasting++) {
        printf("; rear lost, %s", everlasting ? "everlasting" : "five seconds");
        for (int i = 0; i < LOSSES; i++)
            printf(" %s:%lu", names[i], tried.lost[everlasting][i]);
        printf(", otherwise than under the other choice %lu", tried.parted[everlasting]);
    }
    printf("; given up, by state");
    counts_print(tried.given_up, 0, 6);
    printf("; opened with");
    for (int i = 0; i < CHOICES; i++)
        printf(" %lu:%lu", (unsigned long)choices[i], tried.chosen[i]);
}
