/*
 * mounted.c - document 01's session program over the C library, as a customer would write it: a recorded feed on standard input,
 * on standard output two lines for each accepted sample, the penalty's and emergency's, and one for each refused.
 *
 *     gcc -std=c11 -Iinclude -o mounted examples/mounted.c lib/libbuongilach.a
 *     ./mounted [everlasting] < FEED
 *
 * A lost rear counts as the last present one for 5 seconds and then as front; for ever, where that is asked. Exit status 0; 1 where
 * the output could not be written; 2 for any other word, and nothing is read then.
 */
#include "buongilach.h"

#include <stdio.h>
#include <string.h>

/* Everything that the predictor needs between two samples. */
static uint8_t session[BUONGILACH_SESSION_BYTES];
static uint8_t profile[BUONGILACH_PROFILE_BYTES_MOST];
static uint8_t targets[BUONGILACH_TARGETS_BYTES_MOST];
static size_t profile_bytes;
static size_t targets_bytes;

/* How many of the wanted bytes the feed still had. */
static size_t take(uint8_t *bytes, size_t wanted)
{
    return fread(bytes, 1, wanted, stdin);
}

static void print_refusal(unsigned refusal)
{
    printf("x %u\n", refusal);
}

static void print_decision(const uint8_t *decision)
{
    uint32_t numbers[BUONGILACH_DECISION_NUMBERS];
    unsigned refusal =
        buongilach_read_decision(decision, BUONGILACH_DECISION_BYTES, numbers, BUONGILACH_DECISION_NUMBERS);
    if (refusal != BUONGILACH_ACCEPTED) {
        print_refusal(refusal);
        return;
    }
    printf("%u %u %u %u %u\n", (unsigned)numbers[BUONGILACH_TIME], (unsigned)numbers[BUONGILACH_STATE],
           (unsigned)numbers[BUONGILACH_PENALTY], (unsigned)numbers[BUONGILACH_CAUSE], (unsigned)numbers[BUONGILACH_STOP]);
}

/* The consist's 16 bytes, judged by themselves, a count of one byte and the blocks, and with them a new session. */
static unsigned open_session(bool everlasting)
{
    uint8_t consist[BUONGILACH_CONSIST_BYTES_MOST];
    uint8_t count;
    size_t taken = take(consist, BUONGILACH_CONSIST_BYTES);
    unsigned refusal = buongilach_judge_consist(consist, taken);
    if (refusal != BUONGILACH_ACCEPTED)
        return refusal;
    if (take(&count, 1) != 1 || count > BUONGILACH_BLOCKS_MOST)
        return BUONGILACH_BROKEN_BLOCKS;
    size_t blocks_bytes = (size_t)count * BUONGILACH_BLOCK_BYTES;
    if (take(consist + BUONGILACH_CONSIST_BYTES, blocks_bytes) != blocks_bytes)
        return BUONGILACH_BROKEN_BLOCKS;
    return buongilach_open_with(session, sizeof session, consist, BUONGILACH_CONSIST_BYTES + blocks_bytes, everlasting);
}

/* A record count of two bytes, high byte first, and the profile. A count out of range is answered without reading on. */
static unsigned take_profile(void)
{
    uint8_t count[2];
    if (take(count, sizeof count) != sizeof count)
        return BUONGILACH_BROKEN_PROFILE;
    size_t records = (size_t)count[0] * 256 + count[1];
    if (records < BUONGILACH_PROFILE_RECORDS_LEAST || records > BUONGILACH_PROFILE_RECORDS_MOST)
        return BUONGILACH_BROKEN_PROFILE;
    profile_bytes = records * BUONGILACH_PROFILE_RECORD_BYTES;
    /* a short profile may still be a profile, but not the one that was announced */
    if (take(profile, profile_bytes) != profile_bytes)
        return BUONGILACH_BROKEN_PROFILE;
    return buongilach_judge_profile(profile, profile_bytes);
}

/* A record count of one byte, and the targets. */
static unsigned take_targets(void)
{
    uint8_t count;
    if (take(&count, 1) != 1 || count > BUONGILACH_TARGETS_MOST)
        return BUONGILACH_BROKEN_TARGETS;
    targets_bytes = (size_t)count * BUONGILACH_TARGET_RECORD_BYTES;
    if (take(targets, targets_bytes) != targets_bytes)
        return BUONGILACH_BROKEN_TARGETS;
    return buongilach_judge_targets(targets, targets_bytes);
}

static unsigned take_head_of_feed(bool everlasting)
{
    unsigned refusal = open_session(everlasting);
    if (refusal == BUONGILACH_ACCEPTED)
        refusal = take_profile();
    if (refusal == BUONGILACH_ACCEPTED)
        refusal = take_targets();
    return refusal;
}

static void judge(const uint8_t *sample, size_t sample_bytes)
{
    uint8_t decisions[BUONGILACH_BOTH_DECISIONS_BYTES];
    unsigned refusal = buongilach_sample(session, sizeof session, sample, sample_bytes, profile, profile_bytes, targets,
                                         targets_bytes, decisions, sizeof decisions);
    if (refusal == BUONGILACH_ACCEPTED) {
        print_decision(decisions);
        print_decision(decisions + BUONGILACH_DECISION_BYTES);
    } else {
        print_refusal(refusal);
    }
}

int main(int count, char **words)
{
    bool everlasting = count == 2 && strcmp(words[1], "everlasting") == 0;
    if (count > 1 && !everlasting) {
        fprintf(stderr, "mounted: the one word that it takes is `everlasting`\n");
        return 2;
    }
    /* a decision is out as soon as it is made */
    setvbuf(stdout, NULL, _IOLBF, BUFSIZ);
    unsigned refusal = take_head_of_feed(everlasting);
    if (refusal != BUONGILACH_ACCEPTED) {
        print_refusal(refusal);
    } else {
        uint8_t sample[BUONGILACH_SAMPLE_BYTES];
        size_t taken;
        while ((taken = take(sample, sizeof sample)) > 0)
            judge(sample, taken);
    }
    return ferror(stdout) ? 1 : 0;
}
