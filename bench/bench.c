/*
 * bench.c - the archive, plain C and the second program on one feed.
 *
 *     bench FEED time ROUNDS     checks that all three answer alike, then times
 *                                the archive and plain C in turn, round by round
 *     bench FEED library TIMES     runs the feed so often with one of them, for an
 *     bench FEED plain TIMES     instruction counter
 *
 * `time` prints a line: samples, refused ones, samples without a stop by penalty
 * and by emergency air, then the medians over the rounds of ns a sample for the
 * archive and for plain C and of the ratio of the two.
 */
#define _POSIX_C_SOURCE 200809L
#include "../second/second.h"
#include "buongilach.h"
#include "plain.h"

#include <stdio.h>
#include <stdlib.h>
#include <string.h>
#include <time.h>

enum {
    MOST_BYTES = 1 << 22,
    MOST_ROUNDS = 1000,
    ROUND_NS = 60000000        /* a side's part of a round is about this long */
};

typedef struct {
    uint8_t bytes[BUONGILACH_SAMPLE_BYTES];
} sample;

/* A sample's two decisions. */
typedef struct {
    uint8_t bytes[BUONGILACH_BOTH_DECISIONS_BYTES];
} pair;

/* A feed's parts. */
typedef struct {
    const uint8_t *consist, *profile, *targets;
    const sample *samples;
    size_t consist_bytes, profile_bytes, target_bytes, count;
} parts;

/* What a side did with a feed. */
typedef struct {
    int refused, without_stop;
} tally;

static void die(const char *words)
{
    fprintf(stderr, "bench: %s\n", words);
    exit(2);
}

/* The consist with its blocks, as a call is lent it: a feed has their count in between. */
static size_t read_consist(const uint8_t *bytes, uint8_t *consist)
{
    size_t blocks_bytes = BUONGILACH_BLOCK_BYTES * (size_t)bytes[BUONGILACH_CONSIST_BYTES];
    memcpy(consist, bytes, BUONGILACH_CONSIST_BYTES);
    memcpy(consist + BUONGILACH_CONSIST_BYTES, bytes + BUONGILACH_CONSIST_BYTES + 1, blocks_bytes);
    return BUONGILACH_CONSIST_BYTES + blocks_bytes;
}

static parts read_feed(const char *name)
{
    static uint8_t bytes[MOST_BYTES], consist[BUONGILACH_CONSIST_BYTES + 255 * BUONGILACH_BLOCK_BYTES];
    FILE *file = fopen(name, "rb");
    if (file == NULL)
        die("the feed can't be read");
    size_t size = fread(bytes, 1, sizeof bytes, file);
    fclose(file);

    parts feed;
    feed.consist = consist;
    feed.consist_bytes = read_consist(bytes, consist);
    feed.profile = bytes + feed.consist_bytes + 1 + 2;
    size_t records = feed.profile[-2] * (size_t)256 + feed.profile[-1];
    feed.profile_bytes = BUONGILACH_PROFILE_RECORD_BYTES * records;
    feed.targets = feed.profile + feed.profile_bytes + 1;
    feed.target_bytes = BUONGILACH_TARGET_RECORD_BYTES * (size_t)feed.targets[-1];
    const uint8_t *samples = feed.targets + feed.target_bytes;
    size_t before = (size_t)(samples - bytes);
    if (size < before + sizeof(sample))
        die("the feed has no sample");
    feed.samples = (const sample *)samples;
    feed.count = (size - before) / sizeof(sample);
    return feed;
}

/* The archive, on the whole feed. */
static void run_library(const parts *feed, int *answers, pair *decisions)
{
    uint8_t session[BUONGILACH_SESSION_BYTES] = { 0 };
    if (buongilach_open(session, sizeof session, feed->consist, feed->consist_bytes) != 0)
        die("the archive refuses the consist");
    for (size_t i = 0; i < feed->count; i++)
        answers[i] = buongilach_sample(session, sizeof session, feed->samples[i].bytes, sizeof(sample),
                                       feed->profile, feed->profile_bytes, feed->targets,
                                       feed->target_bytes, decisions[i].bytes, sizeof(pair));
}

static void run_plain(const parts *feed, int *answers, pair *decisions)
{
    plain_session session = { 0 };
    if (plain_open(&session, feed->consist, feed->consist_bytes) != 0)
        die("plain C refuses the consist");
    for (size_t i = 0; i < feed->count; i++)
        answers[i] = plain_sample(&session, feed->samples[i].bytes, sizeof(sample), feed->profile,
                                  feed->profile_bytes, feed->targets, feed->target_bytes,
                                  decisions[i].bytes, sizeof(pair));
}

static void run_second(const parts *feed, int *answers, pair *decisions)
{
    second_session session = { 0 };
    if (second_open(&session, feed->consist, feed->consist_bytes) != 0)
        die("the second program refuses the consist");
    for (size_t i = 0; i < feed->count; i++)
        answers[i] = second_judge(&session, feed->samples[i].bytes, sizeof(sample), feed->profile,
                                  feed->profile_bytes, feed->targets, feed->target_bytes,
                                  decisions[i].bytes, sizeof(pair));
}

typedef void side(const parts *feed, int *answers, pair *decisions);

/* A side's answers and decisions. */
typedef struct {
    int *answers;
    pair *decisions;
} record;

static record room(const parts *feed)
{
    record made = { calloc(feed->count, sizeof(int)), calloc(feed->count, sizeof(pair)) };
    if (made.answers == NULL || made.decisions == NULL)
        die("out of memory");
    return made;
}

static void must_be_alike(const parts *feed, record x, record y)
{
    if (memcmp(x.answers, y.answers, feed->count * sizeof(int)) != 0
        || memcmp(x.decisions, y.decisions, feed->count * sizeof(pair)) != 0)
        die("the three do not answer alike");
}

/* All three alike, byte for byte; a refused sample's decisions are left zero by all. */
static tally check(const parts *feed)
{
    record library = room(feed), plain = room(feed), second = room(feed);
    run_library(feed, library.answers, library.decisions);
    run_plain(feed, plain.answers, plain.decisions);
    run_second(feed, second.answers, second.decisions);
    must_be_alike(feed, library, second);
    must_be_alike(feed, plain, second);

    tally seen = { 0, 0 };
    for (size_t i = 0; i < feed->count; i++) {
        seen.refused += library.answers[i] != 0;
        const uint8_t *both = library.decisions[i].bytes;
        seen.without_stop += library.answers[i] == 0
            && second_bits(both, 40, 24) == BUONGILACH_NO_STOP
            && second_bits(both + BUONGILACH_DECISION_BYTES, 40, 24) == BUONGILACH_NO_STOP;
    }
    return seen;
}

/* Processor time of this program, in ns. */
static double now(void)
{
    struct timespec time;
    clock_gettime(CLOCK_PROCESS_CPUTIME_ID, &time);
    return 1e9 * (double)time.tv_sec + (double)time.tv_nsec;
}

static double time_of(side *run, const parts *feed, record into, int times)
{
    double start = now();
    for (int i = 0; i < times; i++)
        run(feed, into.answers, into.decisions);
    return now() - start;
}

static int by_size(const void *x, const void *y)
{
    double left = *(const double *)x, right = *(const double *)y;
    return (left > right) - (left < right);
}

static double median(double *values, int count)
{
    qsort(values, (size_t)count, sizeof *values, by_size);
    return count % 2 == 1 ? values[count / 2] : (values[count / 2 - 1] + values[count / 2]) / 2;
}

static void print_times(const parts *feed, int rounds)
{
    static double library[MOST_ROUNDS], plain[MOST_ROUNDS], ratio[MOST_ROUNDS];
    tally seen = check(feed);
    record into = room(feed);
    int times = 1;
    while (time_of(run_library, feed, into, times) < ROUND_NS)
        times *= 2;
    for (int i = 0; i < rounds; i++) {
        library[i] = time_of(run_library, feed, into, times);
        plain[i] = time_of(run_plain, feed, into, times);
        ratio[i] = library[i] / plain[i];
    }
    double samples = (double)times * (double)feed->count;
    printf("%zu %d %d %.1f %.1f %.4f\n", feed->count, seen.refused, seen.without_stop,
           median(library, rounds) / samples, median(plain, rounds) / samples,
           median(ratio, rounds));
}

int main(int count, char **words)
{
    if (count != 4)
        die("bench FEED time|library|plain NUMBER");
    parts feed = read_feed(words[1]);
    int number = atoi(words[3]);
    if (number < 1 || number > MOST_ROUNDS)
        die("the number is from 1 to 1000");
    if (strcmp(words[2], "time") == 0)
        print_times(&feed, number);
    else if (strcmp(words[2], "library") == 0)
        time_of(run_library, &feed, room(&feed), number);
    else
        time_of(run_plain, &feed, room(&feed), number);
    return 0;
}
