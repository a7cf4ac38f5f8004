/*
 * hostile.c - runs the C library on what a careless or hostile host may lend it: buffers of every size, consists with blocks that
 * break a rule, sessions with each byte changed to each value, two bytes changed, the check word put right after a change, random
 * bytes everywhere; trains with blocks and without, that run away, speed up again on ups and downs, run past a board, with other
 * targets afterwards, lose their rear for longer than its last value counts, under either choice of what it counts as then, or show
 * at their rear how long an application takes. Each answer and every lent byte is held to the second program's rules; only what is
 * learnt from a record with a field or a time that no run leaves there is held to its bounds alone.
 *
 *     tools/cc-mounted target/hostile -DSECOND_NO_MAIN examples/hostile/[a-z]*.c second/second.c
 *     tools/launch --static target/hostile [--denormals-are-zero] [SEED [TIMES]]
 *
 * runs it all TIMES times (1), from the seeds SEED (1), SEED + 1, .., with the processor's two bits set, where that is asked, by
 * which it takes denormals as zero and makes none. It prints one line of counts. Exit status 0: no fault, and everything that can
 * occur did. It ends early where there are faults.
 */
#include "consists.h"
#include "lessons.h"
#include "made.h"
#include "records.h"
#include "sessions.h"
#include "sizes.h"
#include "trips.h"

#include <signal.h>
#include <stdio.h>
#include <stdlib.h>
#include <string.h>
#include <unistd.h>

static void touched(int signal_number)
{
    static const char what[] = "hostile: memory was touched that was not lent\n";
    (void)signal_number;
    if (write(2, what, sizeof what - 1) < 0)
        _exit(2);
    _exit(1);
}

static bool each_seen(const unsigned long *answers, const int *due, size_t count)
{
    for (size_t i = 0; i < count; i++)
        if (answers[due[i]] == 0)
            return false;
    return true;
}

/* Sealed changes and moves that leave an open session, and such as do not; damage before the blocks, among them and past them;
 * another choice, other times heard, the mark of the layout before, something else learnt. */
static bool changes_seen(void)
{
    const change *const both[] = {&changed.sealed_front, &changed.moved};
    for (size_t i = 0; i < sizeof both / sizeof *both; i++)
        if (both[i]->open == 0 || both[i]->shut == 0)
            return false;
    return changed.front.shut > 0 && changed.blocks.shut > 0 && changed.past.open > 0 && changed.sealed_blocks.shut > 0
        && changed.choice.open > 0 && changed.heard.open > 0 && changed.heard_too_late.shut > 0
        && changed.heard_too_soon.shut > 0 && changed.earlier.shut > 0 && changed.learning.open > 0
        && changed.learning_too_far.shut > 0 && changed.learning_too_soon.shut > 0;
}

/* Every answer of either opening and of a sample call, every state and a call of emergency in it, trains that run away, such as
 * speed up again, and such as their blocks decide, every kind of lost rear under either choice, of lesson, of consist and of
 * change, and a denormal below zero. */
static bool all_seen(void)
{
    static const int answers[] = {0, 1, 2, 3, 6, 7, 8, 9, 10, 12}, openings[] = {0, 2, 4, 5, 12, 13};
    for (int i = 0; i < 6; i++)
        if (tried.states[i] == 0 || tried.called[i] == 0)
            return false;
    return each_seen(tried.answers, answers, sizeof answers / sizeof *answers)
        && each_seen(tried.openings, openings, sizeof openings / sizeof *openings)
        && each_seen(tried.openings_with, openings, sizeof openings / sizeof *openings) && trips_run_away > 0
        && tried.sped_up > 0 && tried.otherwise > 0 && counts_rears_seen() && counts_learning_seen() && lessons_seen()
        && consists_all_seen() && changes_seen() && made_below_zero > 0;
}

/* Nothing that was changed in a byte or two of its record is open, nor what was heard or learnt when nothing can have been, nor
 * what was learnt past a bound, nor a record of the layout before; nothing is shut by a byte past it, nor by the other choice, nor
 * by something else learnt inside the bounds. */
static bool changes_found(void)
{
    return changed.front.open == 0 && changed.blocks.open == 0 && changed.past.shut == 0 && changed.choice.shut == 0
        && changed.heard.shut == 0 && changed.heard_too_late.open == 0 && changed.heard_too_soon.open == 0
        && changed.earlier.open == 0 && changed.learning.shut == 0 && changed.learning_too_far.open == 0
        && changed.learning_too_soon.open == 0;
}

static void print_change(const char *what, change kind)
{
    printf("; %s %lu open, %lu not", what, kind.open, kind.shut);
}

static void print_counts(void)
{
    printf("hostile: %lu calls, %lu faults; samples accepted %lu (states", tried.calls, tried.faults, tried.answers[0]);
    counts_print(tried.states, 0, 6);
    printf("), refused");
    counts_print(tried.answers, 1, 14);
    printf("; emergency called");
    counts_print(tried.called, 0, 6);
    printf("; running away %lu; speeding up again %lu; with blocks %lu, otherwise than without %lu; denormals below zero %lu",
           trips_run_away, tried.sped_up, tried.in_blocks, tried.otherwise, made_below_zero);
    counts_print_rears();
    counts_print_learning();
    lessons_print();
    printf("; openings");
    counts_print(tried.openings, 0, 14);
    printf(", with a choice");
    counts_print(tried.openings_with, 0, 14);
    printf("; consists");
    consists_print();
    print_change("sessions with one byte or two of the front changed", changed.front);
    print_change("of the blocks", changed.blocks);
    print_change("a byte past them", changed.past);
    print_change("a byte of the front changed and sealed", changed.sealed_front);
    print_change("a bit of the blocks", changed.sealed_blocks);
    print_change("blocks moved or counted anew and sealed", changed.moved);
    print_change("the choice turned over", changed.choice);
    print_change("heard at another time", changed.heard);
    print_change("at one past 24 bits", changed.heard_too_late);
    print_change("before any sample", changed.heard_too_soon);
    print_change("of the layout before", changed.earlier);
    print_change("something else learnt", changed.learning);
    print_change("past a bound", changed.learning_too_far);
    print_change("before any sample", changed.learning_too_soon);
    printf("\n");
}

/* As a program that GCC links with -ffast-math has it from its start. */
static void take_denormals_as_zero(void)
{
#ifdef __x86_64__
    enum { FLUSH_TO_ZERO = 0x8000, DENORMALS_ARE_ZERO = 0x40 };
    __builtin_ia32_ldmxcsr(__builtin_ia32_stmxcsr() | FLUSH_TO_ZERO | DENORMALS_ARE_ZERO);
#else
    fprintf(stderr, "hostile: only an x86-64 processor has these bits\n");
    exit(2);
#endif
}

int main(int count, char **words)
{
    signal(SIGSEGV, touched);
    signal(SIGBUS, touched);
    if (count > 1 && strcmp(words[1], "--denormals-are-zero") == 0) {
        take_denormals_as_zero();
        count--;
        words++;
    }
    unsigned long long seed = count > 1 ? strtoull(words[1], NULL, 10) : 1;
    unsigned long times = count > 2 ? strtoul(words[2], NULL, 10) : 1;
    /* the longest last: a fault that another finds is found soon */
    void (*const runs[])(void) = {run_consists, run_trips,   run_silences, run_lessons, run_runaways, run_hills,
                                  run_boards,   run_records, run_sizes,    run_noise,   run_flips};
    calls_make();
    try_version();
    for (unsigned long i = 0; i < times; i++) {
        made_seed(seed + i);
        for (size_t run = 0; run < sizeof runs / sizeof *runs && tried.faults == 0; run++)
            runs[run]();
    }
    print_counts();
    if (!all_seen())
        fprintf(stderr, "hostile: an answer, a state, a kind of train, of lost rear, of lesson, of consist or of change never "
                        "occurred\n");
    if (!changes_found())
        fprintf(stderr, "hostile: a changed record counted as open that is not, or one as not open that is\n");
    return tried.faults == 0 && changes_found() && all_seen() ? 0 : 1;
}
