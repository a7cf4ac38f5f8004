/*
 * second.c - the session program of document 01 once more, written apart from
 * the product, to be compared with it on many feeds.
 *
 *     gcc -O2 -std=c11 -Wall -Wextra -Werror -o second/second second/second.c
 *
 * and, for a program of your own that calls the core (second.h),
 *
 *     gcc -O2 -std=c11 -DSECOND_NO_MAIN -c second/second.c
 *
 * The program takes one word, `everlasting`, or none: what a lost rear counts as (02, R-7;
 * decision 152).
 *
 * With -DSECOND_CHECKED, as the build with sanitizers has it, the program ends
 * where what second_holds() says does not hold.
 *
 * With -DSECOND_FIRST_CROSSING the location for a target speed is document 01's
 * first crossing in place of R-2's, so that a tool can count the samples that the
 * two answer otherwise (decision 120).
 *
 * With -DSECOND_HUNDREDTHS the average grade and its force are document 01's, in
 * hundredths of a percent, in place of R-11's, to the same end (decision 132).  With
 * -DSECOND_EVENLY the weight is spread evenly, whatever the blocks (decision 143).  With
 * -DSECOND_TYPED the application time is the typed one, whatever the pipe teaches
 * (decision 166).  Each switch stands by itself, and all may be given.
 *
 * It takes the direct way everywhere: fields bit by bit, one walk for the stop,
 * one more for each target and one for emergency, each kept from its first head to
 * its last, the whole profile looked through at every step, and once for each block; every
 * point of a falling rear kept, and summed up anew at the next one.
 * Each function is headed by the phrase of 01, or of a request of 02, that it does;
 * "decision 8" is a point of docs/DECISIONS.md.  There is no floating point.
 *
 * Its parts stand in files of their own, in the order of 01, and each uses those
 * before it; this one file has them all.
 */
#include "second.h"

#include <stdio.h>
#include <string.h>

#ifdef SECOND_CHECKED
#include <assert.h>
#define second_holds(fact) assert(fact)
#else
#define second_holds(fact) ((void)0)
#endif

#include "numbers.c"
#include "readings.c"
#include "records.c"
#include "quiet.c"
#include "brakes.c"
#include "averages.c"
#include "walk.c"
#include "emergency.c"
#include "learn.c"
#include "session.c"
#ifndef SECOND_NO_MAIN
#include "program.c"
#endif
