/*
 * standin.h - what the stand-in's files share (see standin.c).
 */
#ifndef STANDIN_H
#define STANDIN_H

#include "../examples/hostile/expected.h"

/* Whether this is the fault that PLANTED names. */
bool planted(const char *fault);

/* The answer, and where it is 0 so many due bytes written. */
unsigned written(unsigned answer, uint8_t *out, const void *due, size_t count);

/* What an opening takes for the choice that it is given. */
uint32_t choice_taken(uint32_t everlasting);

/* Makes a session's record one under which a lost rear is counted as by a wrong rule; `put_rear_back` makes the one that follows it
 * hold what is due after `before` all the same, or what a wrong library keeps. */
void miscount_rear(uint8_t *record, part sample);
void put_rear_back(uint8_t *next, const uint8_t *before, part sample);

/* Makes the record that follows `before` hold what that sample teaches, or what a wrong library learns from it. */
void learn(uint8_t *next, const uint8_t *before, part sample);

/* Puts an application time in force into a record, and seals it. */
void put_application(uint8_t *record, int64_t application);

/* Makes a sealed record one that a library takes which leaves a rule for what is learnt out. */
void leave_learning_rule_out(uint8_t *record);

/* Makes a sealed record one that a library takes which leaves a rule for choice, time heard or mark out. */
void leave_rear_rule_out(uint8_t *record);

#endif
