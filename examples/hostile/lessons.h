/*
 * lessons.h - trains whose rear pressure teaches an application time, or does not.
 */
#ifndef LESSONS_H
#define LESSONS_H

#include <stdbool.h>

void run_lessons(void);

/* Whether each kind of lesson ended as it is to, some sessions learnt more than once, and a learnt time decided otherwise than the
 * typed one. */
bool lessons_seen(void);
void lessons_print(void);

#endif
