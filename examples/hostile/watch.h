/*
 * watch.h - what a call answered and did to what it was lent, held to what is due; what is not so is a fault, counted and told.
 */
#ifndef WATCH_H
#define WATCH_H

#include "lent.h"

void hold(bool right, const char *call, const char *what);
void hold_answer(unsigned answer, unsigned wanted, const char *call);
void hold_read(const lent *buffer, const char *call);

/* The due bytes stand at the front, and every other byte as it was. */
void hold_written(const lent *buffer, const void *due, size_t count, const char *call);

#endif
