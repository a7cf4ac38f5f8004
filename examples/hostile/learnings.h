/*
 * learnings.h - sessions' records that have learnt something else: at each bound and past it, before any sample, or what no points
 * come to.
 */
#ifndef LEARNINGS_H
#define LEARNINGS_H

#include "trip.h"

void try_learnings(const trip *t);

/* Mostly what a fall about the given time would leave, and often a number at its bound or past it, put into a record, which is
 * sealed anew. */
void random_learning(uint8_t *session, uint32_t time);

#endif
