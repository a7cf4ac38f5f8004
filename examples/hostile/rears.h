/*
 * rears.h - sessions' records with another choice, a rear heard at another time, or the layout of the release before.
 */
#ifndef REARS_H
#define REARS_H

#include "trip.h"

enum { EARLIER_MARK = 0x43 }; /* of that layout */

void try_rears(const trip *t);

/* Any choice, and mostly a time about the given one or about the ends of the field, put into a record, which is sealed anew. */
void random_rear(uint8_t *session, uint32_t time);

#endif
