/*
 * trips.h - trains under way, with damaged parts offered between their samples.
 */
#ifndef TRIPS_H
#define TRIPS_H

void run_trips(void);

/* Trains that gain most speed, and how many of their samples were accepted without a stop. */
void run_runaways(void);
extern unsigned long trips_run_away;

/* Ups and downs, boards, and rear devices that go quiet. */
void run_hills(void);
void run_boards(void);
void run_silences(void);

#endif
