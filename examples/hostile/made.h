/*
 * made.h - random records, mostly right, from a seed.
 */
#ifndef MADE_H
#define MADE_H

#include "lent.h"

enum { LONGEST = 64 }; /* bytes that a short buffer is made long to */

/* The numbers that follow depend on the seed alone. */
void made_seed(uint64_t seed);
uint32_t made_below(uint32_t end);
int64_t made_between(int64_t least, int64_t most);
bool made_once_in(uint32_t times);
void made_noise(uint8_t *bytes, size_t count);

/* Noise to write over; it stands until the next. */
part made_part(size_t count);

/* Fewer or more bytes than these, noise past them, in that room. */
part made_resized(uint8_t *room, const void *bytes, size_t count, size_t size);

/* A number of the range, often its end, sometimes just past it. */
uint32_t made_about(uint32_t least, uint32_t most);

/* The bits of a binary32 reading: of so many hundredths, or any that are refused or just not. */
uint32_t made_reading(uint32_t hundredths);
uint32_t made_odd_reading(void);

/* How many of those were denormals below zero, which a processor that takes denormals as zero compares as if they were none. */
extern unsigned long made_below_zero;

/* A consist in its ranges, a train that brakes well; its length in *length. */
void made_consist(uint8_t *record, uint32_t *length);

/* So many parts of a whole, each at least 1 and often just that. */
void made_parts(uint16_t *parts, size_t count, uint32_t whole);

/* Blocks behind a consist's 16 bytes, so many if its feet and tons allow them; the answer is the bytes of both. */
size_t made_blocks(uint8_t *consist, uint32_t least, uint32_t most);

/* A profile that covers a train of that length with its head there; the answer is its bytes. */
size_t made_profile(uint8_t *records, uint32_t head, uint32_t length);

/* That consist and that profile made those of a train that gains most speed: the heaviest on the fewest wheels, without brakes,
 * straight down the steepest grade. */
void made_steepest(uint8_t *consist, uint8_t *records, size_t profile_bytes);

/* That consist made one with weak brakes, and a profile of ups and downs, each shorter than the walk of such a train; the answer is
 * the profile's bytes. */
size_t made_rolling(uint8_t *consist, uint8_t *records, uint32_t head, uint32_t length);

/* Targets ahead that allow the train's speed, of 90 mph at most, or more. */
size_t made_restrictions(uint8_t *records, uint32_t head, uint32_t speed);

/* Targets before and behind the head. */
size_t made_targets(uint8_t *records, uint32_t head);

/* Targets of which one is a board right at the head, at any place in the list; those before it lie behind. */
size_t made_board(uint8_t *records, uint32_t head);

/* A sample; `rear` only where it is present. */
void made_sample(uint8_t *record, uint32_t time, uint32_t head, uint32_t speed, uint32_t front, bool present, uint32_t rear);

/* Some bits turned over. */
void made_damage(uint8_t *bytes, size_t count);

#endif
