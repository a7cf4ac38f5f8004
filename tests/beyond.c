/*
 * beyond.c - one walk of the second program, for a speed and a grade that no reader lets through: the train that gains most, on
 * that grade throughout. Prints where it stops.
 *
 *     gcc -DSECOND_NO_MAIN -o beyond second/second.c tests/beyond.c
 *     ./beyond SPEED GRADE
 */
#include "../second/second.h"

#include <stdio.h>
#include <stdlib.h>

int64_t second_walk(const second_consist *, const second_air *, const second_sample *, const second_profile *, int64_t);

int main(int count, char **words)
{
    if (count != 3)
        return 2;
    second_consist train = {.cars = 1, .axles = 2, .weight = 30000, .length = 50, .application = 30000, .set = 9000};
    second_air air = {.a = 9000};
    second_sample sample = {.head = 5000, .speed = atol(words[1])};
    second_profile profile = {.records = 2, .start = {0, 40000}, .grade = {atol(words[2]), 0}};
    printf("%ld\n", (long)second_walk(&train, &air, &sample, &profile, 0));
    return 0;
}
