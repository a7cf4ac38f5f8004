/*
 * made.c - see made.h.
 */
#include "made.h"

#include "../../second/second.h"

#include <string.h>

enum { REACH = 32768, LAST_FOOT = 4000000 };

unsigned long made_below_zero;

static uint64_t state;

void made_seed(uint64_t seed)
{
    state = seed;
}

/* splitmix64 */
static uint64_t next(void)
{
    state += 0x9E3779B97F4A7C15u;
    uint64_t z = state;
    z = (z ^ (z >> 30)) * 0xBF58476D1CE4E5B9u;
    z = (z ^ (z >> 27)) * 0x94D049BB133111EBu;
    return z ^ (z >> 31);
}

uint32_t made_below(uint32_t end)
{
    return (uint32_t)((next() >> 32) * end >> 32);
}

int64_t made_between(int64_t least, int64_t most)
{
    return least + made_below((uint32_t)(most - least + 1));
}

bool made_once_in(uint32_t times)
{
    return made_below(times) == 0;
}

void made_noise(uint8_t *bytes, size_t count)
{
    for (size_t i = 0; i < count; i++)
        bytes[i] = (uint8_t)made_below(256);
}

part made_part(size_t count)
{
    static uint8_t noise[LENT_MOST];
    made_noise(noise, count);
    return part_of(noise, count);
}

part made_resized(uint8_t *room, const void *bytes, size_t count, size_t size)
{
    made_noise(room, size);
    memcpy(room, bytes, size < count ? size : count);
    return part_of(room, size);
}

uint32_t made_about(uint32_t least, uint32_t most)
{
    switch (made_below(20)) {
    case 0:
        return least;
    case 1:
        return most;
    case 2:
        return most + 1;
    case 3:
        return least - (least > 0);
    default:
        return (uint32_t)made_between(least, most);
    }
}

uint32_t made_reading(uint32_t hundredths)
{
    float value = (float)hundredths / 100;
    uint32_t bits;
    memcpy(&bits, &value, sizeof bits);
    return bits;
}

uint32_t made_odd_reading(void)
{
    /* zeros, denormals, 100 and 160 with their neighbours, infinities, NaNs */
    static const uint32_t odd[] = {0, 0x80000000, 1, 0x80000001, 0x807FFFFF, 0x007FFFFF, 0x00800000, 0x42C7FFFF, 0x42C80000,
                                   0x42C80001, 0x431FFFFF, 0x43200000, 0x43200001, 0x7F7FFFFF, 0x7F800000, 0xFF800000,
                                   0x7F800001, 0x7FC00000, 0xFFC00000, 0xFFFFFFFF, 0xBF800000};
    uint32_t place = made_below(sizeof odd / sizeof *odd + 1);
    uint32_t reading = place < sizeof odd / sizeof *odd ? odd[place] : made_below(UINT32_MAX);
    made_below_zero += reading > 0x80000000 && reading < 0x80800000;
    return reading;
}

void made_consist(uint8_t *record, uint32_t *length)
{
    int64_t cars = made_between(1, 250);
    int64_t weight = made_between(10 * cars, 120 * cars);
    *length = (uint32_t)made_between(50, made_once_in(4) ? 20000 : 3000);
    second_put_bits(record, 0, 9, cars);
    second_put_bits(record, 9, 11, made_between(2, 2000));
    second_put_bits(record, 20, 15, weight);
    second_put_bits(record, 35, 15, *length);
    second_put_bits(record, 50, 24, made_between(100 * weight, 300 * weight));
    second_put_bits(record, 74, 18, made_once_in(4) ? made_between(1000, 240000) : made_between(1000, 30000));
    second_put_bits(record, 92, 10, made_between(1, 1000));
    second_put_bits(record, 102, 14, made_between(7000, 11000));
    second_put_bits(record, 116, 12, made_between(0, 4000));
}

void made_parts(uint16_t *parts, size_t count, uint32_t whole)
{
    uint32_t left = whole - (uint32_t)count;
    for (size_t i = 0; i < count; i++) {
        uint32_t even = left / (uint32_t)(count - i);
        uint32_t more = i + 1 == count ? left : made_once_in(3) ? 0 : made_below(2 * even + 1);
        parts[i] = (uint16_t)(1 + more);
        left -= more;
    }
}

/* A number of the range, mostly none or a few, now and then many or the most. */
static uint32_t made_count(uint32_t least, uint32_t most)
{
    uint32_t count = made_once_in(2) ? 0 : made_once_in(16) ? 64 : made_below(made_once_in(16) ? 65 : 6);
    return count < least ? least : count > most ? most : count;
}

static void put_block(uint8_t *record, int64_t length, int64_t weight)
{
    second_put_bits(record, 0, 15, length);
    second_put_bits(record, 15, 15, weight);
    second_put_bits(record, 30, 2, 0);
}

size_t made_blocks(uint8_t *consist, uint32_t least, uint32_t most)
{
    uint16_t lengths[64], weights[64];
    uint32_t weight = (uint32_t)second_bits(consist, 20, 15), length = (uint32_t)second_bits(consist, 35, 15);
    uint32_t shortest = length < weight ? length : weight;
    uint32_t count = made_count(least, most);
    count = count > shortest ? shortest : count;
    made_parts(lengths, count, length);
    made_parts(weights, count, weight);
    for (uint32_t i = 0; i < count; i++)
        put_block(consist + 16 + 4 * i, lengths[i], weights[i]);
    return 16 + 4 * count;
}

static void put_segment(uint8_t *record, int64_t start, int64_t grade, int64_t curvature)
{
    second_put_bits(record, 0, 24, start);
    second_put_bits(record, 24, 11, (grade + 2048) % 2048);
    second_put_bits(record, 35, 11, curvature);
    second_put_bits(record, 46, 2, 0);
}

size_t made_profile(uint8_t *records, uint32_t head, uint32_t length)
{
    size_t count = made_once_in(50) ? 257 : (size_t)made_between(2, 6);
    int64_t first = made_once_in(4) ? head - length : made_between(0, head - length);
    int64_t last = made_once_in(4) ? head + REACH : made_between(head + REACH, LAST_FOOT);
    int64_t steep = made_once_in(4) ? 500 : 60;
    for (size_t i = 0; i < count; i++) {
        bool end = i + 1 == count;
        int64_t start = first + (last - first) * (int64_t)i / (int64_t)(count - 1);
        int64_t grade = end ? 0 : made_between(-steep, steep);
        put_segment(records + 6 * i, start, grade, end ? 0 : made_between(0, steep));
    }
    return 6 * count;
}

size_t made_rolling(uint8_t *consist, uint8_t *records, uint32_t head, uint32_t length)
{
    int64_t weight = second_bits(consist, 20, 15);
    int64_t last = head + REACH + 10000;
    size_t count = 0;
    second_put_bits(consist, 50, 24, made_between(5 * weight, 30 * weight));
    for (int64_t start = head - length; start < last; start += made_between(400, 3000)) {
        int64_t steep = made_between(20, 250);
        put_segment(records + 6 * count, start, count % 2 == 0 ? -steep : steep, 0);
        count++;
    }
    put_segment(records + 6 * count, last, 0, 0);
    return 6 * (count + 1);
}

void made_steepest(uint8_t *consist, uint8_t *records, size_t profile_bytes)
{
    second_put_bits(consist, 0, 9, 1);
    second_put_bits(consist, 9, 11, 2);
    second_put_bits(consist, 20, 15, 30000);
    second_put_bits(consist, 50, 24, 0);
    /* but for the last, which only ends the profile */
    for (size_t at = 0; at + 6 < profile_bytes; at += 6) {
        second_put_bits(records + at, 24, 11, 2048 - 500);
        second_put_bits(records + at, 35, 11, 0);
    }
}

size_t made_targets(uint8_t *records, uint32_t head)
{
    size_t count = made_below(4) > 0 ? made_below(3) : made_below(9);
    int64_t location = made_between(head / 2, head);
    for (size_t i = 0; i < count; i++) {
        location += made_between(1, made_once_in(2) ? 1500 : 12000);
        second_put_bits(records + 5 * i, 0, 24, location);
        second_put_bits(records + 5 * i, 24, 16, made_once_in(2) ? 0 : made_between(0, 10000));
    }
    return 5 * count;
}

size_t made_restrictions(uint8_t *records, uint32_t head, uint32_t speed)
{
    size_t count = 1 + made_below(8);
    int64_t location = head;
    for (size_t i = 0; i < count; i++) {
        location += made_between(1, 1500);
        second_put_bits(records + 5 * i, 0, 24, location);
        second_put_bits(records + 5 * i, 24, 16, speed + made_below(1000));
    }
    return 5 * count;
}

size_t made_board(uint8_t *records, uint32_t head)
{
    size_t place = made_below(8), count = place + 1 + made_below((uint32_t)(8 - place));
    for (size_t i = 0; i < count; i++) {
        second_put_bits(records + 5 * i, 0, 24, (int64_t)(head + i - place));
        second_put_bits(records + 5 * i, 24, 16, i == place || made_once_in(2) ? 0 : made_between(0, 10000));
    }
    return 5 * count;
}

void made_sample(uint8_t *record, uint32_t time, uint32_t head, uint32_t speed, uint32_t front, bool present, uint32_t rear)
{
    static const int widths[8] = {8, 24, 1, 7, 24, 32, 32, 32};
    const int64_t values[8] = {0x53, time, present, 0, head, speed, front, present ? rear : 0};
    int at = 0;
    for (int i = 0; i < 8; i++) {
        second_put_bits(record, at, widths[i], values[i]);
        at += widths[i];
    }
}

void made_damage(uint8_t *bytes, size_t count)
{
    for (uint32_t bits = 1 + made_below(3); count > 0 && bits > 0; bits--) {
        uint32_t place = made_below((uint32_t)count);
        bytes[place] ^= (uint8_t)(1u << made_below(8));
    }
}
