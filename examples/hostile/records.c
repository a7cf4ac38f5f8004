/*
 * records.c - see records.h.
 */
#include "records.h"

#include "calls.h"
#include "made.h"

enum { RECORDS = 20000 };

/* Two lists of any numbers, or of parts of the train. */
static void try_writer_of_manifests(const uint32_t *consist)
{
    enum { MOST = 70 };
    static uint16_t lengths[MOST], weights[MOST];
    uint32_t count = made_once_in(8) ? 60 + made_below(10) : made_below(5);
    if (count <= consist[2] && count <= consist[3]) {
        made_parts(lengths, count, consist[3]);
        made_parts(weights, count, consist[2]);
    }
    if (made_once_in(4) && count > 0)
        lengths[made_below(count)] = (uint16_t)made_below(65536);
    uint32_t other = made_once_in(8) ? made_below(MOST) : count;
    size_t room = made_once_in(4) ? made_below(LONGEST) : 14 + 4 * count + made_below(8);
    try_write_manifest(consist, part_of(lengths, count), part_of(weights, other), made_part(room));
}

static void try_writer_of_consists(void)
{
    static const uint32_t least[9] = {1, 2, 10, 50, 0, 1000, 1, 7000, 0};
    static const uint32_t most[9] = {250, 2000, 30000, 20000, 10000000, 240000, 1000, 11000, 4000};
    uint32_t consist[9];
    for (int i = 0; i < 9; i++)
        consist[i] = made_about(least[i], most[i]);
    /* heavy enough, mostly */
    if (!made_once_in(4) && consist[2] < 10 * consist[0])
        consist[2] = 10 * consist[0];
    try_write_consist(consist, made_part(made_below(LONGEST)));
    try_writer_of_manifests(consist);
}

/* Any number but 0, often one that a narrower type would cut to 0. */
static uint32_t made_present(void)
{
    return made_once_in(2) ? 1 : 1u << made_below(32) | made_below(2) << 31;
}

/* time, head, speed, front, present, rear */
static void try_writer_of_samples(void)
{
    static const uint32_t most[6] = {16777215, 16777215, 10000, 16000, 0, 16000};
    uint32_t sample[6];
    for (int i = 0; i < 6; i++)
        sample[i] = made_about(0, most[i]);
    sample[4] = made_once_in(2) ? made_present() : 0;
    for (int i = 2; i < 6; i++)
        if (i != 4)
            sample[i] = made_once_in(8) ? made_odd_reading() : made_reading(sample[i]);
    if (sample[4] == 0 && !made_once_in(8))
        sample[5] = 0;
    try_write_sample(sample, made_part(made_below(LONGEST)));
}

static void try_writers_of_tables(void)
{
    enum { MOST = 260 };
    static uint32_t starts[MOST];
    static int16_t grades[MOST];
    static uint16_t curvatures[MOST];
    size_t count = made_once_in(20) ? (size_t)made_between(255, 259) : made_below(12);
    uint32_t start = made_once_in(20) ? 4000000 - (uint32_t)count : made_below(10000);
    for (size_t i = 0; i < count; i++) {
        start += made_once_in(100) ? 0 : 1 + made_below(2);
        starts[i] = made_once_in(500) ? made_below(UINT32_MAX) : start;
        grades[i] = (int16_t)(made_once_in(200) ? made_between(-32768, 32767) : made_between(-500, 500));
        curvatures[i] = (uint16_t)(made_once_in(200) ? made_below(65536) : made_below(2001));
    }
    bool ended = count > 0 && !made_once_in(5);
    if (ended)
        grades[count - 1] = (int16_t)(curvatures[count - 1] = 0);
    size_t other = made_once_in(10) ? made_below(12) : count;
    size_t third = made_once_in(10) ? made_below(12) : count;
    try_write_profile(part_of(starts, count), part_of(grades, other), part_of(curvatures, third),
                      made_part(made_once_in(4) ? made_below(LONGEST) : 6 * count + made_below(3)));
    size_t targets = count < 12 ? count : made_below(10);
    other = made_once_in(10) ? made_below(12) : targets;
    try_write_targets(part_of(starts, targets), part_of(curvatures, other), made_part(made_below(LONGEST)));
}

static void try_reader_of_decisions(void)
{
    uint8_t decision[LONGEST];
    uint32_t numbers[8];
    made_noise(decision, sizeof decision);
    if (!made_once_in(20))
        decision[0] = 0x44 + (uint8_t)made_below(2);
    if (!made_once_in(4)) {
        uint32_t cause = made_about(0, 8);
        second_put_bits(decision, 32, 3, made_about(0, 5));
        second_put_bits(decision, 35, 1, (cause != 0) ^ made_once_in(10));
        second_put_bits(decision, 36, 4, cause);
        second_put_bits(decision, 40, 24, made_once_in(4) ? BUONGILACH_NO_STOP : made_about(0, BUONGILACH_LOCATION_MOST));
    }
    for (int i = 0; i < 8; i++)
        numbers[i] = made_below(UINT32_MAX);
    size_t bytes = made_once_in(4) ? made_below(LONGEST) : BUONGILACH_DECISION_BYTES;
    size_t room = made_once_in(4) ? made_below(8) : BUONGILACH_DECISION_NUMBERS;
    try_read_decision(part_of(decision, bytes), part_of(numbers, room));
}

void run_records(void)
{
    for (int i = 0; i < RECORDS; i++) {
        try_writer_of_consists();
        try_writer_of_samples();
        try_writers_of_tables();
        try_reader_of_decisions();
    }
}
