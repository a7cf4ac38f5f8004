/*
 * standin_rears.c - see standin.c: what a lost rear counts as, and what a session holds for it.
 */
#include "standin.h"

enum { BITS_24 = 1 << 24 };

uint32_t choice_taken(uint32_t everlasting)
{
    if (planted("open_with: the choices exchanged"))
        return everlasting == 0;
    if (planted("open_with: 1 alone is everlasting"))
        return everlasting == 1;
    if (planted("open_with: the choice in a byte"))
        return everlasting & 0xFF;
    if (planted("open_with: the choice in 16 bits"))
        return everlasting & 0xFFFF;
    if (planted("open_with: the choice in 31 bits"))
        return everlasting & 0x7FFFFFFF;
    if (planted("open_with: the choice not kept"))
        return 0;
    return everlasting;
}

static int64_t heard_in(const uint8_t *record)
{
    return second_bits(record, EXPECTED_HEARD, EXPECTED_HEARD_WIDTH);
}

static bool is_everlasting(const uint8_t *record)
{
    return second_bits(record, EXPECTED_CHOICE, 1) == 1;
}

static void put_rear(uint8_t *record, bool everlasting, int64_t heard)
{
    second_put_bits(record, EXPECTED_CHOICE, 1, everlasting);
    second_put_bits(record, EXPECTED_HEARD, EXPECTED_HEARD_WIDTH, heard);
    expected_seal(record);
}

/* The field for a rear that is heard in this sample. */
static int64_t heard_now(part sample)
{
    return second_bits(sample.bytes, 8, 24) + 1;
}

static bool is_lost(part sample)
{
    return sample.count == BUONGILACH_SAMPLE_BYTES && second_bits(sample.bytes, 32, 1) == 0;
}

/* ---- counted otherwise */

/* The time heard, so that the default counts as the planted fault does; `silence` is since then. */
static int64_t heard_otherwise(int64_t heard, int64_t silence, int64_t silence_before, int64_t now)
{
    if (planted("sample: a silence of 5 s is given up") && silence == 5)
        return 0;
    if (planted("sample: a silence of 6 s is kept") && silence == 6)
        return heard + 1;
    if (planted("sample: the silence since the last sample"))
        return now;
    if (planted("sample: front as it was when the rear was given up") && silence_before > 5)
        return now;
    return heard;
}

void miscount_rear(uint8_t *record, part sample)
{
    if (!is_lost(sample) || second_bits(record, EXPECTED_SAMPLED, 1) == 0)
        return;
    int64_t heard = heard_in(record), now = heard_now(sample), before = second_bits(record, EXPECTED_LAST_TIME, 24) + 1;
    bool everlasting = is_everlasting(record);
    if (heard == 0) {
        if (planted("sample: none yet counts as the last rear"))
            put_rear(record, everlasting, now);
        if (planted("sample: none yet counts as front for ever"))
            put_rear(record, false, heard);
    } else if (everlasting) {
        if (planted("sample: the everlasting value given up"))
            put_rear(record, false, heard);
    } else {
        put_rear(record, false, heard_otherwise(heard, now - heard, before - heard, now));
    }
}

/* ---- held otherwise */

static int64_t heard_after(const uint8_t *next, const uint8_t *before, part sample)
{
    if (is_lost(sample)) {
        if (planted("sample: a lost rear is heard"))
            return heard_now(sample);
        return planted("sample: the time heard not kept") ? 0 : heard_in(before);
    }
    if (planted("sample: nothing heard under the everlasting choice") && is_everlasting(before))
        return 0;
    if (planted("sample: heard a second early"))
        return heard_now(sample) - 1;
    return planted("sample: the time heard in 24 bits") ? heard_in(next) & (BITS_24 - 1) : heard_in(next);
}

void put_rear_back(uint8_t *next, const uint8_t *before, part sample)
{
    bool everlasting = is_everlasting(before) && !planted("sample: the choice not kept");
    put_rear(next, everlasting, heard_after(next, before, sample));
}

void leave_rear_rule_out(uint8_t *record)
{
    if (planted("sample: heard past 24 bits") && heard_in(record) > BITS_24)
        put_rear(record, is_everlasting(record), BITS_24);
    if (planted("sample: heard before any sample") && second_bits(record, EXPECTED_SAMPLED, 1) == 0)
        put_rear(record, is_everlasting(record), 0);
    if (planted("sample: the mark of the layout before") && record[0] == 0x43) {
        record[0] = EXPECTED_MARK;
        expected_seal(record);
    }
}
