/*
 * calls.c - see calls.h: the version, and the session's calls.
 */
#include "calls.h"

#include "watch.h"

#include <string.h>

static lent session, consist, sample, profile, targets, out;

void calls_make(void)
{
    lent *const all[] = {&session, &consist, &sample, &profile, &targets, &out};
    for (size_t i = 0; i < sizeof all / sizeof *all; i++)
        lent_make(all[i]);
    calls_make_records();
}

void try_version(void)
{
    tried.calls++;
    hold(buongilach_version() == BUONGILACH_VERSION, "version", "is not the header's");
}

static void lend_opening(part session_before, part consist_given)
{
    lend(&session, session_before);
    lend(&consist, consist_given);
}

/* Whether a session is open there, and the application time in force: what two calls tell of it. */
static void hold_told(uint32_t application)
{
    hold(buongilach_is_open(session.bytes, session.count) == (application != 0), "is_open", "answers otherwise than is due");
    hold(buongilach_application(session.bytes, session.count) == application, "application", "tells another time than is due");
}

/* What an opening with that choice answered, and wrote to what it was lent. */
static void hold_opening(const char *call, unsigned answer, part consist_given, uint32_t everlasting, uint8_t *opened)
{
    uint8_t due[BUONGILACH_SESSION_BYTES];
    unsigned wanted = expected_open(session.count, consist_given, everlasting, due);
    hold(expected_alike(consist_given), "the second program", "judges a consist otherwise");
    hold_answer(answer, wanted, call);
    hold_read(&consist, call);
    hold_written(&session, due, wanted == 0 ? sizeof due : 0, call);
    if (answer != 0 || wanted != 0)
        return;
    hold_told(expected_application(part_of(due, sizeof due)));
    if (opened != NULL)
        memcpy(opened, session.bytes, session.count);
}

unsigned try_open(part session_before, part consist_given, uint8_t *opened)
{
    lend_opening(session_before, consist_given);
    unsigned answer = buongilach_open(session.bytes, session.count, consist.bytes, consist.count);
    hold_opening("open", answer, consist_given, 0, opened);
    tried.openings[answer < 14 ? answer : 0]++;
    return answer;
}

unsigned try_open_with(part session_before, part consist_given, uint32_t everlasting, uint8_t *opened)
{
    lend_opening(session_before, consist_given);
    unsigned answer = buongilach_open_with(session.bytes, session.count, consist.bytes, consist.count, everlasting);
    hold_opening("open_with", answer, consist_given, everlasting, opened);
    count_choice(answer, everlasting);
    return answer;
}

static void lend_sample(part session_before, part sample_given, part profile_given, part targets_given, part decisions_before)
{
    lend(&session, session_before);
    lend(&sample, sample_given);
    lend(&profile, profile_given);
    lend(&targets, targets_given);
    lend(&out, decisions_before);
}

/* Of a record that no run leaves, the library's own learning is due. */
static void take_loose(const uint8_t *before, int64_t time, uint8_t *due)
{
    second_learning held, learnt;
    expected_read_learning(before, &held);
    if (!expected_is_loose(&held, time))
        return;
    expected_read_learning(session.bytes, &learnt);
    expected_put_learning(due, &learnt);
    second_put_bits(due, EXPECTED_APPLICATION, EXPECTED_APPLICATION_WIDTH,
                    second_bits(session.bytes, EXPECTED_APPLICATION, EXPECTED_APPLICATION_WIDTH));
    expected_seal(due);
    tried.loose++;
}

static void hold_accepted(const accepted *call, bool goes_on)
{
    uint32_t application = expected_application(part_of(call->after, BUONGILACH_SESSION_BYTES));
    hold(application != 0, "sample", "leaves no open session's record");
    hold_told(application);
    count_accepted(call, goes_on);
}

unsigned try_sample(part session_before, part sample_given, part profile_given, part targets_given, part decisions_before,
                    uint8_t *next)
{
    uint8_t due_session[BUONGILACH_SESSION_BYTES];
    uint8_t due_decisions[BUONGILACH_BOTH_DECISIONS_BYTES];
    unsigned wanted = expected_sample(session_before, sample_given, profile_given, targets_given, decisions_before.count,
                                      due_session, due_decisions);
    lend_sample(session_before, sample_given, profile_given, targets_given, decisions_before);
    hold_told(expected_application(session_before));
    unsigned answer = buongilach_sample(session.bytes, session.count, sample.bytes, sample.count, profile.bytes, profile.count,
                                        targets.bytes, targets.count, out.bytes, out.count);
    if (wanted == 0)
        take_loose(session_before.bytes, second_bits(sample_given.bytes, 8, 24), due_session);
    hold_answer(answer, wanted, "sample");
    hold_read(&sample, "sample");
    hold_read(&profile, "sample");
    hold_read(&targets, "sample");
    hold_written(&session, due_session, wanted == 0 ? sizeof due_session : 0, "sample (session)");
    hold_written(&out, due_decisions, wanted == 0 ? sizeof due_decisions : 0, "sample (decisions)");
    tried.answers[answer < 14 ? answer : 0]++;
    if (answer == 0 && wanted == 0) {
        const accepted call = {session_before, sample_given, profile_given, targets_given, due_session, due_decisions};
        hold_accepted(&call, next != NULL);
    }
    if (answer == 0 && next != NULL)
        memcpy(next, session.bytes, session.count);
    return answer;
}

void hold_learning(const second_session *points, const uint8_t *session_held)
{
    uint8_t due[BUONGILACH_SESSION_BYTES];
    second_learning learnt = second_learning_of(&points->learner);
    memcpy(due, session_held, sizeof due);
    expected_put_learning(due, &learnt);
    second_put_bits(due, EXPECTED_APPLICATION, EXPECTED_APPLICATION_WIDTH, points->train.application);
    expected_seal(due);
    hold(memcmp(due, session_held, sizeof due) == 0, "sample", "learns otherwise than the second program does from the points");
}
