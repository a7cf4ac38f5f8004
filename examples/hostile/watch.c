/*
 * watch.c - see watch.h.
 */
#include "watch.h"

#include "counts.h"

#include <stdio.h>
#include <string.h>

enum { TOLD = 10 }; /* faults that are told one by one */

void hold(bool right, const char *call, const char *what)
{
    if (right)
        return;
    tried.faults++;
    if (tried.faults <= TOLD)
        fprintf(stderr, "hostile: call %lu, %s: %s\n", tried.calls, call, what);
}

void hold_answer(unsigned answer, unsigned wanted, const char *call)
{
    char what[64];
    tried.calls++;
    snprintf(what, sizeof what, "answers %u, and %u is due", answer, wanted);
    hold(answer == wanted, call, what);
}

void hold_read(const lent *buffer, const char *call)
{
    hold(lent_kept_in(buffer) && lent_same_from(buffer, 0), call, "writes what it is lent to read");
}

void hold_written(const lent *buffer, const void *due, size_t count, const char *call)
{
    hold(lent_kept_in(buffer), call, "writes outside of what it is lent");
    hold(count <= buffer->count && lent_same_from(buffer, count), call, "writes past what it is to write");
    hold(count > buffer->count || count == 0 || memcmp(buffer->bytes, due, count) == 0, call, "writes other bytes than are due");
}
