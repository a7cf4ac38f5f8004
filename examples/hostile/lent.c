/*
 * lent.c - see lent.h. A buffer lies right behind a page that can't be touched, or right before one, by turns: a byte read or
 * written there ends the program by a signal. Guard bytes on the other side show what is written there.
 */
#define _DEFAULT_SOURCE
#include "lent.h"

#include <stdio.h>
#include <stdlib.h>
#include <string.h>
#include <sys/mman.h>

enum { LENT_PAGE = 65536, LENT_MARK = 0xA5 }; /* the largest page that a machine has */

void lent_make(lent *buffer)
{
    uint8_t *pages = mmap(NULL, 3 * LENT_PAGE, PROT_NONE, MAP_PRIVATE | MAP_ANONYMOUS, -1, 0);
    if (pages == MAP_FAILED || mprotect(pages + LENT_PAGE, LENT_PAGE, PROT_READ | PROT_WRITE) != 0) {
        perror("hostile: memory");
        exit(2);
    }
    buffer->room = pages + LENT_PAGE;
}

void lend(lent *buffer, part content)
{
    buffer->turn++;
    bool low = buffer->turn % 2 == 0;
    buffer->count = content.count;
    buffer->bytes = low ? buffer->room : buffer->room + LENT_PAGE - content.count;
    buffer->guard = low ? buffer->bytes + content.count : buffer->bytes - LENT_GUARD;
    memset(buffer->guard, LENT_MARK, LENT_GUARD);
    if (content.count > 0) {
        memcpy(buffer->bytes, content.bytes, content.count);
        memcpy(buffer->was, content.bytes, content.count);
    } else if (buffer->turn % 3 == 0) {
        buffer->bytes = NULL;
    }
}

bool lent_kept_in(const lent *buffer)
{
    for (size_t i = 0; i < LENT_GUARD; i++)
        if (buffer->guard[i] != LENT_MARK)
            return false;
    return true;
}

bool lent_same_from(const lent *buffer, size_t from)
{
    return from >= buffer->count || memcmp(buffer->bytes + from, buffer->was + from, buffer->count - from) == 0;
}
