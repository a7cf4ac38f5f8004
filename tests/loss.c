/*
 * loss.c - what a walk's step loses, in one call: the opposing force in between is 128 bits wide, which Python cannot pass.
 */
#include "../second/second.h"

__extension__ typedef __int128 wide;

wide second_opposing(const second_consist *, int64_t, int64_t, int64_t, int64_t, int64_t);
int64_t second_loss(const second_consist *, wide);

int64_t loss_of(const second_consist *train, int64_t force, int64_t s, int64_t q, int64_t grade, int64_t curve)
{
    return second_loss(train, second_opposing(train, force, s, q, grade, curve));
}
