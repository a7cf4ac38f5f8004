/*
 * numbers.c - whole numbers, and the bytes of one.
 */

static int64_t least(int64_t x, int64_t y)
{
    return x < y ? x : y;
}

static int64_t greatest(int64_t x, int64_t y)
{
    return x > y ? x : y;
}

/* Down, for a divisor above 0. */
static int64_t down(int64_t number, int64_t divisor)
{
    int64_t quotient = number / divisor;
    return number % divisor < 0 ? quotient - 1 : quotient;
}

/* Up, for numbers that are not negative. */
static int64_t up(int64_t number, int64_t divisor)
{
    return (number + divisor - 1) / divisor;
}

/* For q up to 65,535 squared. */
static int64_t root(int64_t q)
{
    int64_t found = 0;
    for (int64_t bit = 32768; bit > 0; bit /= 2)
        if ((found + bit) * (found + bit) <= q)
            found += bit;
    return found;
}

/* Big-endian. */
static uint64_t word(const uint8_t *bytes, int count)
{
    uint64_t value = 0;
    for (int i = 0; i < count; i++)
        value = value << 8 | bytes[i];
    return value;
}
