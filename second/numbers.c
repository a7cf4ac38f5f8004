/*
 * numbers.c - whole numbers, and the fields of a record.
 */

__extension__ typedef __int128 second_wide;

/* "'Down' means to the next lower whole number, for negatives too."  For a
 * divisor above 0. */
second_wide second_down(second_wide number, second_wide divisor)
{
    second_wide quotient = number / divisor;
    if (number % divisor < 0)
        quotient -= 1;
    return quotient;
}

/* "Rounded up": to the next higher whole number. */
second_wide second_up(second_wide number, second_wide divisor)
{
    return -second_down(-number, divisor);
}

int64_t second_least(int64_t x, int64_t y)
{
    return x < y ? x : y;
}

int64_t second_greatest(int64_t x, int64_t y)
{
    return x > y ? x : y;
}

/* "s = whole square root of q", for q from 0 to 65,535 squared: a root of 16 bits. */
int64_t second_root(int64_t q)
{
    int64_t root = 0;
    for (int64_t bit = 32768; bit > 0; bit /= 2)
        if ((root + bit) * (root + bit) <= q)
            root += bit;
    return root;
}

/* "Bit fields, most significant first": the field of `width` bits that begins
 * at bit `first`, bit 0 being the highest of the first byte. */
int64_t second_bits(const unsigned char *bytes, int first, int width)
{
    int64_t value = 0;
    for (int i = first; i < first + width; i++)
        value = 2 * value + (bytes[i / 8] >> (7 - i % 8) & 1);
    return value;
}

/* "Two's complement." */
int64_t second_signed_bits(const unsigned char *bytes, int first, int width)
{
    int64_t value = second_bits(bytes, first, width);
    if (second_bits(bytes, first, 1) == 1)
        value -= (int64_t)1 << width;
    return value;
}

/* The same field, written. */
void second_put_bits(unsigned char *bytes, int first, int width, int64_t value)
{
    for (int i = first + width - 1; i >= first; i--) {
        int mask = 0x80 >> i % 8;
        if (value % 2 == 1)
            bytes[i / 8] = (unsigned char)(bytes[i / 8] | mask);
        else
            bytes[i / 8] = (unsigned char)(bytes[i / 8] & ~mask);
        value /= 2;
    }
}
