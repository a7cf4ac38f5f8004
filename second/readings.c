/*
 * readings.c - a reading, the 32 bits of a binary32, in hundredths.
 */

/* The reading's value is significand / 2^shift.  Only for bits that
 * second_reading_in_range let pass: then the shift is from 16 to 149 and the
 * significand is below 2^24. */
void second_fraction(int64_t bits, int64_t *significand, int *shift)
{
    int exponent = (int)(bits / 8388608 % 256);
    int64_t fraction = bits % 8388608;
    if (exponent == 0) {
        *significand = fraction;
        *shift = 149;
    } else {
        *significand = fraction + 8388608;
        *shift = 150 - exponent;
    }
}

/* "A present reading is NaN, infinite, below zero, speed above 100 or pressure
 * above 160": refused.  With the sign bit 0 the 32 bits, taken as a whole
 * number, stand in the order of the values, and infinity and the NaNs stand
 * above every value.  100.0 is 42C80000, 160.0 is 43200000.  "Minus zero is
 * zero." */
int second_reading_in_range(int64_t bits, int64_t limit_bits)
{
    return bits <= limit_bits || bits == 0x80000000;
}

/* "Pressure [becomes] 100 times its exact value rounded down." */
int64_t second_hundredths_down(int64_t bits)
{
    int64_t significand;
    int shift;
    second_fraction(bits, &significand, &shift);
    if (shift > 40)              /* 100 x significand is below 2^31 */
        return 0;
    return 100 * significand / ((int64_t)1 << shift);
}

/* "Speed becomes 100 times its exact value rounded up." */
int64_t second_hundredths_up(int64_t bits)
{
    int64_t significand;
    int shift;
    second_fraction(bits, &significand, &shift);
    if (significand == 0)
        return 0;
    if (shift > 40)
        return 1;
    return (int64_t)second_up(100 * significand, (int64_t)1 << shift);
}
