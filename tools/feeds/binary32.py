"""Readings as the 32 bits of a binary32, exactly: no float of this machine's is in between."""

from fractions import Fraction

MINUS = 0x80000000                 # the sign's bit, and minus zero
INFINITE = 0x7F800000


def nearest_bits(number, divisor=1):
    """The binary32 nearest to number / divisor, not negative; ties to even.
    None where that is infinity."""
    if number == 0:
        return 0
    exponent = number.bit_length() - divisor.bit_length()
    if number << max(0, -exponent) < divisor << max(0, exponent):
        exponent -= 1
    exponent = max(exponent, -126)
    shift = 23 - exponent
    number <<= max(0, shift)
    divisor <<= max(0, -shift)
    significand, rest = divmod(number, divisor)
    if 2 * rest > divisor or 2 * rest == divisor and significand % 2 == 1:
        significand += 1
    bits = (exponent + 126 << 23) + significand
    return bits if bits < INFINITE else None


def value_of(bits):
    """The exact value of 32 bits that are finite, its sign left away."""
    exponent = bits >> 23 & 255
    fraction = bits & 0x7FFFFF
    if exponent == 0:
        return Fraction(fraction, 1 << 149)
    shift = exponent - 150
    return Fraction(fraction + 0x800000 << max(0, shift), 1 << max(0, -shift))
