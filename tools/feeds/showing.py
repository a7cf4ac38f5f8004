"""A feed to its text; any bytes have one, and `make` of it gives the same bytes."""

from fractions import Fraction

from .binary32 import MINUS, nearest_bits, value_of
from .records import (BLOCK_BYTES, BLOCK_WIDTHS, CONSIST_BYTES, PROFILE_BYTES, PROFILE_WIDTHS, SAMPLE_BYTES, SAMPLE_MARK,
                      SAMPLE_WIDTHS, TARGET_BYTES, TARGET_WIDTHS, consist_of, unpack)

LEAST_SHOWN = Fraction(1, 10000)


def show_reading(bits):
    """The shortest decimal that gives these bits again, or the bits."""
    if bits >> 23 & 255 < 255:
        value = value_of(bits)
        sign = "-" if bits & MINUS else ""
        if value == 0:
            return sign + "0.0"
        if LEAST_SHOWN <= value < 1000000:
            number, divisor = 2 * value.numerator, 2 * value.denominator
            for places in range(1, 10):
                scaled = (number * 10 ** places + divisor // 2) // divisor
                if nearest_bits(scaled, 10 ** places) == bits & ~MINUS:
                    digits = str(scaled).rjust(places + 1, "0")
                    return "%s%s.%s" % (sign, digits[:-places], digits[-places:])
    return "bits 0x%08x" % bits


def show_sample(data):
    mark, time, present, spare, head, speed, front, rear = unpack(data, SAMPLE_WIDTHS)
    if present:
        rear_text = show_reading(rear)
    else:
        rear_text = "lost bits 0x%08x" % rear if rear else "lost"
    text = "sample %d head %d speed %s front %s rear %s" % (
        time, head, show_reading(speed), show_reading(front), rear_text)
    if mark != SAMPLE_MARK:
        text += " mark 0x%02x" % mark
    if spare:
        text += " spare %d" % spare
    return text


def show_block(data):
    length, weight, spare = unpack(data, BLOCK_WIDTHS)
    text = "block %d %d" % (length, weight)
    if spare:
        text += " spare %d" % spare
    return text


def show_profile(data):
    start, grade, curve, spare = unpack(data, PROFILE_WIDTHS)
    if grade >= 1024:
        grade -= 2048
    text = "profile %d" % start
    if grade or curve:
        text += " grade %d curve %d" % (grade, curve)
    if spare:
        text += " spare %d" % spare
    return text


def show_target(data):
    return "target %d speed %d" % tuple(unpack(data, TARGET_WIDTHS))


class Shower:
    """Takes a feed's parts from the front and holds their text.  A part answers whether it is whole."""

    def __init__(self, data):
        self.data = data
        self.place = 0
        self.lines = []

    def left(self):
        return len(self.data) - self.place

    def take(self, count):
        self.place += count
        return self.data[self.place - count:self.place]

    def records(self, most, size, show_record):
        """As many whole records as there are."""
        count = min(most, self.left() // size)
        self.lines += [show_record(self.take(size)) for _ in range(count)]
        return count

    def consist(self):
        self.lines.append("# consist")
        if self.left() < CONSIST_BYTES:
            return False
        self.lines += ["%s %d" % pair for pair in consist_of(self.take(CONSIST_BYTES)).items()]
        return True

    def table(self, count_name, count_bytes, size, show_record):
        """Records after their count, which is shown where the lines do not tell it."""
        if self.left() < count_bytes:
            return False
        count = int.from_bytes(self.take(count_bytes), "big")
        place = len(self.lines)
        whole = self.records(count, size, show_record)
        if whole < count or count == 0:
            self.lines.insert(place, "%s %d" % (count_name, count))
        return whole == count

    def blocks(self):
        self.lines.append("# blocks")
        return self.table("block-count", 1, BLOCK_BYTES, show_block)

    def profile(self):
        self.lines.append("# profile")
        return self.table("profile-count", 2, PROFILE_BYTES, show_profile)

    def targets(self):
        self.lines.append("# targets")
        return self.table("target-count", 1, TARGET_BYTES, show_target)

    def samples(self):
        self.lines.append("# samples")
        self.records(self.left(), SAMPLE_BYTES, show_sample)

    def rest(self):
        if self.left():
            self.lines.append("raw " + self.take(self.left()).hex())


def show(data):
    """The lines of a feed's text."""
    shower = Shower(data)
    whole = shower.consist() and shower.blocks() and shower.profile() and shower.targets()
    if whole:
        shower.samples()
    shower.rest()
    return shower.lines + ([] if whole else ["cut"])
