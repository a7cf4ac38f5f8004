"""A readable text to the feed that it states; `feed help` says how a text is written."""

from .records import (BLOCK_WIDTHS, CONSIST_NAMES, CONSIST_WIDTHS, LAST_TIME, SAMPLE_MARK, pack_block, pack_consist,
                      pack_profile, pack_sample, pack_target)
from .words import Line

# The parts, in the order of the feed.
CONSIST, BLOCKS, PROFILE, TARGETS, SAMPLES = range(5)
PART_NAMES = ("the consist", "the blocks", "the profile", "the targets", "the samples")
READINGS = ("head", "speed", "front", "rear")


class Part:
    """The bytes of a part as far as stated."""

    def __init__(self):
        self.pieces = []           # bytes; None stands for the consist's nine fields
        self.records = 0
        self.count = None          # where the text states one

    def add(self, record):
        self.pieces.append(record)
        self.records += 1

    def counted(self, size):
        """The count in so many bytes, and the records."""
        count = self.records if self.count is None else self.count
        return [count.to_bytes(size, "big")] + self.pieces


class Maker:
    """Takes a text line by line and holds the feed's parts as far as stated."""

    def __init__(self):
        self.line = None
        self.now = CONSIST
        self.was_cut = False
        self.fields = {}
        self.parts = [Part() for _ in PART_NAMES]

    def enter(self, part):
        """The line belongs to that part; the parts before it are complete."""
        if part < self.now:
            self.line.bad("%s cannot come after %s" % (PART_NAMES[part], PART_NAMES[self.now]))
        while self.now < part:
            self.check_part()
            self.now += 1
        return self.parts[part]

    def check_part(self):
        """The current part has all it needs."""
        part = self.parts[self.now]
        if self.now == CONSIST and (self.fields or not part.pieces):
            missing = [name for name in CONSIST_NAMES if name not in self.fields]
            if missing:
                self.line.bad("the consist needs %s" % ", ".join(missing))
        elif self.now == BLOCKS:
            self.check_lines("block", 255)
        elif self.now == PROFILE:
            if part.count is None and not part.records:
                self.line.bad("there is no profile")
            self.check_lines("profile", 65535)
        elif self.now == TARGETS:
            self.check_lines("target", 255)

    def check_lines(self, name, most):
        """The current part's count tells how many lines it has, or is stated."""
        part = self.parts[self.now]
        if part.count is None and part.records > most:
            self.line.bad("more than %d %s lines need a %s-count" % (most, name, name))

    def take(self, line):
        """One line."""
        self.line = line
        if not line.words:
            return
        if self.was_cut:
            line.bad("nothing may follow cut")
        name = line.next()
        if name in CONSIST_NAMES:
            self.take_field(name)
        elif name in ("block", "profile", "target", "sample", "raw", "cut"):
            getattr(self, "take_" + name)()
        elif name == "block-count":
            self.take_count(BLOCKS, name, 255)
        elif name == "profile-count":
            self.take_count(PROFILE, name, 65535)
        elif name == "target-count":
            self.take_count(TARGETS, name, 255)
        else:
            line.bad("unknown word %s" % name)

    def take_field(self, name):
        part = self.enter(CONSIST)
        if name in self.fields:
            self.line.bad("%s is given twice" % name)
        width = CONSIST_WIDTHS[CONSIST_NAMES.index(name)]
        value = self.line.only_number(name, (1 << width) - 1)
        if not self.fields:
            part.pieces.append(None)
        self.fields[name] = value

    def take_count(self, place, name, greatest):
        part = self.enter(place)
        if part.count is not None:
            self.line.bad("%s is given twice" % name)
        part.count = self.line.only_number(name, greatest)

    def take_block(self):
        part = self.enter(BLOCKS)
        if len(self.line.words) < 2:
            self.line.bad("block needs its length and weight")
        length, weight = (self.line.number_of(name, 0, (1 << width) - 1)
                          for name, width in zip(("length", "weight"), BLOCK_WIDTHS))
        more = self.line.options("block", {"spare": (0, 3, 0)})
        part.add(pack_block(length, weight, **more))

    def take_profile(self):
        part = self.enter(PROFILE)
        if not self.line.words:
            self.line.bad("profile needs its start")
        start = self.line.number_of("start", 0, (1 << 24) - 1)
        more = self.line.options("profile", {
            "grade": (-1024, 1023, 0), "curve": (0, 2047, 0), "spare": (0, 3, 0)})
        part.add(pack_profile(start, **more))

    def take_target(self):
        part = self.enter(TARGETS)
        if not self.line.words:
            self.line.bad("target needs its location")
        location = self.line.number_of("location", 0, (1 << 24) - 1)
        speed = self.line.options("target", {"speed": (0, 65535, None)})["speed"]
        if speed is None:
            self.line.bad("target needs its speed")
        part.add(pack_target(location, speed))

    def take_sample(self):
        part = self.enter(SAMPLES)
        if not self.line.words:
            self.line.bad("sample needs its time")
        time = self.line.number_of("time", 0, LAST_TIME)
        values, lost_bits = self.readings()
        for name in READINGS:
            if name not in values:
                self.line.bad("sample needs %s" % name)
        more = self.line.options("sample", {"mark": (0, 255, SAMPLE_MARK), "spare": (0, 127, 0)})
        data = pack_sample(time, **values, **more)
        if values["rear"] is None:
            data = data[:16] + lost_bits.to_bytes(4, "big")
        part.add(data)

    def readings(self):
        """Head and readings by name, rear None where it is lost; and a lost rear's bits."""
        values, lost_bits = {}, 0
        while self.line.words and self.line.words[0] in READINGS:
            name = self.line.next()
            if name in values:
                self.line.bad("%s is given twice" % name)
            if not self.line.words:
                self.line.bad("%s needs a value" % name)
            if name == "head":
                values[name] = self.line.number_of(name, 0, (1 << 24) - 1)
            elif name == "rear" and self.line.begins("lost"):
                values[name] = None
                if self.line.begins("bits"):
                    lost_bits = self.line.bits(name)
            else:
                values[name] = self.line.reading(name)
        return values, lost_bits

    def take_raw(self):
        digits = "".join(self.line.words)
        if not digits or len(digits) % 2 == 1 \
                or any(digit not in "0123456789abcdefABCDEF" for digit in digits):
            self.line.bad("raw needs pairs of hexadecimal digits")
        self.parts[self.now].pieces.append(bytes.fromhex(digits))

    def take_cut(self):
        if self.line.words:
            self.line.bad("cut stands alone")
        if self.now > CONSIST or self.fields:
            self.check_part()
        self.was_cut = True

    def feed(self):
        """All the bytes, once the text has ended."""
        if not self.was_cut:
            self.enter(SAMPLES)
        consist, blocks, profile, targets, samples = self.parts
        out = [pack_consist(self.fields) if piece is None else piece for piece in consist.pieces]
        if self.now >= BLOCKS:
            out += blocks.counted(1)
        if self.now >= PROFILE:
            out += profile.counted(2)
        if self.now >= TARGETS:
            out += targets.counted(1)
        return b"".join(out + samples.pieces)


def make(text):
    """The feed that a text states; BadText where it states none."""
    maker = Maker()
    lines = text.split("\n")
    for number, words in enumerate(lines, 1):
        maker.take(Line(number, words))
    # what is missing is told of the last line
    maker.line = Line(max(1, len(lines) - text.endswith("\n")), "")
    return maker.feed()
