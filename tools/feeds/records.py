"""The records of a feed and their layouts: fields of so many bits, most significant first."""

# name, bits, least, greatest
CONSIST = (
    ("cars", 9, 1, 250),
    ("axles", 11, 2, 2000),
    ("weight", 15, 10, 30000),
    ("length", 15, 50, 20000),
    ("rated", 24, 0, 10000000),
    ("application", 18, 1000, 240000),
    ("recharge", 10, 1, 1000),
    ("set", 14, 7000, 11000),
    ("offset", 12, 0, 4000),
)
CONSIST_NAMES = tuple(name for name, _, _, _ in CONSIST)
CONSIST_WIDTHS = tuple(width for _, width, _, _ in CONSIST)
CONSIST_BYTES = 16                              # without its blocks
BLOCK_WIDTHS = (15, 15, 2)                      # length, weight, spare
BLOCK_BYTES = 4
MOST_BLOCKS = 64
PROFILE_WIDTHS = (24, 11, 11, 2)                # start, grade, curve, spare
PROFILE_BYTES = 6
TARGET_WIDTHS = (24, 16)                        # location, speed
TARGET_BYTES = 5
SAMPLE_WIDTHS = (8, 24, 1, 7, 24, 32, 32, 32)   # mark, time, present, spare, head, three readings
SAMPLE_BYTES = 20
SAMPLE_MARK = 0x53
LAST_FOOT = 4000000
REACH = 32768
LAST_TIME = (1 << 24) - 1


def pack(values, widths):
    """The bytes of fields."""
    number = 0
    for value, width in zip(values, widths):
        number = number << width | value & (1 << width) - 1
    return number.to_bytes(sum(widths) // 8, "big")


def unpack(data, widths):
    """The fields of those widths, as a list."""
    number = int.from_bytes(data, "big")
    left = 8 * len(data)
    values = []
    for width in widths:
        left -= width
        values.append(number >> left & (1 << width) - 1)
    return values


def pack_consist(consist):
    return pack([consist[name] for name in CONSIST_NAMES], CONSIST_WIDTHS)


def consist_of(data):
    """The consist that a feed begins with, as a dictionary."""
    return dict(zip(CONSIST_NAMES, unpack(data[:CONSIST_BYTES], CONSIST_WIDTHS)))


def pack_block(length, weight, spare=0):
    return pack((length, weight, spare), BLOCK_WIDTHS)


def block_count(data):
    """How many blocks a feed says it has; 0 where it ends before that."""
    return int.from_bytes(data[CONSIST_BYTES:CONSIST_BYTES + 1], "big")


def blocks_of(consist):
    """The blocks behind a consist's 16 bytes, head end first, as pack_block takes them; bytes that make no whole one count for
    nothing."""
    return [tuple(unpack(consist[place:place + BLOCK_BYTES], BLOCK_WIDTHS))
            for place in range(CONSIST_BYTES, len(consist) - BLOCK_BYTES + 1, BLOCK_BYTES)]


def pack_profile(start, grade=0, curve=0, spare=0):
    return pack((start, grade, curve, spare), PROFILE_WIDTHS)


def profile_of(data):
    """The records that follow a profile's count, as pack_profile takes them."""
    records = (unpack(data[place:place + PROFILE_BYTES], PROFILE_WIDTHS) for place in range(2, len(data), PROFILE_BYTES))
    return [(start, grade - 2048 * (grade >> 10), curve, spare) for start, grade, curve, spare in records]


def pack_target(location, speed):
    return pack((location, speed), TARGET_WIDTHS)


def pack_sample(time, head, speed, front, rear, mark=SAMPLE_MARK, spare=0):
    """The readings are 32 bits each; rear is None where it is lost."""
    present = 0 if rear is None else 1
    return pack((mark, time, present, spare, head, speed, front, rear or 0), SAMPLE_WIDTHS)


class Feed:
    """A feed's parts while it is being made."""

    def __init__(self, consist):
        self.consist = consist
        self.blocks = []           # (length, weight), or with spare behind them
        self.profile = []          # (start, grade, curve, spare)
        self.targets = []          # (location, speed)
        self.samples = []          # bytes
        self.block_count = None    # where it is not the number of records
        self.profile_count = None
        self.target_count = None

    def bytes(self):
        return b"".join([pack_consist(self.consist)]
                        + counted(self.block_count, 1, pack_block, self.blocks)
                        + counted(self.profile_count, 2, pack_profile, self.profile)
                        + counted(self.target_count, 1, pack_target, self.targets)
                        + self.samples)


def counted(count, size, pack_record, records):
    """A count in so many bytes, that of the records where it is None, and their bytes."""
    count = len(records) if count is None else count
    return [count.to_bytes(size, "big")] + [pack_record(*record) for record in records]


def split(data):
    """Of a whole feed: the consist and its blocks, as a session is opened with them, without the
    count between; profile count and profile; target count and targets; samples, of which the last
    may be short.  IndexError where the feed ends before its targets."""
    block_end = CONSIST_BYTES + 1 + BLOCK_BYTES * data[CONSIST_BYTES]
    profile_end = block_end + 2 + PROFILE_BYTES * int.from_bytes(data[block_end:block_end + 2], "big")
    target_end = profile_end + 1 + TARGET_BYTES * data[profile_end]
    samples = [data[place:place + SAMPLE_BYTES]
               for place in range(target_end, len(data), SAMPLE_BYTES)]
    consist = data[:CONSIST_BYTES] + data[CONSIST_BYTES + 1:block_end]
    return consist, data[block_end:profile_end], data[profile_end:target_end], samples
