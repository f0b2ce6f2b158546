"""Inputs that no library has written, for the readers of logs, histories and deltas: random bytes, and forged ones, whose checks and digests are
right and whose fields are near 2^63 or 2^64, or ask for much more memory than the bytes behind them. And large logs that take the most memory.

tools/check_logs.py reads them, and compares the results with tools/formats.py.
"""

from typing import NamedTuple

from formats import (
    BASE, CLEAR, COMMIT, DELTA_MAGIC, DROP, LOG_MAGIC, RESERVED, REWIND, VERSION, Change, Entry, Historical, State, be64, digest, first_place, frame,
    framed, header, write_base,
)

# How many bytes the commits and the base of a large log have, or a few more.
LARGE = 1 << 18


def extremes(width):
    """Numbers at which sums and products do not fit 64 bits, and counts that ask for much memory."""
    bits = 8 * width
    most = RESERVED // bits  # so many whole chunks have bits whose number fits
    counts = [0, 1, bits, 2**20, 2**32, 2**40, RESERVED // (8 + width), most - 1, most, most + 1]
    last = [RESERVED - less for less in (bits, 24, 16, 8, 7, 1, 0)]
    return [*counts, 2**61 - 1, 2**61, 2**63 - 1, 2**63, 2**63 + 1, *last]


# Random inputs


def lengths(chance):
    """Lengths of inputs: short ones, those of the fixed parts and their neighbours, and a few long ones."""
    near = [size + chance.randint(-1, 1) for size in (32, 48, 58, 88, 90)]
    return [*chance.sample(range(100), 12), *near, *(chance.randrange(5000) for _ in range(4))]


def random_logs(formats, chance):
    """Random bytes, also after the magic, after a header, and as a body whose frame is right."""
    start = header(formats.width)
    base = start + frame(first_place(start), formats.base_of(Historical()))[0]
    for length in lengths(chance):
        data = chance.randbytes(length)
        yield data
        yield LOG_MAGIC + data
        yield start + data
        yield base + data
        if data:
            tag = bytes([chance.choice([BASE, COMMIT, REWIND, DROP, CLEAR, *range(8)])])
            yield start + frame(first_place(start), tag + data)[0]


def random_deltas(chance):
    """Random bytes, also after the magic and the version, and before a digest that is right."""
    for length in lengths(chance):
        data = chance.randbytes(length)
        yield data
        yield DELTA_MAGIC + data
        yield with_digest(DELTA_MAGIC + be64(VERSION) + data)


def with_digest(data):
    return data + be64(digest(data))


# Forged inputs


class Forger:
    """Makes bytes whose checks and digests are right, and whose fields are chosen."""

    def __init__(self, formats, chance):
        self.formats, self.chance, self.extremes = formats, chance, extremes(formats.width)

    def number(self, *usual):
        """An extreme number, or a usual one if that fits 64 bits."""
        return min(self.chance.choice([self.chance.choice(self.extremes), *usual]), RESERVED)

    def data(self, count):
        """The bytes of some chunks."""
        return bytes(self.formats.width * count) if self.chance.random() < 0.5 else self.chance.randbytes(self.formats.width * count)

    def head(self, place):
        """What begins as a frame of any length does, and ends soon after."""
        length = self.number()
        return be64(length) + be64(digest(be64(place.at) + be64(length))) + self.chance.randbytes(self.chance.randrange(40))

    def base(self):
        """The body of a base."""
        state = be64(self.number(0, 0)) + be64(self.number(0, self.formats.chunk_bits)) + self.data(self.chance.randrange(3))
        return write_base(self.chance.choice([0, 1, 2, 2, 2, 3]), self.number(0, 1), self.number(0, 0), state)

    def far_change(self, old):
        """A change that prunes all chunks of a state, and far more, and keeps a bit or a few chunks. It is accepted if its length fits 64 bits."""
        bits, chance = self.formats.chunk_bits, self.chance
        pruned = max(self.number(), self.formats.chunks(old.length))
        retained = chance.choice([0, 1, bits, 2 * bits - 1])
        chunks = tuple((pruned + at, bytes([1]) + bytes(self.formats.width - 1)) for at in range(self.formats.chunks(retained)))
        length = bits * pruned + retained
        return Change(length, pruned, chunks) if length <= RESERVED and pruned + 2 <= RESERVED else self.change(old)

    def change(self, old):
        """A change with any length, pruned count and list."""
        after = self.formats.chunks(old.length)
        indices = sorted(self.number(old.pruned, after, after + 1) for _ in range(self.chance.randrange(3)))
        length = self.number(old.length, old.length + 1, old.length + self.formats.chunk_bits)
        return Change(length, self.number(old.pruned, old.pruned, after), tuple((index, self.data(1)) for index in indices))

    def any_change(self, old):
        return self.far_change(old) if self.chance.random() < 0.4 else self.change(old)

    def body(self, bitmap):
        """The body of an entry for a bitmap."""
        after = 0 if bitmap.last is None else min(bitmap.last + 1, RESERVED)
        if self.chance.random() < 0.2:
            return self.formats.write_entry(Entry(self.chance.choice([REWIND, DROP]), self.number(*bitmap.kept)))
        return self.formats.write_entry(Entry(COMMIT, self.number(after, after, after), self.any_change(bitmap.current)))

    def log(self, data, marks):
        """A log with a forged head, a forged base, or a forged entry after one of its frames, and then one that rewinds or clears."""
        start, kind = data[:32], self.chance.randrange(4)
        if kind == 0:
            place = self.chance.choice([first_place(start), *(place for place, _ in marks)])
            return data[: place.at] + self.head(place)
        if kind == 1:
            return start + frame(first_place(start), self.base())[0]
        place, bitmap = self.chance.choice(marks)
        last = self.chance.choice([bytes([CLEAR]), bytes([REWIND]) + be64(self.number(*bitmap.kept))])
        return data[: place.at] + framed(place, [self.body(bitmap), last])[0]

    def history(self):
        """A history with a forged base, and a few commits after it."""
        start = header(self.formats.width)
        commits = [self.formats.write_entry(Entry(COMMIT, number, Change(0, 0, ()))) for number in range(2, 2 + self.chance.randrange(3))]
        state = self.formats.write_pruned(State())
        base = self.base() if self.chance.random() < 0.5 else write_base(2, 1, self.number(len(commits)), state)
        return start + framed(first_place(start), [base, *commits])[0]

    def delta(self, bitmap):
        """A delta for a bitmap, of which some numbers are forged."""
        old, last = bitmap.current, bitmap.last or 0
        if self.chance.random() < 0.3:
            old = old._replace(pruned=self.number(old.pruned), length=self.number(old.length))
        change, older = self.any_change(bitmap.current), self.number(last, last, last)
        return self.formats.write_delta(older, old, self.number(last + 1, last + 1), change)


# Large inputs


class Large(NamedTuple):
    """A large input: what it is, its bytes, and how many chunks its base and its commits have in them."""

    name: str
    data: bytes
    chunks: int


class LargeInputs:
    """Makes the inputs of some 256 KiB that take the most memory for their bytes. The bits of the old chunks alternate, as do those of the new."""

    def __init__(self, formats):
        self.formats = formats
        self.old, self.new = bytes([0x55]) * formats.width, bytes([0xAA]) * formats.width
        # As many chunks as fit the list of a commit, and a base.
        self.listed, self.held = LARGE // (8 + formats.width), LARGE // formats.width

    def base(self, count, commits=0):
        """The body of a base of so many chunks, kept under 1."""
        return write_base(2, 1, commits, be64(0) + be64(self.formats.chunk_bits * count) + self.old * count)

    def change(self, length, pruned=0, indices=(), data=None):
        """A change to a length and a pruned count, both in chunks, with some chunks."""
        return Change(self.formats.chunk_bits * length, pruned, tuple((index, data or self.new) for index in indices))

    def commit(self, number, *change):
        return self.formats.write_entry(Entry(COMMIT, number, self.change(*change)))

    def history(self, *bodies):
        start = header(self.formats.width)
        return start + framed(first_place(start), bodies)[0]

    def logs(self):
        """Logs. Each ends in damage, so that what is read is not printed."""
        listed, held, far = self.listed, self.held, 10 * self.listed
        spread = 17 * (listed // 17)
        rewind = bytes([REWIND]) + be64(1)
        pairs = [(number, (self.new, self.old)[number % 2]) for number in range(2, 2 + LARGE // (57 + self.formats.width))]
        bodies = {
            "chunks that are appended": (listed, self.base(0), self.commit(2, listed, 0, range(listed))),
            "chunks that are replaced, and a rewind": (2 * listed, self.base(listed), self.commit(2, listed, 0, range(listed)), rewind),
            "every 17th chunk is replaced": (spread + spread // 17, self.base(spread), self.commit(2, spread, 0, range(0, spread, 17))),
            "chunks that are pruned, and a rewind": (held, self.base(held), self.commit(2, held, held), rewind),
            "chunks that are cut off, and a rewind": (held, self.base(held), self.commit(2, 0), rewind),
            "chunks that are appended and pruned, and a rewind": (
                listed, self.base(0), self.commit(2, listed, 0, range(listed)), self.commit(3, listed, listed), bytes([REWIND]) + be64(2)),
            "other chunks far away, and a rewind": (
                2 * listed, self.base(listed), self.commit(2, far + listed, far, range(far, far + listed)), rewind),
            "commits without chunks": (1, self.base(1), *(self.commit(number, 1) for number in range(2, 2 + LARGE // 49))),
            "commits of one chunk": (len(pairs), self.base(1), *(self.commit(number, 1, 0, [0], data) for number, data in pairs)),
        }
        for name, (chunks, *entries) in bodies.items():
            yield Large(name, self.history(*entries) + bytes([255]) * 16, chunks)

    def histories(self):
        """Histories. Each lacks its last byte, so that what is read is not printed."""
        listed, held = self.listed, self.held
        yield Large("a history of chunks that are pruned", self.history(self.base(held, 1), self.commit(2, held, held))[:-1], held)
        replaced = self.history(self.base(listed, 2), self.commit(2, listed, 0, range(listed)), self.commit(3, 0))
        yield Large("a history of chunks that are replaced", replaced[:-1], 2 * listed)

    def delta(self, bitmap):
        """A delta that appends chunks to a bitmap."""
        data = self.formats.write_delta(bitmap.last, bitmap.current, bitmap.last + 1, self.change(self.listed, 0, range(self.listed)))
        return Large("a delta of chunks that are appended", data, self.listed)
