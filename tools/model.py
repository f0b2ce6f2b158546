"""The reference model: it runs the commands of docs/SCRIPT.md on lists of bits, and keeps a whole copy of every committed bitmap."""

from typing import NamedTuple, Optional

LAST = 2**64 - 1
DIGITS = bytes.maketrans(bytes([0, 1]), b"01")


class Refused(Exception):
    """The reason why a command is refused, as it is printed."""


class Bitmap(NamedTuple):
    pruned: int = 0
    bits: tuple = ()


class Commit(NamedTuple):
    bitmap: Bitmap
    most: int  # the most entries that its reverse record may have


class State(NamedTuple):
    current: Bitmap = Bitmap()
    pending: Optional[Bitmap] = None
    touched: frozenset = frozenset()  # the chunks that the batch has touched
    history: dict = {}  # the kept commits by number, ascending
    last: Optional[int] = None  # the number last committed or rewound to


class Step(NamedTuple):
    """The result of a command: the printed line, or the most entries that it may print, and the state after it."""

    reply: object
    state: State
    allocates: bool = False  # the command may run out of memory instead, which leaves the state as it was


def bits_of(data):
    """The bits of some bytes, the lowest bit of each byte first."""
    return tuple(byte >> place & 1 for byte in data for place in range(8))


def bytes_of(bits):
    """The bytes of some bits. The last byte is filled with zeros."""
    digits = bytes(reversed(bits)).translate(DIGITS)
    return int(digits or b"0", 2).to_bytes(-(-len(bits) // 8), "little")


def admits(ends, number):
    """Whether a range of the script language contains a number."""
    kind, *ends = ends.split(":")
    low, high = int(ends[0]) if ends else 0, int(ends[-1]) if ends else LAST
    return (kind == "most" or low <= number) and (kind == "least" or number <= high)


class Model:
    """Runs commands on bitmaps whose chunks have `width` bytes."""

    EDITS = {"push", "push-byte", "push-chunk", "pop", "set", "prune", "commit", "abort"}
    EITHER = {"len", "pruned-chunks", "get", "chunk", "decode"}
    # The arguments of these commands are hexadecimal digits or a range, not numbers.
    WITHOUT_NUMBERS = {"push-byte", "push-chunk", "decode"}

    def __init__(self, width):
        self.width, self.chunk_bits = width, 8 * width

    def step(self, state, words):
        """The result of a command, which is given as its words."""
        name, *given = words
        if name not in self.WITHOUT_NUMBERS:
            given = [int(word) for word in given]
        try:
            if name not in self.EITHER and (name in self.EDITS) != (state.pending is not None):
                raise Refused("wrong-mode")
            return getattr(self, name.replace("-", "_"))(state, *given)
        except Refused as why:
            return Step(f"refused {why}", state)

    # Bitmaps

    def first(self, bitmap):
        """The position of the first retained bit."""
        return self.chunk_bits * bitmap.pruned

    def length(self, bitmap):
        return self.first(bitmap) + len(bitmap.bits)

    def chunks(self, bitmap):
        """The number of chunks, pruned or retained."""
        return -(-self.length(bitmap) // self.chunk_bits)

    def index(self, bitmap, position):
        """The index of a position among the retained bits."""
        if position >= self.length(bitmap):
            raise Refused("out-of-bounds")
        if position < self.first(bitmap):
            raise Refused("pruned")
        return position - self.first(bitmap)

    def shown(self, bitmap):
        return f"{bitmap.pruned} {bytes(bitmap.bits).translate(DIGITS).decode() or '-'}"

    def set_positions(self, bitmap, start, end):
        first = self.first(bitmap)
        found = (first + at for at, bit in enumerate(bitmap.bits) if bit)
        return "positions" + "".join(f" {position}" for position in found if start <= position < end)

    def encoded(self, bitmap):
        data = bytes_of(bitmap.bits)
        data += bytes(-len(data) % self.width)
        return f"bytes {(bitmap.pruned.to_bytes(8, 'big') + len(bitmap.bits).to_bytes(8, 'big') + data).hex()}"

    def decoded(self, data, ends):
        """The bitmap that some bytes begin with, and the number of bytes after it."""
        pruned, count = int.from_bytes(data[:8], "big"), int.from_bytes(data[8:16], "big")
        end = 16 + -(-count // self.chunk_bits) * self.width
        bits = bits_of(data[16:end])
        errors = (
            (len(data) < 8, "end-of-buffer"),
            (self.chunk_bits * pruned > LAST, "invalid Prunable: pruned_chunks would overflow when computing pruned_bits"),
            (len(data) < 16, "end-of-buffer"),
            (not admits(ends, count), f"invalid-length {count}"),
            (len(data) < end, "end-of-buffer"),
            (any(bits[count:]), "invalid BitMap: Invalid trailing bits in encoded data"),
            (self.chunk_bits * pruned + count > LAST, "invalid Prunable: total bitmap length (pruned + unpruned) would overflow u64"),
        )
        for holds, error in errors:
            if holds:
                raise Refused(f"codec {error}")
        return Bitmap(pruned, bits[:count]), len(data) - end

    # Commands that need a batch

    def edited(self, state, bitmap, touched, reply="done", allocates=True):
        return Step(reply, state._replace(pending=bitmap, touched=state.touched | set(touched)), allocates)

    def append(self, state, bits):
        start = self.length(state.pending)
        if start + len(bits) > LAST:
            raise Refused("too-long")
        touched = range(start // self.chunk_bits, (start + len(bits) - 1) // self.chunk_bits + 1)
        return self.edited(state, state.pending._replace(bits=state.pending.bits + bits), touched)

    def push(self, state, bit):
        return self.append(state, (bit,))

    def push_byte(self, state, digits):
        return self.append(state, bits_of(bytes.fromhex(digits)))

    def push_chunk(self, state, digits):
        return self.append(state, bits_of(bytes.fromhex(digits)))

    def pop(self, state):
        bits = state.pending.bits
        if not bits:
            raise Refused("no-retained-bit")
        bitmap = state.pending._replace(bits=bits[:-1])
        return self.edited(state, bitmap, {self.length(bitmap) // self.chunk_bits}, f"bit {bits[-1]}", allocates=False)

    def set(self, state, position, bit):
        at, bits = self.index(state.pending, position), state.pending.bits
        bitmap = state.pending._replace(bits=bits[:at] + (bit,) + bits[at + 1 :])
        return self.edited(state, bitmap, {position // self.chunk_bits})

    def prune(self, state, position):
        before = state.pending
        if position > self.length(before):
            raise Refused("out-of-bounds")
        pruned = max(before.pruned, position // self.chunk_bits)
        bits = before.bits[(pruned - before.pruned) * self.chunk_bits :]
        return self.edited(state, Bitmap(pruned, bits), range(before.pruned, pruned), allocates=pruned > before.pruned)

    def most_entries(self, state):
        """The most entries of a commit's reverse record: one per touched chunk, and one more if the batch has popped down to whole chunks."""
        length = self.length(state.pending)
        return len(state.touched) + (length % self.chunk_bits == 0 and length < self.length(state.current))

    def commit(self, state, number):
        if number == LAST:
            raise Refused("reserved-commit-number")
        if state.last is not None and number <= state.last:
            raise Refused(f"non-monotonic-commit {state.last} {number}")
        kept = {**state.history, number: Commit(state.pending, self.most_entries(state))}
        return Step("done", State(current=state.pending, history=kept, last=number), True)

    def abort(self, state):
        return Step("done", state._replace(pending=None, touched=frozenset()))

    # Commands that run with and without a batch

    def len(self, state):
        return Step(f"number {self.length(state.pending or state.current)}", state)

    def pruned_chunks(self, state):
        return Step(f"number {(state.pending or state.current).pruned}", state)

    def get(self, state, position):
        bitmap = state.pending or state.current
        return Step(f"bit {bitmap.bits[self.index(bitmap, position)]}", state)

    def chunk(self, state, position):
        bitmap = state.pending or state.current
        start = self.index(bitmap, position) // self.chunk_bits * self.chunk_bits
        return Step(f"chunk {bytes_of(bitmap.bits[start : start + self.chunk_bits]).ljust(self.width, bytes(1)).hex()}", state)

    def decode(self, state, digits, ends):
        bitmap, left = self.decoded(bytes.fromhex(digits.strip("-")), ends)
        return Step(f"read {self.shown(bitmap)} {left}", state, True)

    # Commands that need that there is no batch

    def start(self, _state, chunks):
        if self.chunk_bits * chunks > LAST:
            raise Refused("pruned-chunks-overflow")
        return Step("done", State(current=Bitmap(chunks)))

    def begin(self, state):
        return Step("done", state._replace(pending=state.current))

    def rewind(self, state, number):
        if number not in state.history:
            raise Refused("no-such-commit")
        kept = {each: commit for each, commit in state.history.items() if each <= number}
        return Step("done", State(current=kept[number].bitmap, history=kept, last=number), True)

    def ones(self, state, start, end):
        return Step(self.set_positions(state.current, start, end), state, True)

    def encode(self, state):
        return Step(self.encoded(state.current), state, True)

    def past(self, state, number, show):
        if number not in state.history:
            return Step("none", state)
        return Step(show(state.history[number].bitmap), state, True)

    def at(self, state, number):
        return self.past(state, number, lambda bitmap: f"bitmap {self.shown(bitmap)}")

    def ones_at(self, state, number, start, end):
        return self.past(state, number, lambda bitmap: self.set_positions(bitmap, start, end))

    def encode_at(self, state, number):
        return self.past(state, number, self.encoded)

    def commits(self, state):
        return Step("positions" + "".join(f" {number}" for number in state.history), state, True)

    def exists(self, state, number):
        return Step(f"bit {int(number in state.history)}", state)

    def latest(self, state):
        return Step(f"some {max(state.history)}" if state.history else "none", state)

    def earliest(self, state):
        return Step(f"some {min(state.history)}" if state.history else "none", state)

    def drop_before(self, state, number):
        kept = {each: commit for each, commit in state.history.items() if each >= number}
        return Step(f"number {len(state.history) - len(kept)}", state._replace(history=kept))

    def clear(self, state):
        return Step("done", state._replace(history={}))

    def entries(self, state):
        return Step(sum(commit.most for commit in state.history.values()), state)
