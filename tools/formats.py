#!/usr/bin/env python3
"""A second reader and writer of the byte formats of docs/FORMATS.md. It was written from that page alone, without the sources.

usage: formats.py check                 compares the page's worked bytes and small inputs with what this module writes and reads
       formats.py random COUNT [SEED]   COUNT random historical bitmaps, at each of four widths in turn. Each is written as a log, as a history and
                                        as deltas, and read again: every prefix, and copies with a flipped bit, another body or another list
       formats.py show FILE WIDTH       prints a log or a history: the place of each frame, its entry, and the state after it

Random bitmaps come from the scripts of tools/check_runs.py, with fixed seeds. What is read is compared with the reference model of tools/model.py.
A reader raises `ReadError`. Its text is the name of the error on the page, or says what is wrong if the page has no name for it.
"""

import re
import struct
import sys
from concurrent.futures import ProcessPoolExecutor
from contextlib import contextmanager
from functools import lru_cache, partial
from itertools import chain
from pathlib import Path
from typing import Callable, NamedTuple, Optional

from check_runs import RandomScript
from model import Refused, bytes_of
from replay import TOP, report

PAGE = TOP / "docs/FORMATS.md"
LOG_MAGIC, DELTA_MAGIC, RECEIPT_MAGIC, VERSION = b"MPBITLOG", b"MPBDELTA", b"MPBRECPT", 1
COMMIT, REWIND, DROP, BASE, CLEAR = 1, 2, 3, 4, 5
NAMES = {COMMIT: "commit", REWIND: "rewind", DROP: "drop", BASE: "base", CLEAR: "clear"}
HEADER_SIZE, LEAST_DELTA = 32, 88
RESERVED, BOUND = 2**64 - 1, 2**64
ANY = range(BOUND)

# The errors of bitmaps that have a text.
TRAILING = 'Invalid("BitMap", "Invalid trailing bits in encoded data")'
TOO_MANY_PRUNED = 'Invalid("Prunable", "pruned_chunks would overflow when computing pruned_bits")'
TOO_LONG = 'Invalid("Prunable", "total bitmap length (pruned + unpruned) would overflow u64")'


class ReadError(Exception):
    """Why bytes cannot be read or applied."""


class State(NamedTuple):
    """A state of a bitmap: its pruned count, its length in bits with the pruned ones, and the bytes of its retained chunks."""

    pruned: int = 0
    length: int = 0
    data: bytes = b""


class Historical(NamedTuple):
    """A historical bitmap. The kept states are by number, and ascend."""

    current: State = State()
    kept: dict = {}
    last: Optional[int] = None


class Change(NamedTuple):
    """The length and the pruned count of a new state, and the listed chunks as pairs of an index and bytes."""

    length: int
    pruned: int
    chunks: tuple


class Entry(NamedTuple):
    tag: int
    number: Optional[int] = None
    change: Optional[Change] = None


class Place(NamedTuple):
    """Where a frame is: the number of bytes before it, and the digest of what is before it."""

    at: int
    chain: int


class Step(NamedTuple):
    """A frame of a log: its place, its entry or None for the base, what that makes of the bitmap, and the place after it."""

    place: Place
    entry: Optional[Entry]
    bitmap: Historical
    after: Place


class Recovered(NamedTuple):
    bitmap: Historical
    place: Place
    torn: bool


def refuse(holds, error):
    if holds:
        raise ReadError(error)


@contextmanager
def within(form):
    """Names the error that holds an error: `{}` in the form is the inner one."""
    try:
        yield
    except ReadError as error:
        raise ReadError(form.replace("{}", str(error))) from None


def be64(number):
    return number.to_bytes(8, "big")


def values(data):
    """The numbers of 64 bits that some bytes are."""
    return struct.unpack(f">{len(data) // 8}Q", data)


def value(data):
    return values(data)[0]


def is_set_from(data, position):
    """Whether a bit at or past a position of some bytes is set."""
    return int.from_bytes(data, "little") >> min(position, 8 * len(data)) != 0


# The digest


def rotated(word, count):
    return (word << count | word >> 64 - count) & RESERVED


def sip_round(v0, v1, v2, v3):
    v0 = v0 + v1 & RESERVED
    v1 = rotated(v1, 13) ^ v0
    v0 = rotated(v0, 32)
    v2 = v2 + v3 & RESERVED
    v3 = rotated(v3, 16) ^ v2
    v0 = v0 + v3 & RESERVED
    v3 = rotated(v3, 21) ^ v0
    v2 = v2 + v1 & RESERVED
    v1 = rotated(v1, 17) ^ v2
    return v0, v1, rotated(v2, 32), v3


@lru_cache(maxsize=256)
def digest(data):
    """The SipHash-1-3 of some bytes, as a number. The key is zero. Recent digests are kept, because the prefixes of a log have the same frames."""
    v0, v1, v2, v3 = 0x736F6D6570736575, 0x646F72616E646F6D, 0x6C7967656E657261, 0x7465646279746573
    padded = data + bytes(7 - len(data) % 8) + bytes([len(data) % 256])
    for (word,) in struct.iter_unpack("<Q", padded):
        v0, v1, v2, v3 = sip_round(v0, v1, v2, v3 ^ word)
        v0 ^= word
    v2 ^= 0xFF
    for _ in range(3):
        v0, v1, v2, v3 = sip_round(v0, v1, v2, v3)
    return v0 ^ v1 ^ v2 ^ v3


# Headers and frames


def header(width):
    fields = LOG_MAGIC + be64(VERSION) + be64(width)
    return fields + be64(digest(fields))


def first_place(data):
    """The place after the header that a log begins with."""
    return Place(HEADER_SIZE, value(data[24:HEADER_SIZE]))


def read_header(width, data):
    """The place after the header of a log of that width."""
    refuse(len(data) < HEADER_SIZE, "Short")
    refuse(data[:8] != LOG_MAGIC, "NotALog")
    version, found, check = values(data[8:HEADER_SIZE])
    refuse(version != VERSION, f"Version({version})")
    refuse(check != digest(data[:24]), "BadCheck")
    refuse(found != width, f"Width({found})")
    return first_place(data)


def frame(place, body):
    """The frame of a body at a place, and the place after it."""
    length, last = be64(len(body)), digest(be64(place.chain) + body)
    return length + be64(digest(be64(place.at) + length)) + body + be64(last), Place(place.at + 24 + len(body), last)


def framed(place, bodies):
    """The frames of some bodies from a place on, and the place after them."""
    frames = []
    for body in bodies:
        data, place = frame(place, body)
        frames.append(data)
    return b"".join(frames), place


def next_frame(data, place):
    """The body of the frame at a place, and the place after it."""
    head, start = data[place.at : place.at + 16], place.at + 16
    refuse(len(head) < 16, "Torn")
    refuse(not any(head) and not any(data[start:]), "Torn")
    length, check = values(head)
    refuse(length == 0 or check != digest(be64(place.at) + be64(length)), "BadHead")
    end = start + length
    refuse(len(data) < end + 8, "Torn")
    body = data[start:end]
    last = digest(be64(place.chain) + body)
    refuse(value(data[end : end + 8]) != last, "BadDigest")
    return body, Place(end + 8, last)


def damaged(place, damage):
    return f"Damaged {{ at: {place.at}, {damage} }}"


def write_base(flag, last, count, state):
    """The body of a base. The state is encoded already."""
    return bytes([BASE, flag]) + be64(last) + be64(count) + state


class Formats:
    """Reads and writes the formats of bitmaps whose chunks have `width` bytes."""

    def __init__(self, width):
        self.width, self.chunk_bits = width, 8 * width

    # States

    def chunks(self, length):
        """The number of chunks that so many bits fill."""
        return -(-length // self.chunk_bits)

    def retained(self, state):
        """The number of retained bits."""
        return state.length - self.chunk_bits * state.pruned

    def chunks_of(self, state):
        """The bytes of the retained chunks by index."""
        starts = range(0, len(state.data), self.width)
        return {index: state.data[at : at + self.width] for index, at in enumerate(starts, state.pruned)}

    def state_of(self, bits, pruned=0):
        """The state that retains some bits."""
        data = bytes_of(bits)
        return State(pruned, self.chunk_bits * pruned + len(bits), data + bytes(-len(data) % self.width))

    def digits(self, state):
        """The retained bits as digits, the first one first."""
        count = self.retained(state)
        return f"{int.from_bytes(state.data, 'little'):0{count}b}"[::-1] if count else ""

    # Bitmaps and pruned bitmaps

    def write_bitmap(self, state):
        return be64(state.length) + state.data

    def read_bitmap(self, data, admitted=ANY):
        """The bits that some bytes begin with, and the bytes after them."""
        refuse(len(data) < 8, "EndOfBuffer")
        length = value(data[:8])
        refuse(length not in admitted, f"InvalidLength({length})")
        end = 8 + self.width * self.chunks(length)
        refuse(len(data) < end, "EndOfBuffer")
        refuse(is_set_from(data[8:end], length), TRAILING)
        return State(0, length, data[8:end]), data[end:]

    def write_pruned(self, state):
        return be64(state.pruned) + be64(self.retained(state)) + state.data

    def read_pruned(self, data, admitted=ANY):
        """The state that some bytes begin with, and the bytes after it."""
        refuse(len(data) < 8, "EndOfBuffer")
        pruned = value(data[:8])
        refuse(self.chunk_bits * pruned >= BOUND, TOO_MANY_PRUNED)
        bits, rest = self.read_bitmap(data[8:], admitted)
        length = self.chunk_bits * pruned + bits.length
        refuse(length >= BOUND, TOO_LONG)
        return State(pruned, length, bits.data), rest

    # Bases

    def base_of(self, bitmap):
        """The base of the history of a historical bitmap."""
        for number, state in bitmap.kept.items():
            return write_base(2, number, len(bitmap.kept) - 1, self.write_pruned(state))
        return write_base(int(bitmap.last is not None), bitmap.last or 0, 0, self.write_pruned(bitmap.current))

    def read_base(self, body, admitted=ANY):
        """The historical bitmap that a log begins with, and the count."""
        refuse(body and body[0] != BASE, "Tag")
        refuse(len(body) < 2, "Short")
        flag = body[1]
        refuse(flag > 2, "Flag")
        refuse(len(body) < 18, "Short")
        last, count = values(body[2:18])
        refuse(last == RESERVED if flag else last != 0, "Number")
        refuse(flag < 2 and count != 0, "Count")
        with within("State({})"):
            state, rest = self.read_pruned(body[18:], admitted)
        refuse(rest, "Long")
        return Historical(state, {last: state} if flag == 2 else {}, last if flag else None), count

    # Changes

    def change(self, old, new):
        """The change from a state to another one."""
        had = self.chunks_of(old)
        listed = tuple((index, data) for index, data in self.chunks_of(new).items() if had.get(index) != data)
        return Change(new.length, new.pruned, listed)

    def write_list(self, chunks):
        return b"".join(be64(index) + data for index, data in chunks)

    def read_list(self, data):
        """The listed chunks, of which each has a number and its bytes."""
        return tuple(struct.iter_unpack(f">Q{self.width}s", data))

    def is_whole_list(self, size):
        """Whether so many bytes are a list of whole chunks."""
        return size >= 0 and size % (8 + self.width) == 0

    def is_list_of_changed(self, old, change):
        """Whether a list is that of the changed chunks, tested by the page's rules, in their order."""
        had, indices = self.chunks_of(old), [index for index, _ in change.chunks]
        start, end, cut = max(change.pruned, self.chunks(old.length)), self.chunks(change.length), change.length // self.chunk_bits
        falls_within = change.length < old.length and change.length % self.chunk_bits != 0 and cut >= change.pruned
        return (
            all(index < following for index, following in zip(indices, indices[1:]))
            and all(change.pruned <= index and self.chunk_bits * index < change.length for index in indices)
            and not any(is_set_from(data, change.length - self.chunk_bits * index) for index, data in change.chunks)
            and all(had.get(index) != data for index, data in change.chunks)
            and sum(start <= index < end for index in indices) == max(end - start, 0)
            and not (falls_within and is_set_from(had[cut], change.length % self.chunk_bits) and cut not in indices)
        )

    def changed(self, old, change):
        """The state that a change leads to. Its list is that of the changed chunks."""
        chunks = {**self.chunks_of(old), **dict(change.chunks)}
        data = b"".join(chunks[index] for index in range(change.pruned, self.chunks(change.length)))
        return State(change.pruned, change.length, data)

    def committed(self, bitmap, number, change):
        """The historical bitmap after the commit of a change under a number."""
        refuse(number == RESERVED or bitmap.last is not None and number <= bitmap.last, "Number")
        refuse(change.pruned < bitmap.current.pruned or self.chunk_bits * change.pruned > change.length, "Length")
        refuse(not self.is_list_of_changed(bitmap.current, change), "Chunks")
        state = self.changed(bitmap.current, change)
        return Historical(state, {**bitmap.kept, number: state}, number)

    # Entries

    def write_entry(self, entry):
        number = b"" if entry.number is None else be64(entry.number)
        if entry.change is None:
            return bytes([entry.tag]) + number
        return bytes([entry.tag]) + number + be64(entry.change.length) + be64(entry.change.pruned) + self.write_list(entry.change.chunks)

    def read_entry(self, body):
        tag, fields = body[0], body[1:]
        refuse(tag == BASE or tag not in NAMES, "Decode(Kind)")
        if tag == COMMIT:
            refuse(not self.is_whole_list(len(fields) - 24), "Decode(Short)")
            number, length, pruned = values(fields[:24])
            return Entry(COMMIT, number, Change(length, pruned, self.read_list(fields[24:])))
        size = 0 if tag == CLEAR else 8
        refuse(len(fields) < size, "Decode(Short)")
        refuse(len(fields) > size, "Decode(Long)")
        return Entry(tag, *values(fields))

    def applied(self, bitmap, entry):
        """What an entry makes of a historical bitmap."""
        if entry.tag == COMMIT:
            return self.committed(bitmap, entry.number, entry.change)
        if entry.tag == CLEAR:
            return bitmap._replace(kept={})
        if entry.tag == DROP:
            return bitmap._replace(kept={number: state for number, state in bitmap.kept.items() if number >= entry.number})
        refuse(entry.number not in bitmap.kept, "NoSuchCommit")
        kept = {number: state for number, state in bitmap.kept.items() if number <= entry.number}
        return Historical(kept[entry.number], kept, entry.number)

    # Logs

    def frames(self, data):
        """The frames of a log, each as its place, its body and the place after it, up to one that is torn."""
        with within("Header({})"):
            place = read_header(self.width, data)
        while True:
            try:
                body, after = next_frame(data, place)
            except ReadError as error:
                refuse(str(error) != "Torn", damaged(place, str(error).replace("Bad", "")))
                return
            yield place, body, after
            place = after

    def steps(self, data):
        """What each frame of a log makes of the bitmap."""
        entry = bitmap = None
        for place, body, after in self.frames(data):
            if bitmap is None:
                with within(damaged(place, "Base({})")):
                    bitmap, _ = self.read_base(body)
            else:
                with within(damaged(place, "Entry({})")):
                    entry = self.read_entry(body)
                    bitmap = self.applied(bitmap, entry)
            yield Step(place, entry, bitmap, after)

    def recover(self, data):
        """The historical bitmap of a log, the place after its last whole entry, and whether bytes are left there."""
        last = None
        for step in self.steps(data):
            last = step
        refuse(last is None, "NoBase")
        return Recovered(last.bitmap, last.after, last.after.at < len(data))

    # Histories

    def history_bodies(self, bitmap):
        """The bodies of the history of a historical bitmap: its base, and a commit for each further kept state."""
        kept = list(bitmap.kept.items())
        commits = [Entry(COMMIT, number, self.change(old, new)) for (_, old), (number, new) in zip(kept, kept[1:])]
        return [self.base_of(bitmap), *map(self.write_entry, commits)]

    def write_history(self, bitmap):
        start = header(self.width)
        return start + framed(first_place(start), self.history_bodies(bitmap))[0]

    def read_history(self, data, bits=ANY, counts=ANY):
        """The historical bitmap of the history that some bytes begin with, and the bytes after it. `bits` admits numbers of retained bits."""
        with within("Header({})"):
            place = read_header(self.width, data)
        body, place = self.whole_frame(data, place)
        with within("Base({})"):
            bitmap, count = self.read_base(body, bits)
        refuse(count not in counts, f"Count({count})")
        for _ in range(count):
            body, place = self.whole_frame(data, place)
            refuse(body[0] != COMMIT, "Entry(Decode(Kind))")
            with within("Entry({})"):
                bitmap = self.applied(bitmap, self.read_entry(body))
            retained = self.retained(bitmap.current)
            refuse(retained not in bits, f"Bits({retained})")
        return bitmap, data[place.at :]

    def whole_frame(self, data, place):
        """The next frame of a history, which has no torn frames."""
        try:
            return next_frame(data, place)
        except ReadError as error:
            raise ReadError(str(error).replace("Torn", "Short")) from None

    # Deltas

    def replaced(self, old, chunks):
        """The old bytes of the listed chunks that the old state retains."""
        had = self.chunks_of(old)
        return b"".join(had.get(index, b"") for index, _ in chunks)

    def delta(self, bitmap, older, newer):
        """The delta from a kept state to a later one, or None."""
        if older >= newer or not {older, newer} <= bitmap.kept.keys():
            return None
        old, new = bitmap.kept[older], bitmap.kept[newer]
        return self.write_delta(older, old, newer, self.change(old, new))

    def write_delta(self, older, old, newer, change):
        length, pruned, chunks = change
        before = (VERSION, self.width, older, old.length, old.pruned, digest(self.replaced(old, chunks)))
        data = DELTA_MAGIC + b"".join(map(be64, (*before, newer, length, pruned))) + self.write_list(chunks)
        return data + be64(digest(data))

    def apply_delta(self, bitmap, data):
        """The historical bitmap after a delta."""
        refuse(len(data) < LEAST_DELTA, "Short")
        refuse(data[:8] != DELTA_MAGIC, "NotADelta")
        version, width, *older, replaced, newer, length, pruned = values(data[8:80])
        refuse(version != VERSION, f"Version({version})")
        refuse(value(data[-8:]) != digest(data[:-8]), "BadDigest")
        refuse(width != self.width, f"Width({width})")
        refuse(not self.is_whole_list(len(data) - LEAST_DELTA), "Short")
        refuse(older != [bitmap.last, bitmap.current.length, bitmap.current.pruned], "NotAtBase")
        chunks = self.read_list(data[80:-8])
        refuse(replaced != digest(self.replaced(bitmap.current, chunks)), "NotAtBase")
        with within("Change({})"):
            return self.committed(bitmap, newer, Change(length, pruned, chunks))


def outcome(read, *given):
    """What a reader returns, or its error as a text."""
    try:
        return read(*given)
    except ReadError as error:
        return str(error)


# The page's tables


class Row(NamedTuple):
    line: int
    cells: list


def tables():
    """The tables of the page: the heads of each and its rows."""
    found, is_in = [], False
    for number, line in enumerate(PAGE.read_text().split("\n"), 1):
        cells = [cell.strip() for cell in line.strip("|").split("|")]
        if line.startswith("|") and is_in:
            found[-1][1].append(Row(number, cells))
        elif line.startswith("|"):
            found.append((tuple(cells), []))
        is_in = line.startswith("|")
    return [(heads, rows[1:]) for heads, rows in found]


def in_hex(cell):
    """The bytes that a cell has in hexadecimal."""
    return bytes.fromhex("".join(re.findall("`([0-9a-f]+)`", cell)))


def shown(error):
    """An error as a cell has it: a name is code, and other errors are words."""
    return f"`{error}`" if error[0].isupper() else error


# Worked bytes: what each field is, in the page's words


def number_rows(names, data):
    for at, name in enumerate(names):
        field = data[8 * at : 8 * at + 8]
        yield field, f"{name}: {value(field)}"


def chunk_rows(width, first, data):
    for index, at in enumerate(range(0, len(data), width), first):
        yield data[at : at + width], f"bytes of chunk {index}"


def list_rows(width, data):
    for index, chunk in Formats(width).read_list(data):
        yield be64(index), f"index: {index}"
        yield chunk, f"bytes of chunk {index}"


def bitmap_rows(width, data):
    return chain(number_rows(["length"], data), chunk_rows(width, 0, data[8:]))


def pruned_rows(width, data):
    return chain(number_rows(["pruned count", "retained bits"], data), chunk_rows(width, value(data[:8]), data[16:]))


def body_rows(width, body):
    yield body[:1], f"tag: a {NAMES[body[0]]}"
    if body[0] == BASE:
        yield body[1:2], f"flag: {body[1]}"
        yield from number_rows(["last number", "count"], body[2:])
        yield from pruned_rows(width, body[18:])
    elif body[0] == COMMIT:
        yield from number_rows(["number", "length", "pruned count"], body[1:])
        yield from list_rows(width, body[25:])
    elif body[0] != CLEAR:
        yield from number_rows(["number"], body[1:])


def log_rows(width, data):
    yield data[:8], f"magic: `{data[:8].decode()}` in ASCII"
    yield from number_rows(["version", "width"], data[8:])
    yield data[24:32], "check: digest of the 24 bytes before"
    for place, body, after in Formats(width).frames(data):
        yield from number_rows(["length of the body"], be64(len(body)))
        yield data[place.at + 8 : place.at + 16], f"head check: digest of `{be64(place.at).hex()}` `{be64(len(body)).hex()}`"
        yield from body_rows(width, body)
        yield data[after.at - 8 : after.at], f"digest of `{be64(place.chain).hex()}` and the body"


def delta_rows(older, width, data):
    yield data[:8], f"magic: `{data[:8].decode()}` in ASCII"
    yield from number_rows(["version", "width", "from, number", "from, length", "from, pruned count"], data[8:])
    formats = Formats(width)
    yield data[48:56], f"digest of the replaced chunks, `{formats.replaced(older, formats.read_list(data[80:-8])).hex()}`"
    yield from number_rows(["to, number", "to, length", "to, pruned count"], data[56:])
    yield from list_rows(width, data[80:-8])
    yield data[-8:], f"digest of the {len(data) - 8} bytes before"


def receipt_rows(data):
    yield data[:8], f"magic: `{data[:8].decode()}` in ASCII"
    yield from number_rows(["version", "number", "kind", "at"], data[8:])
    yield data[40:48], f"digest: `{data[40:48].hex()}`"
    yield data[48:], "check: digest of the 48 bytes before"


# Receipts


class Receipt(NamedTuple):
    """A receipt of a log: its number, its kind, and its place."""

    number: int
    kind: int
    at: int
    digest: int


def write_receipt(receipt):
    data = RECEIPT_MAGIC + struct.pack(">5Q", VERSION, *receipt)
    return data + struct.pack(">Q", digest(data))


def read_receipt(data):
    magic, (version, *fields, check) = data[:8], values(data[8:])
    if magic != RECEIPT_MAGIC or version != VERSION or check != digest(data[:48]) or fields[1] not in (1, 2):
        raise ReadError("damaged")
    return Receipt(*fields)


# Worked examples and small inputs


def counted(count):
    """A number as the page writes it in a sentence."""
    return dict(enumerate(("no", "one", "two", "three", "four", "five", "six", "seven"))).get(count, str(count))


# How the page explains each error that it only calls `Invalid`.
REASONS = {TRAILING: "is past the length, and set", TOO_MANY_PRUNED: "do not fit 64 bits", TOO_LONG: "the length is 2^64"}


class Example(NamedTuple):
    """A worked example: what is written, how it is read, what it is read as, and what its rows are made of."""

    written: bytes
    read: Callable
    result: object
    rows: Callable


def bits(digits):
    return [int(digit) for digit in digits]


def with_byte(data, at, digits):
    return data[: int(at)] + bytes.fromhex(digits) + data[int(at) + 1 :]


def with_frame(data, body):
    """A log with one more frame."""
    place = Formats(1).recover(data).place if len(data) > HEADER_SIZE else first_place(data)
    return data + frame(place, body)[0]


# The changes of worked bytes, in the words of the page. The first argument of each is the bytes.
EDITS = {
    r"(?:all of them|unchanged|it is in chunk \d+, which is (?:not )?listed)?": lambda data: data,
    r"(?:the first|all) (\d+) bytes": lambda data, count: data[: int(count)],
    r"all of them, and then (\d+) bytes `(\w\w)`": lambda data, count, byte: data + bytes.fromhex(byte * int(count)),
    r"all of them, and then ([\d,]+) zero bytes": lambda data, count: data + bytes(int(count.replace(",", ""))),
    r"all of them, and then any bytes|and one byte more": lambda data: data + b"x",
    r"byte (\d+) is `(\w\w)`(?:, [^`]*)?": with_byte,
    r"byte (\d+) is `(\w\w)`, so `to` is \d+, and the digest is made anew":
        lambda data, at, byte: with_byte(data, at, byte)[:-8] + be64(digest(with_byte(data, at, byte)[:-8])),
    r"without bytes (\d+) to (\d+), .*": lambda data, start, last: data[: int(start)] + data[int(last) + 1 :],
    r"bytes (\d+) to (\d+) are zero, .*": lambda data, start, last: data[: int(start)] + bytes(int(last) + 1 - int(start)) + data[int(last) + 1 :],
    r"the header, and the frame of the body `(\w+)`": lambda data, body: with_frame(data[:HEADER_SIZE], bytes.fromhex(body)),
    r"the header, and the frame of a base with flag (\d) and last number (\d+)":
        lambda data, flag, last: with_frame(data[:HEADER_SIZE], write_base(int(flag), int(last), 0, bytes(16))),
    r"the first (\d+) bytes, and a whole frame for this place with a rewind to (\d+)":
        lambda data, count, number: with_frame(data[: int(count)], bytes([REWIND]) + be64(int(number))),
}


def edited(data, words):
    """The bytes that the page describes as a change of other ones."""
    for pattern, edit in EDITS.items():
        found = re.fullmatch(pattern, words)
        if found:
            return edit(data, *found.groups())
    raise ReadError(f"these words are not known: {words}")


class Page:
    """The worked examples of the page, and what its small inputs are read as, in the page's words."""

    def __init__(self, found):
        self.tables, self.one, self.three = found, Formats(1), Formats(3)
        self.two, self.nine = (State(int(pruned), int(length), in_hex(" ".join(chunks))) for _, pruned, length, *chunks in self.kept_states())
        self.sender = Historical(self.nine, {2: self.two, 9: self.nine}, 9)
        self.replica = Historical(self.two, {2: self.two}, 2)
        self.history, self.delta = self.three.write_history(self.sender), self.three.delta(self.sender, 2, 9)
        self.log, self.log_bitmaps = self.worked_log()
        self.given = None  # the bitmap of the last row of the table of deltas
        self.inputs = {
            ("Bytes", "Digest"): self.digest_of,
            ("Format", "Width", "Bytes", "Read as"): self.input_of,
            ("Body", "What the state does with it"): self.entry_of,
            ("Bytes", "What `recover` returns"): self.recovery_of,
            ("Bytes and ranges", "Read as"): self.history_of,
            ("Bitmap, and what is changed in the bytes", "What `apply_delta` does"): self.delta_of,
        }

    def kept_states(self):
        """The cells of the kept states of the worked history."""
        return [row.cells for heads, rows in self.tables if heads[:3] == ("Number", "Pruned count", "Length") for row in rows]

    def worked_log(self):
        """The worked log, and the bitmap after each of its frames."""
        first, fifth = self.one.state_of(bits("101")), self.one.state_of(bits("10111010011"))
        at_first = Historical(first, {1: first}, 1)
        entries = [
            Entry(COMMIT, 1, self.one.change(State(), first)),
            Entry(COMMIT, 5, self.one.change(first, fifth)),
            Entry(REWIND, 1),
            Entry(DROP, 1),
            Entry(CLEAR),
        ]
        start = self.one.write_history(Historical())
        data, _ = framed(self.one.recover(start).place, map(self.one.write_entry, entries))
        return start + data, [Historical(), at_first, Historical(fifth, {1: first, 5: fifth}, 5), at_first, at_first, Historical(first, {}, 1)]

    @property
    def receipt(self):
        """The first receipt of a log that has a header and a base, which are the first 90 bytes of the worked log."""
        return Receipt(1, 2, 90, value(self.log[82:90]))

    def examples(self):
        """The worked examples, in the order of the page."""
        ten, four = bits("1011000001"), Formats(4)
        short, long = self.one.state_of(ten), four.state_of(ten)
        pruned = self.three.state_of([*bits("010000001000000000000011"), *bits("101100")], 2)
        return [
            Example(self.one.write_bitmap(short), self.one.read_bitmap, (short, b""), partial(bitmap_rows, 1)),
            Example(four.write_bitmap(long), four.read_bitmap, (long, b""), partial(bitmap_rows, 4)),
            Example(self.three.write_pruned(pruned), self.three.read_pruned, (pruned, b""), partial(pruned_rows, 3)),
            Example(self.log, lambda data: [step.bitmap for step in self.one.steps(data)], self.log_bitmaps, partial(log_rows, 1)),
            Example(self.history, self.three.read_history, (self.sender, b""), partial(log_rows, 3)),
            Example(self.delta, partial(self.three.apply_delta, self.replica), self.sender, partial(delta_rows, self.two, 3)),
            Example(write_receipt(self.receipt), read_receipt, self.receipt, receipt_rows),
        ]

    # What a row of a table of small inputs is read as

    def digest_of(self, cells):
        return f"`{digest(in_hex(cells[0])):016x}`"

    def input_of(self, cells):
        kind, width, digits, said = cells
        formats = Formats(int(width))
        read = partial({"bitmap": formats.read_bitmap, "pruned bitmap": formats.read_pruned}[kind], in_hex(digits))
        ranges = re.fullmatch(r".*, if the range ends at (\d+); with a range that admits (\d+), .*", said)
        if ranges:
            low, high = (self.input_said(formats, outcome(read, range(int(most) + 1)), said) for most in ranges.groups())
            return f"{low}, if the range ends at {ranges[1]}; with a range that admits {ranges[2]}, {high}"
        return self.input_said(formats, outcome(read), said)

    def input_said(self, formats, result, said):
        """A state or an error in the page's words."""
        if isinstance(result, str):
            return "`Invalid`" if REASONS.get(result, said + "?") in said else shown(result)
        state, rest = result
        digits = formats.digits(state)
        words = f"the bits {digits}" if digits else "no bits"
        if state.pruned:
            words = f"{counted(state.pruned)} pruned chunks and {counted(len(digits))} retained bits"
        return words + (f", and {counted(len(rest))} byte is left" if rest else "")

    def entry_of(self, cells):
        """What the bitmap with the bits 101 under 1 makes of a body. An accepted body is also written again."""
        body, bitmap = in_hex(cells[0]), self.log_bitmaps[1]
        entry = outcome(self.one.read_entry, body)
        after = entry if isinstance(entry, str) else outcome(self.one.applied, bitmap, entry)
        if isinstance(after, str):
            return shown(after)
        if entry.tag != COMMIT:
            return f"accepted: {counted(len(after.kept))} state is kept"
        written = self.one.write_entry(entry._replace(change=self.one.change(bitmap.current, after.current)))
        return f"accepted: {self.commit_said(after.current)}" if written == body else f"accepted, but written as {written.hex()}"

    def commit_said(self, state):
        """The current state after a commit, in the page's words."""
        digits = self.one.digits(state)
        if state.pruned:
            retained = f"bit {8 * state.pruned} is {digits}" if digits else "no bit is retained"
            return f"{counted(state.pruned)} chunk{' is' if state.pruned == 1 else 's are'} pruned, and {retained}"
        return f"the bit is {digits}" if len(digits) == 1 else f"the bits are {digits}"

    def recovery_of(self, cells):
        words, width = re.fullmatch(r"(.*?)(?:, and the reader is for width (\d+))?", cells[0]).groups()
        found = outcome(Formats(int(width or 1)).recover, edited(self.log, words))
        if isinstance(found, str):
            return shown(found)
        names = ("base", "commit 1", "commit 5", "rewind", "drop", "clear")
        ends = {step.after.at: at for at, step in enumerate(self.one.steps(self.log))}
        at = ends[found.place.at]
        name = names[at] if names[at].startswith("commit") else f"the {names[at]}"
        wrong = "" if found.bitmap == self.log_bitmaps[at] else ", which is another one"
        return f"the state after {name}{wrong}, {found.place.at} good bytes, {'torn' if found.torn else 'not torn'}"

    def history_of(self, cells):
        words, _, rest = cells[0].partition("; the range of ")
        least, most = (re.search(pattern, rest) for pattern in (r"^commits is that from (\d+) on$", r"^bits is that up to (\d+)$"))
        ranges = range(int(most[1]) + 1) if most else ANY, range(int(least[1]), BOUND) if least else ANY
        result = outcome(self.three.read_history, edited(self.history, words), *ranges)
        if not isinstance(result, str):
            return "both states; the other bytes are left" if result == (self.sender, b"x") else f"{result}"
        return shown(result)

    def delta_of(self, cells):
        words, _, edit = cells[0].partition("; ")
        self.given = self.bitmap_of(words)
        formats = Formats(4) if words == "a bitmap of width 4" else self.three
        result = outcome(formats.apply_delta, self.given, edited(self.delta, edit))
        if isinstance(result, str):
            return shown(result)
        kept = " and ".join(map(str, result.kept))
        words = f"the bitmap is at {result.last}, and "
        if result.current == self.nine:
            return f"{words}{kept} {'is' if len(result.kept) == 1 else 'are'} kept"
        mine, other = (formats.digits(state) for state in (result.current, self.nine))
        differing = [str(24 + at) for at, (bit, sent) in enumerate(zip(mine, other)) if bit != sent]
        return f"no error: {words}its bit {' '.join(differing)} differs from the sender's"

    def bitmap_of(self, words):
        """The bitmap to which the delta is applied."""
        flipped = re.fullmatch(r"the state under 2, but bit (\d+) differs", words)
        if flipped:
            at, data = int(flipped[1]), bytearray(self.two.data)
            data[at // 8] ^= 1 << at % 8
            state = self.two._replace(data=bytes(data))
            return Historical(state, {2: state}, 2)
        known = {
            "the state under 2, which is the last number": self.replica,
            "the state under 2": self.replica,
            "the same": self.given,
            "the same, but 2 is not kept: it is only the last number": Historical(self.two, {}, 2),
            "a bitmap of width 4": Historical(),
            "a new bitmap without a last number": Historical(),
            "the state under 2, and the last number is 3": Historical(self.two, {}, 3),
            "the bitmap at 9, that is, the delta for the second time": self.sender,
        }
        refuse(words not in known, f"these words are not known: {words}")
        return known[words]

    # Cases

    def input_cases(self):
        """Compares each row of the tables of small inputs. A cell may go on with an explanation."""
        for heads, said in self.inputs.items():
            rows = [row for found, rows in self.tables if found == heads for row in rows]
            yield " | ".join(heads), None if rows else "there is no such table"
            for line, cells in rows:
                words = outcome(said, cells)
                agrees = cells[-1] == words or cells[-1].startswith((f"{words}.", f"{words}:"))
                yield f"{PAGE.name}:{line}", None if agrees else f"{words}"

    def worked_cases(self):
        """Compares each worked example. A table that does not begin at 0 goes on with the example before it."""
        groups = []
        for heads, rows in self.tables:
            if heads == ("At", "Bytes", "What they are"):
                if rows[0].cells[0] == "0" or not groups:
                    groups.append([])
                groups[-1].extend(rows)
        examples = self.examples()
        yield "worked examples", None if len(groups) == len(examples) else f"{len(groups)}, not {len(examples)}"
        for rows, example in zip(groups, examples):
            yield from self.example_cases(rows, example)

    def example_cases(self, rows, example):
        place, at = f"{PAGE.name}:{rows[0].line}", 0
        data = b"".join(in_hex(row.cells[1]) for row in rows)
        result, fields = outcome(example.read, data), list(example.rows(example.written))
        yield f"{place}, written", None if data == example.written else f"{example.written.hex()}"
        yield f"{place}, read", None if result == example.result else f"{result}"
        yield f"{place}, fields", None if len(rows) == len(fields) else f"{len(fields)}"
        for (line, cells), (field, words) in zip(rows, fields):
            expected = [str(at), f"`{field.hex()}`", words]
            yield f"{PAGE.name}:{line}", None if cells == expected else " | ".join(expected)
            at += len(field)

    def text_cases(self):
        """Compares the numbers of bytes and the digests that the text has, and looks for the errors that have a text."""
        text, worked = PAGE.read_text(), {"log": self.log, "history": self.history, "delta": self.delta}
        for name, size, found in re.findall(r"The (log|history|delta) has (\d+) bytes(?:; their digest is `(\w+)`)?", text):
            data = worked.pop(name)
            agrees = int(size) == len(data) and found in ("", f"{digest(data):016x}")
            yield f"size and digest of the {name}", None if agrees else f"{len(data)} {digest(data):016x}"
        yield "sizes of worked bytes", f"none for {' '.join(worked)}" if worked else None
        for error in REASONS:
            yield error, None if f"`{error}`" in text else "is not on the page"


def check():
    """Compares the page with this module: the exit status."""
    page = Page(tables())
    return report("check", [*page.worked_cases(), *page.input_cases(), *page.text_cases()], "values")



# Random historical bitmaps

WIDTHS = (1, 3, 8, 32)


class LoggedScript(RandomScript):
    """A random script. What its lines make of the bitmap is written to a log."""

    ENTRIES = {"rewind": REWIND, "drop-before": DROP, "clear": CLEAR}

    def __init__(self, seed, width):
        super().__init__(f"log {seed}", width)
        self.formats = Formats(width)
        self.begin_log()

    def add(self, *lines):
        """Adds lines. Each that is accepted, and changes what is kept, adds an entry to the log."""
        for line in lines:
            before, (name, *given) = self.state.current, line.split(" ")
            super().add(line)
            if str(self.replies[-1]).startswith("refused"):
                continue
            if name == "start":
                self.begin_log()
            elif name == "commit":
                change = self.formats.change(self.state_of(before), self.state_of(self.state.current))
                self.append(self.formats.write_entry(Entry(COMMIT, int(given[0]), change)), self.historical())
            elif name in self.ENTRIES:
                self.append(self.formats.write_entry(Entry(self.ENTRIES[name], *map(int, given))), self.historical())

    def state_of(self, bitmap):
        return self.formats.state_of(bitmap.bits, bitmap.pruned)

    def historical(self):
        """The model's bitmap without its batch."""
        kept = {number: self.state_of(commit.bitmap) for number, commit in self.state.history.items()}
        return Historical(self.state_of(self.state.current), kept, self.state.last)

    def begin_log(self):
        """Begins a log with the history of the bitmap."""
        self.data, self.marks = header(self.formats.width), []
        self.place = first_place(self.data)
        bitmap = self.historical()
        kept = list(bitmap.kept.items())
        bitmaps = [Historical(state, dict(kept[:count]), number) for count, (number, state) in enumerate(kept, 1)] or [bitmap]
        for body, after in zip(self.formats.history_bodies(bitmap), bitmaps):
            self.append(body, after)

    def append(self, body, bitmap):
        """Appends a frame. The bitmap after it is kept with the place after it."""
        data, self.place = frame(self.place, body)
        self.data += data
        self.marks.append((self.place, bitmap))


def unlike(what, found, expected):
    """What is wrong with a result, as a list of one text or none."""
    return [] if found == expected else [f"{what}: {found}, not {expected}"]


def in_page_words(refused):
    """An error of the model's `decoded` as the page names it."""
    named = re.sub(r"codec invalid (\w+): (.*)", r'Invalid("\1", "\2")', str(refused))
    return re.sub(r"codec invalid-length (\d+)", r"InvalidLength(\1)", named).replace("codec end-of-buffer", "EndOfBuffer")


def state_differences(script):
    """Reads bitmaps and pruned bitmaps, and compares the pruned ones with what the model writes and reads."""
    formats, model = script.formats, script.model
    for number, commit in script.state.history.items():
        state = script.state_of(commit.bitmap)
        yield from unlike(f"state {number}", f"bytes {formats.write_pruned(state).hex()}", model.encoded(commit.bitmap))
        listed = formats.state_of(commit.bitmap.bits)
        yield from unlike(f"bits {number}", outcome(formats.read_bitmap, formats.write_bitmap(listed) + b"rest"), (listed, b"rest"))
    for _ in range(20):
        data, most = bytes.fromhex(script.input().strip("-")), script.random.choice([10, 40, 10**6])
        try:
            bitmap, left = model.decoded(data, f"most:{most}")
            expected = script.state_of(bitmap), data[len(data) - left :]
        except Refused as refused:
            expected = in_page_words(refused)
        yield from unlike(f"{data.hex()} as a pruned bitmap", outcome(formats.read_pruned, data, range(most + 1)), expected)


def prefix_differences(script):
    """Reads every prefix of a log."""
    ends, last = {place.at: (bitmap, place) for place, bitmap in script.marks}, None
    for cut in range(len(script.data) + 1):
        last = ends.get(cut, last)
        none = "NoBase" if cut >= HEADER_SIZE else "Header(Short)"
        expected = Recovered(*last, cut > last[1].at) if last else none
        yield from unlike(f"the first {cut} bytes", outcome(script.formats.recover, script.data[:cut]), expected)


def tail_differences(script):
    """Reads logs that have other bytes at their end, or a frame twice, or one frame less."""
    chance, recover = script.random, script.formats.recover
    place, bitmap = chance.choice(script.marks)
    for count in (1, 15, 16, chance.randint(17, 99)):
        found = outcome(recover, script.data[: place.at] + bytes(count))
        yield from unlike(f"{count} zeros at {place.at}", found, Recovered(bitmap, place, True))
    found = outcome(recover, script.data[: place.at] + chance.randbytes(15))
    yield from unlike(f"15 bytes at {place.at}", found, Recovered(bitmap, place, True))
    found = outcome(recover, script.data[: place.at] + bytes([1]) + chance.randbytes(99))
    yield from unlike(f"100 bytes at {place.at}", found, damaged(place, "Head"))
    starts = [HEADER_SIZE, *(place.at for place, _ in script.marks)]
    for start, end in zip(starts, starts[1:]):
        found = outcome(recover, script.data[:end] + script.data[start:])
        yield from unlike(f"the frame at {start} twice", found, f"Damaged {{ at: {end}, Head }}")
        if end < len(script.data):
            found = outcome(recover, script.data[:start] + script.data[end:])
            yield from unlike(f"without the frame at {start}", found, f"Damaged {{ at: {start}, Head }}")


def flipped(data, bit):
    return data[: bit // 8] + bytes([data[bit // 8] ^ 1 << bit % 8]) + data[bit // 8 + 1 :]


def header_error(data):
    """The error of a header that has one flipped bit."""
    if data[:8] != LOG_MAGIC:
        return "Header(NotALog)"
    version = value(data[8:16])
    return "Header(BadCheck)" if version == VERSION else f"Header(Version({version}))"


def flip_differences(script, data, read, frame_error):
    """Reads copies of a log or a history, each with one flipped bit."""
    starts = [place.at for place, _, _ in script.formats.frames(data)]
    for bit in script.random.sample(range(8 * len(data)), 60):
        copy, start = flipped(data, bit), max((at for at in starts if at <= bit // 8), default=None)
        expected = header_error(copy) if start is None else frame_error(start, "Head" if bit // 8 < start + 16 else "Digest")
        yield from unlike(f"bit {bit} is flipped", outcome(read, copy), expected)


def written_again(formats, body):
    """The bytes of what a body is read as."""
    if body[0] != BASE:
        return formats.write_entry(formats.read_entry(body))
    (state, kept, last), count = formats.read_base(body)
    return write_base(2 if kept else int(last is not None), last or 0, count, formats.write_pruned(state))


def body_differences(script):
    """Reads copies of bodies, each with a flipped bit, cut off or with further bytes. What is read has no other encoding."""
    formats, chance = script.formats, script.random
    for _, body, _ in formats.frames(script.data):
        for _ in range(8):
            copy = flipped(body, chance.choice([chance.randrange(8 * len(body)), chance.randrange(min(8 * len(body), 16))]))
            copy = chance.choice([body, copy])[: chance.randint(1, len(body)) if chance.random() < 0.5 else len(body)]
            copy += chance.randbytes(chance.choice([0, 0, 1, 8 + formats.width]))
            found = outcome(written_again, formats, copy)
            yield from unlike(f"the body {copy.hex()} again", found, found if isinstance(found, str) else copy)


def history_differences(script):
    """Writes the history of some bitmaps, and reads it as a history and as a log."""
    formats, chance = script.formats, script.random
    for _, bitmap in chance.sample(script.marks, min(4, len(script.marks))):
        data = formats.write_history(bitmap)
        rest, count = chance.randbytes(chance.randint(0, 20)), max(len(bitmap.kept) - 1, 0)
        first, *later = map(formats.retained, bitmap.kept.values() or [bitmap.current])
        yield from unlike("the history", outcome(formats.read_history, data + rest), (bitmap, rest))
        yield from unlike("the history as a log", outcome(formats.recover, data)[::2], (bitmap, False))
        yield from unlike("fewer commits", outcome(formats.read_history, data, ANY, range(count)), f"Count({count})")
        yield from unlike("fewer bits", outcome(formats.read_history, data, range(first)), f"Base(State(InvalidLength({first})))")
        excess = next((retained for retained in later if retained > first), None)
        expected = f"Bits({excess})" if excess else (bitmap, b"")
        yield from unlike("fewer bits later", outcome(formats.read_history, data, range(first + 1)), expected)
        for cut in chance.sample(range(len(data)), 40):
            expected = "Short" if cut >= HEADER_SIZE else "Header(Short)"
            yield from unlike(f"the first {cut} bytes of a history", outcome(formats.read_history, data[:cut]), expected)
        yield from flip_differences(script, data, formats.read_history, lambda _, damage: f"Bad{damage}")


def delta_differences(script):
    """Writes deltas between kept states, and applies them."""
    formats, chance = script.formats, script.random
    _, bitmap = max(script.marks, key=lambda mark: len(mark[1].kept))
    yield from unlike("a delta back", formats.delta(bitmap, 1, 1), None)
    for older in list(bitmap.kept)[:-1]:
        newer = chance.choice([number for number in bitmap.kept if number > older])
        data, old, new = formats.delta(bitmap, older, newer), bitmap.kept[older], bitmap.kept[newer]
        for kept in ({}, {older: old}):
            found = outcome(formats.apply_delta, Historical(old, kept, older), data)
            yield from unlike(f"the delta from {older} to {newer}", found, Historical(new, {**kept, newer: new}, newer))
            yield from unlike("the same delta again", outcome(formats.apply_delta, found, data), "NotAtBase")
        replica = Historical(old, {}, older)
        for cut in chance.sample(range(len(data)), 20):
            expected = "Short" if cut < LEAST_DELTA else "BadDigest"
            yield from unlike(f"the first {cut} bytes of a delta", outcome(formats.apply_delta, replica, data[:cut]), expected)
        for bit in chance.sample(range(8 * len(data)), 40):
            copy = flipped(data, bit)
            expected = "NotADelta" if bit < 64 else f"Version({value(copy[8:16])})" if bit < 128 else "BadDigest"
            yield from unlike(f"bit {bit} of a delta is flipped", outcome(formats.apply_delta, replica, copy), expected)


def is_change_by_definition(formats, old, change):
    """Whether a list is that of the changed chunks, without the page's rules: the state that it makes is compared with the old one."""
    had, end = formats.chunks_of(old), formats.chunks(change.length)
    if end - change.pruned > len(had) + len(change.chunks):
        return False
    made = {**had, **dict(change.chunks)}
    data = b"".join(made.get(index, bytes(formats.width)) for index in range(change.pruned, end))
    retained = (1 << change.length - formats.chunk_bits * change.pruned) - 1
    data = (int.from_bytes(data, "little") & retained).to_bytes(len(data), "little")
    return formats.change(old, State(change.pruned, change.length, data)) == change


def other_list(script, old, change):
    """A change with another list, length or pruned count."""
    chance, bits, (length, pruned, chunks) = script.random, script.formats.chunk_bits, change
    had, chunks = list(script.formats.chunks_of(old).items()), list(chunks)
    index, data = chance.choice([*had, *chunks, (script.formats.chunks(length), bytes(script.formats.width))])
    at = chance.randrange(len(chunks) + 1)
    kind = chance.randrange(6)
    if kind == 0:
        del chunks[at : at + 1]
    elif kind == 1:
        chunks = sorted([*chunks, (index, flipped(data, chance.randrange(bits)) if chance.random() < 0.7 else data)])
    elif kind == 2:
        chunks.insert(at, (index, data))
    elif kind == 3:
        chunks = [(index, flipped(data, chance.randrange(bits))) if place == at else (index, data) for place, (index, data) in enumerate(chunks)]
    elif kind == 4:
        length = min(max(length + chance.choice([-bits, -2, -1, 1, 2, bits, 2**63]), 0), RESERVED)
    else:
        pruned += chance.choice([1, 1, 2])
    return Change(length, pruned, tuple(chunks))


def list_differences(script):
    """Tests other lists by the page's rules and by its definition, in entries and in deltas."""
    formats = script.formats
    for (_, bitmap), (_, after) in zip(script.marks, script.marks[1:]):
        old = bitmap.current
        for _ in range(8 if after.current.pruned >= old.pruned else 0):
            change = other_list(script, old, formats.change(old, after.current))
            number = bitmap.last + 1 if bitmap.last is not None else 0
            fits = formats.chunk_bits * change.pruned <= change.length
            expected = "accepted" if fits and is_change_by_definition(formats, old, change) else "Chunks" if fits else "Length"
            expected = "Number" if number == RESERVED else expected
            body = formats.write_entry(Entry(COMMIT, number, change))
            found = outcome(formats.applied, bitmap, formats.read_entry(body))
            yield from unlike(f"{body.hex()} after {old}", found if isinstance(found, str) else "accepted", expected)
            if bitmap.last is not None:
                data = formats.write_delta(bitmap.last, old, number, change)
                same = f"Change({found})" if isinstance(found, str) else found
                yield from unlike(f"the delta {data.hex()} after {old}", outcome(formats.apply_delta, bitmap, data), same)


def run_differences(number, seed):
    """What is wrong with a run."""
    width = WIDTHS[number % len(WIDTHS)]
    script = LoggedScript(f"{seed} {number}", width)
    if number % 3 == 0:
        script.add(f"start {script.chunks()}")
    script.steps(script.random.randint(0, 30))
    if number % 2:
        script.begin_log()
    script.steps(script.random.randint(5, 40))
    log_flips = flip_differences(script, script.data, script.formats.recover, lambda at, damage: f"Damaged {{ at: {at}, {damage} }}")
    logs = chain(prefix_differences(script), tail_differences(script), log_flips, body_differences(script))
    others = chain(state_differences(script), history_differences(script), delta_differences(script), list_differences(script))
    return f"run {number} at width {width}", next(chain(logs, others), None)


def check_random(count, seed="0"):
    """Checks random historical bitmaps: the exit status."""
    with ProcessPoolExecutor() as pool:
        return report("random", list(pool.map(partial(run_differences, seed=seed), range(int(count)), chunksize=4)))


# A log for a person


def state_line(formats, bitmap):
    """The current state, the kept numbers and the last number. Of the bits, the first 64 are shown."""
    digits = formats.digits(bitmap.current)
    shown_bits = digits if len(digits) <= 64 else f"{digits[:64]}.."
    pruned = f"{bitmap.current.pruned} pruned chunks, " if bitmap.current.pruned else ""
    kept = " ".join(map(str, bitmap.kept)) or "none"
    return f"{pruned}{len(digits)} bits {shown_bits or '-'}; kept: {kept}; last: {'none' if bitmap.last is None else bitmap.last}"


def entry_line(entry):
    if entry is None:
        return "base"
    if entry.tag == CLEAR:
        return "clear"
    if entry.tag != COMMIT:
        return f"{'rewind to' if entry.tag == REWIND else 'drop before'} {entry.number}"
    return f"commit {entry.number}, chunks {' '.join(str(index) for index, _ in entry.change.chunks) or 'none'}"


def show(file, width):
    """Prints the frames of a log, and where it ends or is damaged: the exit status."""
    formats, data, end = Formats(int(width)), Path(file).read_bytes(), HEADER_SIZE
    try:
        for step in formats.steps(data):
            print(f"{step.place.at}: {entry_line(step.entry)}: {state_line(formats, step.bitmap)}")
            end = step.after.at
        refuse(end == HEADER_SIZE, "NoBase")
    except ReadError as error:
        print(error)
        return 1
    print(f"{end}: " + (f"torn, {len(data) - end} bytes are left" if end < len(data) else "the end"))
    return 0


def main():
    what, *given = sys.argv[1:] or [""]
    parts = {"check": check, "random": check_random, "show": show}
    if what not in parts:
        sys.exit(__doc__)
    return parts[what](*given)


if __name__ == "__main__":
    sys.exit(main())
