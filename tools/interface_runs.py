#!/usr/bin/env python3
"""Runs random scripts through the C interface, and compares each status and output with the reference model of tools/model.py.

usage: interface_runs.py LIBRARY COUNT   COUNT random scripts on the shared library LIBRARY, at each of its four widths in turn. Prints how many calls
                                         there are, and fails if a function never succeeds or a status is never returned: 2000 scripts suffice

The scripts are those of tools/check_runs.py, with fixed seeds. Half of them begin with an index of the kept commits, and each may add or drop one
later. After each step come reads of the bitmap, of a past one and of the commits, whose values are computed from the model's lists, edits of many
bits at once, and calls with wrong arguments. Histories, deltas and logs are compared with those of tools/formats.py, also if their bytes are changed.
So are checks of proofs of random bitmaps with those of tools/roots.py. At the end of a script the library has freed all its blocks. They are counted
by tools/fail_allocations.c, which tools/check_frees.py preloads when it starts this program. Without it the program ends with an error.
"""

import re
import sys
from collections import Counter, deque
from concurrent.futures import ProcessPoolExecutor
from concurrent.futures.process import BrokenProcessPool
from functools import lru_cache, partial

import roots
from check_runs import RandomScript
from counter import blocks_now
from declarations import HANDLES
from formats import CLEAR, COMMIT, DROP, REWIND, Entry, Formats, Historical, ReadError, be64, digest, first_place, frame, framed, header
from library import Handle as LibraryHandle
from library import Library, Overrun, outcome
from model import LAST, Bitmap, Commit, bits_of, bytes_of
from replay import report

WIDTHS = (1, 8, 32, 64)
WRONG_WIDTHS = (0, 2, 3, 4, 16, 63, 65, 128, 2**32 - 1)

# The status that no run here returns: allocations do not fail.
NEVER = {"NO_MEMORY"}

# The commands whose reply is the outcome of one call of the same name.
DIRECT = {"start", "begin", "push", "pop", "set", "prune", "commit", "abort", "rewind", "len", "pruned-chunks", "get", "exists", "latest", "earliest",
          "drop-before", "clear"}

# The commands whose last argument is a bit, and the bytes that are the bit 1.
BITS = {"push", "set"}
ONES = (1, 1, 2, 128, 254, 255)

# What each search finds in the positions that are set and in those that are not.
SEARCHES = {
    "next_one": lambda ones, zeros, at: next((position for position in ones if position >= at), None),
    "next_zero": lambda ones, zeros, at: next((position for position in zeros if position >= at), None),
    "prev_one": lambda ones, zeros, at: next((position for position in reversed(ones) if position < at), None),
    "prev_zero": lambda ones, zeros, at: next((position for position in reversed(zeros) if position < at), None),
    "select_one": lambda ones, zeros, at: ones[at] if at < len(ones) else None,
}

# The calls that need a batch. A command that is refused as `wrong-mode` has the status NOT_IN_BATCH by these calls, and IN_BATCH by any other.
EDITS = {"push", "push_byte", "push_bytes", "push_chunk", "push_bits", "pop", "set", "set_many", "set_chunk", "set_range", "truncate", "extend_to",
         "prune", "commit", "abort"}

# The commands that add an entry to a log, with the tag of the entry.
ENTRIES = {"commit": COMMIT, "rewind": REWIND, "drop-before": DROP, "clear": CLEAR}

# The status of each error of a history, a delta or a log, by words that its name in docs/FORMATS.md begins with. The first that fits counts.
STATUSES = (("Header(Short)", "CUT_OFF"), ("Short", "CUT_OFF"), ("Header(", "WRONG_HEADER"), ("NotADelta", "WRONG_HEADER"), ("Version(", "WRONG_HEADER"),
            ("Width(", "WRONG_HEADER"), ("BadHead", "DAMAGED"), ("BadDigest", "DAMAGED"), ("Base(State(InvalidLength", "OUT_OF_RANGE"),
            ("Count(", "OUT_OF_RANGE"), ("Bits(", "OUT_OF_RANGE"), ("NotAtBase", "NOT_AT_BASE"), ("Base(", "NOT_ACCEPTED"), ("Entry(", "NOT_ACCEPTED"),
            ("Change(", "NOT_ACCEPTED"), ("NoBase", "CUT_OFF"), ("Head", "DAMAGED"), ("Digest", "DAMAGED"))


class Difference(Exception):
    """A call does not do what the model does."""


def outcome_of(reply):
    """The status of a reply of the model, and the value that comes with it, or None."""
    word, *rest = reply.split(" ")
    if word == "refused":
        codec = rest[0] == "codec"
        name, *numbers = rest[1:] if codec else rest
        return name.upper().replace("-", "_"), int(numbers[0]) if numbers and numbers[0].isdigit() else None
    if word in ("done", "none"):
        return word.upper(), None
    if word in ("chunk", "bytes"):
        return "DONE", bytes.fromhex(rest[0])
    return "DONE", [int(number) for number in rest] if word == "positions" else int(rest[0])


def status_of(error):
    """The status of an error of a history, a delta or a log."""
    return next(status for name, status in STATUSES if str(error).startswith(name))


class KeptLog:
    """A log that begins with a history: its bytes, how many of them are forgotten, and the place of its next entry."""

    def __init__(self, width, bodies):
        self.data, self.forgotten = header(width), 0
        self.place = first_place(self.data)
        for body in bodies:
            self.append(body)

    def append(self, body):
        data, self.place = frame(self.place, body)
        self.data += data


class Handle(LibraryHandle):
    """A handle, with the log that its bitmap keeps, or None."""

    log = None


def ends_of(text):
    """The least and the greatest number of a range of the script language."""
    kind, *ends = text.split(":")
    low, high = int(ends[0]) if ends else 0, int(ends[-1]) if ends else LAST
    return 0 if kind == "most" else low, LAST if kind == "least" else high


class InterfaceScript(RandomScript):
    """A random script, each line of which runs on the model and on the library."""

    def __init__(self, library, seed, width, begins_indexed=False):
        super().__init__(seed, width)
        self.library, self.calls, self.spare, self.formats = library, Counter(), None, Formats(width)
        self.begins_indexed = begins_indexed
        self.handle, self.recent = Handle(), deque(maxlen=10)

    def expect(self, name, status, *given, **written):
        """Calls a function with the handle. It has to return the status, and to write these outputs and no others."""
        self.expect_of(self.handle, name, status, *given, **written)

    def expect_of(self, handle, name, status, *given, **written):
        if status == "WRONG_MODE":
            status = "NOT_IN_BATCH" if name in EDITS else "IN_BATCH"
        self.expect_alone(name, status, handle, *given, **written)

    def expect_alone(self, name, status, *given, **written):
        """Calls a function with what is given alone. It has to return the status, and to write these outputs and no others."""
        self.recent.append((name, given))
        found, wanted = self.library.call(name, *given), outcome(status, written)
        self.calls[name, found.status] += 1
        if found != wanted:
            raise Difference(f"{found}, not {wanted}")

    def shown(self):
        """The last calls."""
        return "; ".join(f"{name}({', '.join(str(each) for each in given if not isinstance(each, Handle))})" for name, given in self.recent)

    # The lines of the script

    def add(self, *lines):
        for line in lines:
            before, (name, *words) = self.state.current, line.split(" ")
            if name == "start" and self.handle.log:
                self.expect("start", "HAS_LOG", *map(int, words))
                continue
            super().add(line)
            if name in ENTRIES and not self.replies[-1].startswith("refused"):
                self.log_entry(ENTRIES[name], words, before)
            if name in DIRECT:
                numbers = [int(word) for word in words]
                if name in BITS:
                    numbers[-1] = self.random.choice(ONES) if numbers[-1] else 0
                self.direct(name.replace("-", "_"), numbers, self.replies[-1])
            else:
                getattr(self, f"run_{name.replace('-', '_')}")(*words, self.replies[-1])
        self.random.choice(self.extra_steps())()

    def direct(self, name, given, reply):
        """Runs a command by one call. The value of its reply is the last output."""
        status, value = outcome_of(reply)
        self.expect(name, status, *given, **({} if value is None else {self.library.outputs(name)[-1]: value}))

    def run_push_byte(self, digits, reply):
        self.direct("push_byte", [int(digits, 16)], reply)

    def run_push_chunk(self, digits, reply):
        self.direct("push_chunk", [bytes.fromhex(digits)], reply)

    def run_chunk(self, position, reply):
        self.direct("chunk", [int(position), self.model.width], reply)

    def run_entries(self, reply):
        """The model has an upper limit of the number of entries."""
        if isinstance(reply, str):
            return self.direct("entries", [], reply)
        found = self.library.call("entries", self.handle)
        self.calls["entries", found.status] += 1
        if found.status != "DONE" or not 0 <= found.written.get("entries", -1) <= reply:
            raise Difference(f"entries: {found}, not at most {reply}")

    def run_ones(self, start, end, _):
        """In a batch the call reads the pending bitmap, while the command is refused."""
        self.pages("ones", [int(start), int(end)], 0, self.model.set_positions(self.bitmap(), int(start), int(end)))

    def run_ones_at(self, number, start, end, reply):
        self.pages("ones_at", [int(number), int(start), int(end)], 1, self.reply_of_read(number, reply))

    def run_commits(self, reply):
        self.pages("commits", [0], 0, reply)

    def run_encode(self, reply):
        self.encode("encode", [], reply)

    def run_encode_at(self, number, reply):
        self.encode("encode_at", [int(number)], self.reply_of_read(number, reply))

    def run_at(self, number, reply):
        """Reads a past state whole, in place."""
        reply = self.reply_of_read(number, reply)
        if not reply.startswith("bitmap"):
            return self.direct("len_at", [int(number)], reply)
        bitmap = self.state.history[int(number)].bitmap
        self.expect("len_at", "DONE", int(number), len=self.model.length(bitmap))
        self.expect("pruned_chunks_at", "DONE", int(number), chunks=bitmap.pruned)
        self.pages("ones_at", [int(number), 0, LAST], 1, self.model.set_positions(bitmap, 0, LAST), most=LAST)

    def run_decode(self, digits, ends, reply):
        """Reads a bitmap into another handle, and encodes it."""
        data, handle = bytes.fromhex(digits.strip("-")), Handle()
        given = (self.model.width, *ends_of(ends), data)
        if not reply.startswith("read"):
            status, length = outcome_of(reply)
            return self.expect_of(handle, "read", status, *given, **({} if length is None else {"length": length}))
        _, pruned, bits, left = reply.split(" ")
        encoded = bytes.fromhex(self.model.encoded(Bitmap(int(pruned), tuple(map(int, bits.strip("-"))))).removeprefix("bytes "))
        self.expect_of(handle, "read", "DONE", *given, used=len(data) - int(left))
        self.expect_of(handle, "encode", "DONE", len(encoded), out=encoded, size=len(encoded))
        self.expect_of(handle, "latest", "NONE")
        self.expect_of(handle, "free", "DONE")

    def reply_of_read(self, number, reply):
        """The reply of a read in place: a commit that is not kept is refused."""
        return "refused no-such-commit" if reply == "none" else reply

    def pages(self, name, given, at, reply, most=3):
        """Reads the first pages of a list. Argument `at` is the number at which a page begins."""
        status, wanted = outcome_of(reply)
        sizes = [64, len(wanted or ()), len(wanted or ()) + 1]
        size = self.random.choice(sizes if most > 3 else [0, 1, 2, 7, *sizes])
        if status != "DONE":
            return self.expect(name, status, *given, size)
        for page in range(min(most, len(wanted) // max(size, 1) + 1)):
            found = wanted[page * size : (page + 1) * size]
            self.expect(name, "DONE", *given, size, out=found, count=len(found))
            if found:
                given = [*given[:at], found[-1] + 1, *given[at + 1 :]]

    def encode(self, name, given, reply):
        """Encodes into a buffer of a wrong size, and then of the right one."""
        status, wanted = outcome_of(reply)
        if status != "DONE":
            return self.expect(name, status, *given, self.random.randint(0, 20))
        for size in self.random.sample([0, len(wanted) - 1, len(wanted) + 1], 1):
            self.expect(name, "WRONG_SIZE", *given, size, size=len(wanted))
        self.expect(name, "DONE", *given, len(wanted), out=wanted, size=len(wanted))

    # Steps that the scripts do not have

    def extra_steps(self):
        return [self.search, self.search, self.search, self.count_ones, self.read_bytes, self.read_bytes, self.read_past, self.read_past,
                self.page_of_commits, self.page_of_changes, self.verify, self.verify_range,
                self.use_wrong_arguments, self.push_in_one_call, self.set_in_one_call, self.push_bits, self.set_chunk, self.set_range, self.change_length,
                *[self.read_log, self.recover_log] * (self.handle.log is not None),
                *[self.clone, self.checkout, self.index, self.save, self.delta, self.apply_delta, self.begin_log, self.begin_log, self.read_log,
                  self.recover_log, self.end_log] * (self.random.random() < 0.1)]

    def any_number(self):
        return self.kept_number(list(self.state.history))

    def view(self, number):
        """The status of a read of the bitmap at a commit, or of the pending or current one, and the bitmap or None."""
        if number is None:
            return "DONE", self.bitmap()
        if self.state.pending is not None:
            return "WRONG_MODE", None
        return ("DONE", self.state.history[number].bitmap) if number in self.state.history else ("NO_SUCH_COMMIT", None)

    def positions(self, bitmap, bit):
        first = self.model.first(bitmap)
        return [first + at for at, each in enumerate(bitmap.bits) if each == bit]

    def commit_or_none(self):
        """A commit number or None, the ending of the names of its reads, and their first arguments."""
        if self.random.random() < 0.5:
            return None, "", []
        number = self.any_number()
        return number, "_at", [number]

    def search(self):
        number, ending, given = self.commit_or_none()
        status, bitmap = self.view(number)
        name, find = self.random.choice(list(SEARCHES.items()))
        argument = self.random.choice([self.position(), self.random.randint(0, 40), LAST])
        found = None if bitmap is None else find(self.positions(bitmap, 1), self.positions(bitmap, 0), argument)
        if status == "DONE" and found is None:
            status = "NONE"
        self.expect(name + ending, status, *given, argument, **({} if found is None else {"position": found}))

    def count_ones(self):
        number, ending, given = self.commit_or_none()
        status, bitmap = self.view(number)
        start, end = self.position(), self.random.choice([self.position(), LAST])
        counted = {} if bitmap is None else {"count": sum(start <= position < end for position in self.positions(bitmap, 1))}
        self.expect(f"count_ones{ending}", status, *given, start, end, **counted)

    def read_bytes(self):
        """Reads a range as bytes. A range that is too long for a buffer has one of a wrong size."""
        number, ending, given = self.commit_or_none()
        status, bitmap = self.view(number)
        start, end = self.position(), self.position()
        if self.random.random() < 0.9:
            start, end = min(start, end), max(start, end)
        size = -(-max(end - start, 0) // 8)
        wrong = min(max(self.random.choice([0, size - 1, size + 1]), 0), 10000)
        if bitmap is None:
            return self.expect(f"read_bytes{ending}", status, *given, start, end, min(size, 100))
        if wrong != size:
            self.expect(f"read_bytes{ending}", "WRONG_SIZE", *given, start, end, wrong)
        if size > 10000:
            return
        first, length = self.model.first(bitmap), self.model.length(bitmap)
        if start > end or end > length:
            return self.expect(f"read_bytes{ending}", "OUT_OF_BOUNDS", *given, start, end, size)
        if start < first:
            return self.expect(f"read_bytes{ending}", "PRUNED", *given, start, end, size)
        self.expect(f"read_bytes{ending}", "DONE", *given, start, end, size, out=bytes_of(bitmap.bits[start - first : end - first]))

    def read_past(self):
        """Reads the lengths of a past state, a bit and a chunk."""
        number, position, width = self.any_number(), self.position(), self.model.width
        status, bitmap = self.view(number)
        if bitmap is None:
            for name, given in (("len_at", []), ("pruned_chunks_at", []), ("get_at", [position]), ("chunk_at", [position, width])):
                self.expect(name, status, number, *given)
            return
        self.expect("len_at", "DONE", number, len=self.model.length(bitmap))
        self.expect("pruned_chunks_at", "DONE", number, chunks=bitmap.pruned)
        self.expect("chunk_at", "WRONG_SIZE", number, position, self.random.choice([0, width - 1, width + 1]))
        past = self.state._replace(current=bitmap)
        self.direct("get_at", [number, position], self.model.step(past, ["get", str(position)]).reply)
        self.direct("chunk_at", [number, position, width], self.model.step(past, ["chunk", str(position)]).reply)

    def page_of_commits(self):
        start = self.any_number()
        wanted = [number for number in self.state.history if number >= start]
        self.pages("commits", [start], 0, self.listed(wanted) if self.state.pending is None else "refused wrong-mode")

    def listed(self, numbers):
        return "positions" + "".join(f" {number}" for number in numbers)

    def retained_chunks(self, bitmap):
        """The bytes of the retained chunks by index."""
        size = self.model.chunk_bits
        return {bitmap.pruned + at // size: bytes_of(bitmap.bits[at : at + size]).ljust(self.model.width, bytes(1))
                for at in range(0, len(bitmap.bits), size)}

    def page_of_changes(self):
        start, end = self.any_number(), self.any_number()
        first = self.random.choice([0, 0, self.position() // self.model.chunk_bits])
        status, old = self.view(start)
        if status == "DONE":
            status, new = self.view(end)
        if status == "DONE" and start > end:
            status = "NO_SUCH_COMMIT"
        if status != "DONE":
            return self.expect("changed_chunks", status, start, end, first, 3)
        before, after = self.retained_chunks(old), self.retained_chunks(new)
        changed = sorted(index for index in {*before, *after} if index >= first and before.get(index) != after.get(index))
        self.pages("changed_chunks", [start, end, first], 2, self.listed(changed))

    def use_wrong_arguments(self):
        """Calls that are refused in or out of a batch, since an argument has no meaning."""
        width, handle = self.model.width, Handle()
        wrong = self.random.choice([size for size in (0, 1, width - 1, width + 1, 64) if size != width])
        self.expect("chunk", "WRONG_SIZE", self.position(), wrong)
        self.expect("push_chunk", "WRONG_SIZE", bytes(wrong))
        self.expect("new", "FULL_HANDLE", self.random.choice(WIDTHS + WRONG_WIDTHS))
        self.expect("set_chunk", "WRONG_SIZE", self.position() // self.model.chunk_bits, bytes(wrong))
        self.expect("read", "FULL_HANDLE", self.random.choice(WIDTHS + WRONG_WIDTHS), 0, LAST, bytes(16))
        self.expect("load", "FULL_HANDLE", self.random.choice(WIDTHS + WRONG_WIDTHS), 0, LAST, 0, LAST, bytes(16))
        self.expect("recover", "FULL_HANDLE", self.random.choice(WIDTHS + WRONG_WIDTHS), bytes(16))
        self.expect("push_bytes", "DONE", b"", count=0)
        self.expect("set_many", "DONE", [], self.random.choice(ONES), count=0)
        self.expect_of(handle, "new", "NO_SUCH_WIDTH", self.random.choice(WRONG_WIDTHS))
        self.expect_of(handle, "read", "NO_SUCH_WIDTH", self.random.choice(WRONG_WIDTHS), 0, LAST, bytes(16))
        self.expect_of(handle, "load", "NO_SUCH_WIDTH", self.random.choice(WRONG_WIDTHS), 0, LAST, 0, LAST, bytes(16))
        self.expect_of(handle, "recover", "NO_SUCH_WIDTH", self.random.choice(WRONG_WIDTHS), bytes(16))
        self.expect_of(handle, "clone", "EMPTY_HANDLE", self.handle)

    def push_in_one_call(self):
        """Pushes bytes by one call, up to the first that is refused."""
        data, count, status = self.random.randbytes(self.random.randint(1, 2 * self.model.width + 1)), 0, "DONE"
        while count < len(data) and status == "DONE":
            step = self.model.step(self.state, ["push-byte", f"{data[count]:02x}"])
            status, _ = outcome_of(step.reply)
            self.state = step.state
            count += status == "DONE"
        self.expect("push_bytes", status, data, count=count)

    def set_in_one_call(self):
        """Sets the bits at some positions by one call, up to the first that is refused."""
        positions, bit = [self.position() for _ in range(self.random.randint(1, 6))], self.random.choice([0, *ONES])
        count, status = 0, "DONE"
        while count < len(positions) and status == "DONE":
            step = self.model.step(self.state, ["set", str(positions[count]), str(int(bit != 0))])
            status, _ = outcome_of(step.reply)
            self.state = step.state
            count += status == "DONE"
        self.expect("set_many", status, positions, bit, count=count)

    def edit(self, name, refusal, bits, start, end, *given):
        """Replaces the retained bits of the batch, of which those from position `start` up to `end` are touched, by one call, unless it is refused."""
        status = "WRONG_MODE" if self.state.pending is None else refusal or "DONE"
        if status == "DONE":
            size = self.model.chunk_bits
            touched = range(start // size, (end - 1) // size + 1) if start < end else ()
            self.state = self.model.edited(self.state, self.state.pending._replace(bits=bits), touched).state
        self.expect(name, status, *given)

    def push_bits(self):
        """Appends a bit per byte by one call."""
        data = bytes(self.random.choice([0, *ONES]) for _ in range(self.random.randint(0, 2 * self.model.chunk_bits + 1)))
        start, end = self.length(), self.length() + len(data)
        bits = self.bitmap().bits + tuple(int(byte != 0) for byte in data)
        self.edit("push_bits", "TOO_LONG" if end > LAST else None, bits, start, end, data)

    def first_refusal(self, is_past, is_pruned):
        return "OUT_OF_BOUNDS" if is_past else "PRUNED" if is_pruned else None

    def replaced(self, start, bits):
        """The retained bits with others from a position on, as far as there are any."""
        old, at = self.bitmap().bits, start - self.first()
        return old[:at] + tuple(bits)[: len(old) - at] + old[at + len(bits) :]

    def set_chunk(self):
        """Replaces the bits of a chunk, up to the length."""
        size, data = self.model.chunk_bits, self.random.randbytes(self.model.width)
        start = self.position() // size * size
        refusal = self.first_refusal(start >= self.length(), start < self.first())
        bits = self.replaced(start, bits_of(data)) if refusal is None else ()
        self.edit("set_chunk", refusal, bits, start, min(start + size, self.length()), start // size, data)

    def set_range(self):
        """Sets the bits of a range. An empty one is never refused in a batch."""
        start, end, bit = self.position(), self.position(), self.random.choice([0, *ONES])
        refusal = self.first_refusal(end > self.length(), start < self.first()) if start < end else None
        is_written = start < end and refusal is None
        bits = self.replaced(start, [int(bit != 0)] * (end - start)) if is_written else self.bitmap().bits
        self.edit("set_range", refusal, bits, start, end, start, end, bit)

    def change_length(self):
        """Removes bits down to a length, or appends zeros up to one."""
        old, first = self.length(), self.first()
        length = min(self.position() if self.random.random() < 0.5 else old + self.random.randint(0, self.model.chunk_bits + 1), LAST)
        if self.random.random() < 0.3:
            refusal = self.first_refusal(length > old, length < first)
            return self.edit("truncate", refusal, self.bitmap().bits[: max(length - first, 0)], length, old, length)
        if length < old + 2 * self.model.chunk_bits:
            self.edit("extend_to", None, self.bitmap().bits + (0,) * max(length - old, 0), old, length, length)

    # Histories and deltas

    def historical(self):
        """The bitmap outside a batch, as tools/formats.py has it."""
        kept = {number: self.formats.state_of(*reversed(commit.bitmap)) for number, commit in self.state.history.items()}
        return Historical(self.formats.state_of(*reversed(self.state.current)), kept, self.state.last)

    def changed(self, data):
        """Some bytes, of which often some are changed or left out."""
        chance, data = self.random.randint(0, 4), bytearray(data)
        if chance == 0:
            del data[self.random.randrange(len(data)) :]
        elif chance == 1:
            data[self.random.randrange(len(data))] ^= 1 << self.random.randrange(8)
        elif chance == 2:
            data[self.random.randrange(8) + 8 * self.random.randrange(4)] ^= 1 << self.random.randrange(8)
        return bytes(data)

    def range_of_numbers(self):
        low, high = self.random.randint(0, 40), self.random.randint(0, 80)
        return self.random.choice([range(LAST + 1)] * 6 + [range(low, LAST + 1), range(high + 1), range(low, high + 1)])

    def other_history(self):
        """A history whose digests are right, and whose bodies often are not: a byte is another one, or a commit is there twice."""
        bodies = self.formats.history_bodies(self.historical())
        at = self.random.randrange(len(bodies))
        if self.random.random() < 0.3:
            bodies.insert(at, bodies[at])
        else:
            body = bytearray(bodies[at])
            body[self.random.randrange(min(26, len(body)))] ^= 1 << self.random.randrange(8)
            bodies[at] = bytes(body)
        start = header(self.model.width)
        return start + framed(first_place(start), bodies)[0]

    def save(self):
        """Saves the bitmap, and loads other bytes or what was saved into another handle. Goes on with either bitmap."""
        if self.state.pending is not None:
            return self.expect("save", "WRONG_MODE", 20)
        saved = self.formats.write_history(self.historical())
        self.encode("save", [], f"bytes {saved.hex()}")
        self.load(self.random.choice([self.changed(saved), self.other_history()]))
        handle = Handle()
        self.check_spare()
        given = (self.model.width, 0, LAST, 0, LAST, saved + self.random.randbytes(self.random.randint(0, 9)))
        self.expect_of(handle, "load", "DONE", *given, used=len(saved))
        self.handle, other = self.random.sample([self.handle, handle], 2)
        self.spare = other, self.state

    def load(self, data):
        """Loads bytes with ranges into another handle, and saves what was loaded."""
        bits, counts, handle = self.range_of_numbers(), self.range_of_numbers(), Handle()
        given = (self.model.width, bits.start, bits.stop - 1, counts.start, counts.stop - 1, data)
        try:
            loaded, rest = self.formats.read_history(data, bits, counts)
        except ReadError as error:
            self.expect_of(handle, "load", status_of(error), *given)
            return self.expect_of(handle, "free", "EMPTY_HANDLE")
        saved = self.formats.write_history(loaded)
        self.expect_of(handle, "load", "DONE", *given, used=len(data) - len(rest))
        self.expect_of(handle, "save", "DONE", len(saved), out=saved, size=len(saved))
        self.expect_of(handle, "free", "DONE")

    def delta(self):
        """Writes the delta between two commits."""
        older, newer = self.any_number(), self.any_number()
        if self.state.pending is not None:
            return self.expect("delta", "WRONG_MODE", older, newer, 20)
        found = self.formats.delta(self.historical(), older, newer)
        self.encode("delta", [older, newer], "refused no-such-commit" if found is None else f"bytes {found.hex()}")

    def any_delta(self):
        """The delta from the current bitmap to one with other bits, or a part of it. Its digest is often right if its bytes are not."""
        bitmap, last = self.historical(), self.state.last or 0
        bits = [self.random.randint(0, 1) for _ in range(self.random.randint(0, 2 * self.model.chunk_bits))]
        pruned = min(self.state.current.pruned + self.random.randint(0, 1), (LAST - len(bits)) // self.model.chunk_bits)
        number = self.random.choice([last + 1, last + 2, last + 2, last, LAST]) & LAST
        change = self.formats.change(bitmap.current, self.formats.state_of(bits, pruned))
        data = bytearray(self.formats.write_delta(last, bitmap.current, number, change))
        if self.random.random() < 0.3:
            data[self.random.randrange(16, len(data) - 8)] ^= 1 << self.random.randrange(8)
            data[-8:] = be64(digest(bytes(data[:-8])))
        return self.changed(data)

    def apply_delta(self):
        """Applies a delta to the bitmap."""
        data = self.any_delta()
        if self.state.pending is not None:
            return self.expect("apply_delta", "WRONG_MODE", data)
        try:
            bitmap = self.formats.apply_delta(self.historical(), data)
        except ReadError as error:
            return self.expect("apply_delta", status_of(error), data)
        bits = tuple(int(digit) for digit in self.formats.digits(bitmap.current))
        new = Bitmap(bitmap.current.pruned, bits)
        chunks = {*self.retained_chunks(self.state.current), *self.retained_chunks(new)}
        history = {**self.state.history, bitmap.last: Commit(new, len(chunks) + 1)}
        self.expect("apply_delta", "DONE", data)
        before = self.state.current
        self.state = self.state._replace(current=new, history=history, last=bitmap.last)
        self.log_entry(COMMIT, [bitmap.last], before)

    # Logs

    def log_entry(self, tag, words, before):
        """Appends an entry to the log, if there is one. The bitmap before a commit is given."""
        if self.handle.log is None:
            return
        states = [self.formats.state_of(*reversed(bitmap)) for bitmap in (before, self.state.current)]
        entry = Entry(tag, *map(int, words), **({"change": self.formats.change(*states)} if tag == COMMIT else {}))
        self.handle.log.append(self.formats.write_entry(entry))

    def begin_log(self):
        status = "HAS_LOG" if self.handle.log else "DONE" if self.state.pending is None else "WRONG_MODE"
        self.expect("log_begin", status)
        if status == "DONE":
            self.handle.log = KeptLog(self.model.width, self.formats.history_bodies(self.historical()))

    def end_log(self):
        self.expect("log_end", "DONE" if self.handle.log else "NO_LOG")
        self.handle.log = None

    def read_log(self):
        """Reads the log, and often forgets its bytes."""
        log = self.handle.log
        if log is None:
            for name, given in (("log_bytes", [9]), ("log_position", []), ("log_digest", []), ("log_forget", [])):
                self.expect(name, "NO_LOG", *given)
            return
        left = log.data[log.forgotten :]
        self.expect("log_bytes", "WRONG_SIZE", len(left) + self.random.randint(1, 9), size=len(left))
        self.expect("log_bytes", "DONE", len(left), out=left, size=len(left))
        self.expect("log_position", "DONE", position=len(log.data))
        self.expect("log_digest", "DONE", digest=log.place.chain)
        if self.random.random() < 0.7:
            self.expect("log_forget", "DONE")
            log.forgotten = len(log.data)

    def recover_log(self):
        """Recovers other bytes and the log itself into another handle. Goes on with either bitmap, unless it is in a batch."""
        log = self.handle.log
        if log is None:
            return self.recover_and_free(self.changed(self.other_history()))
        cut = log.data[: self.random.randrange(len(log.data))] + bytes(self.random.randint(0, 30))
        self.recover_and_free(self.random.choice([self.changed(log.data), cut]))
        handle = self.recover(log.data + self.random.randbytes(self.random.randint(0, 15)))
        if self.state.pending is not None:
            return self.expect_of(handle, "free", "DONE")
        self.check_spare()
        handle.log = KeptLog(self.model.width, [])
        handle.log.data, handle.log.forgotten, handle.log.place = log.data, len(log.data), log.place
        self.handle, other = self.random.sample([self.handle, handle], 2)
        self.spare = other, self.state

    def recover(self, data):
        """Recovers bytes into another handle, and compares what it keeps with what they make. Returns the handle, which may be empty."""
        handle, given = Handle(), (self.model.width, data)
        try:
            found = self.formats.recover(data)
        except ReadError as error:
            damage = re.fullmatch(r"Damaged { at: (\d+), (.*) }", str(error))
            status, written = (status_of(damage[2]), {"good": int(damage[1])}) if damage else (status_of(error), {})
            self.expect_of(handle, "recover", status, *given, **written)
            self.expect_of(handle, "free", "EMPTY_HANDLE")
            return handle
        self.expect_of(handle, "recover", "DONE", *given, good=found.place.at)
        saved = self.formats.write_history(found.bitmap)
        self.expect_of(handle, "save", "DONE", len(saved), out=saved, size=len(saved))
        self.expect_of(handle, "log_position", "DONE", position=found.place.at)
        self.expect_of(handle, "log_digest", "DONE", digest=found.place.chain)
        return handle

    def recover_and_free(self, data):
        """Recovers bytes into another handle, and frees what they make, if they make a bitmap."""
        handle = self.recover(data)
        if handle.session is not None:
            self.expect_of(handle, "free", "DONE")

    def clone(self):
        """Clones the bitmap, and goes on with either. The other one is compared with what it was, later."""
        self.check_spare()
        copy = Handle()
        self.expect("clone", "DONE", copy)
        self.expect("clone", "FULL_HANDLE", copy)
        self.handle, other = self.random.sample([self.handle, copy], 2)
        self.spare = other, self.state

    def checkout(self):
        """Makes a bitmap of the one at a commit, and goes on with either. The other one is compared with what it was, later."""
        number, copy = self.any_number(), Handle()
        status, bitmap = self.view(number)
        self.expect("checkout", status, number, copy)
        if status != "DONE":
            return self.expect_of(copy, "free", "EMPTY_HANDLE")
        self.expect("checkout", "FULL_HANDLE", number, copy)
        self.check_spare()
        made = copy, self.state._replace(current=bitmap, history={}, last=None)
        (self.handle, self.state), self.spare = self.random.sample([(self.handle, self.state), made], 2)

    def index(self):
        """Adds an index of the kept commits, or drops it. The calls after that do what they did without it."""
        self.expect("index", "DONE" if self.state.pending is None else "WRONG_MODE", self.random.choice([0, 1, 1, 255]))

    # Checks of proofs, for which there is no bitmap in the library

    def bitmap_with_root(self):
        """A random bitmap: its width, its length and its number of pruned chunks, its chunks, and the digests of these."""
        width = self.random.choice(WIDTHS)
        length = self.random.randint(1, 9 * 8 * width)
        count = -(-length // (8 * width))
        data = self.random.getrandbits(length).to_bytes(width * count, "little")
        chunks = [data[at : at + width] for at in range(0, len(data), width)]
        return (width, length, self.random.randint(0, count)), chunks, [roots.leaf(chunk) for chunk in chunks]

    def changed_proofs(self, proof):
        """The bytes of a proof, and copies of them that are cut off, longer, or have another byte."""
        flipped = bytearray(proof)
        flipped[self.random.randrange(len(proof))] ^= self.random.randint(1, 255)
        return [proof, bytes(flipped), proof[: self.random.randrange(len(proof))], proof + bytes(1), proof + bytes(32)]

    def verify(self):
        """Checks proofs of a chunk against its root, and against another one, and reads bits of them."""
        shape, chunks, digests = self.bitmap_with_root()
        width, index = shape[0], self.random.randrange(len(chunks))
        wanted = roots.root(*shape, roots.tree(digests))
        proof = roots.encoding(*shape, index, chunks[index], roots.audit_path(index, digests))
        for data in self.changed_proofs(proof):
            self.verify_chunk_and_bits(width, wanted, data)
        self.expect_alone("verify_chunk", "NOT_VERIFIED", width, roots.digest(wanted), proof, width)
        self.expect_alone("verify_bit", "NOT_VERIFIED", width, roots.digest(wanted), proof, 8 * width * index)
        self.expect_alone("verify_chunk", "WRONG_SIZE", width, wanted, proof, self.random.choice([0, width - 1, width + 1]))
        other = self.random.choice([each for each in WIDTHS + WRONG_WIDTHS if each != width])
        status = "INVALID" if other in WIDTHS else "NO_SUCH_WIDTH"
        self.expect_alone("verify_chunk", status, other, wanted, proof, width)
        self.expect_alone("verify_bit", status, other, wanted, proof, 8 * width * index)

    def verify_chunk_and_bits(self, width, wanted, data):
        """Checks the bytes of a proof, and reads the bits at some positions of them, as tools/roots.py does."""
        read = roots.read(width, data)
        if isinstance(read, str):
            self.expect_alone("verify_chunk", "INVALID", width, wanted, data, width)
            return self.expect_alone("verify_bit", "INVALID", width, wanted, data, 0)
        _, length, pruned, index, chunk, _ = read
        if not roots.verifies(wanted, *read):
            self.expect_alone("verify_chunk", "NOT_VERIFIED", width, wanted, data, width)
            return self.expect_alone("verify_bit", "NOT_VERIFIED", width, wanted, data, min(8 * width * index, LAST))
        self.expect_alone("verify_chunk", "DONE", width, wanted, data, width, chunk=chunk, length=length, pruned_chunks=pruned, index=index)
        for position in (self.random.randint(0, length + 8), 8 * width * index + self.random.randrange(8 * width), LAST):
            at = position // (8 * width)
            status = ("OUT_OF_BOUNDS" if position >= length else "PRUNED" if at < pruned else "NOT_VERIFIED" if at != index else "DONE")
            bit = chunk[position // 8 % width] >> position % 8 & 1
            self.expect_alone("verify_bit", status, width, wanted, data, position, **({"bit": bit} if status == "DONE" else {}))

    def verify_range(self):
        """Checks proofs of a range against its root, and against another one."""
        shape, chunks, digests = self.bitmap_with_root()
        first, end = sorted(self.random.sample(range(len(chunks) + 1), 2))
        width, wanted = shape[0], roots.root(*shape, roots.tree(digests))
        proof = roots.range_encoding(*shape, first, chunks[first:end], roots.range_siblings(first, end - first, digests))
        for data in self.changed_proofs(proof):
            self.verify_range_of(width, wanted, data)
        size = width * (end - first)
        self.expect_alone("verify_range", "NOT_VERIFIED", width, roots.digest(wanted), proof, size)
        self.expect_alone("verify_range", "WRONG_SIZE", width, wanted, proof, self.random.choice([0, size - 1, size + 1]), size=size)
        other = self.random.choice([each for each in WIDTHS + WRONG_WIDTHS if each != width])
        self.expect_alone("verify_range", "INVALID" if other in WIDTHS else "NO_SUCH_WIDTH", other, wanted, proof, size)

    def verify_range_of(self, width, wanted, data):
        """Checks the bytes of a proof of a range, as tools/roots.py does."""
        read = roots.read_range(width, data)
        if isinstance(read, str):
            return self.expect_alone("verify_range", "INVALID", width, wanted, data, width)
        _, length, pruned, first, chunks, _ = read
        size = width * len(chunks)
        if not roots.range_verifies(wanted, *read):
            return self.expect_alone("verify_range", "NOT_VERIFIED", width, wanted, data, size)
        shown = {"chunks": b"".join(chunks), "size": size, "length": length, "pruned_chunks": pruned, "first": first}
        self.expect_alone("verify_range", "DONE", width, wanted, data, size, **shown)

    def check_spare(self):
        """Reads the bitmap that was set aside, with its commits, and frees it."""
        if self.spare is None:
            return
        now = self.handle, self.state
        (self.handle, self.state), self.spare = self.spare, None
        if self.state.pending is not None:
            self.expect("len", "DONE", len=self.model.length(self.state.pending))
            self.expect("abort", "DONE")
            self.state = self.state._replace(pending=None)
        self.encode("encode", [], self.model.encoded(self.state.current))
        self.pages("commits", [0], 0, self.listed(self.state.history), most=LAST)
        for number, commit in self.state.history.items():
            self.encode("encode_at", [number], self.model.encoded(commit.bitmap))
        self.free()
        self.handle, self.state = now

    # The whole script

    def use_empty_handle(self):
        """Calls each function that has a handle with an empty one."""
        samples = {"u8": 1, "u32": 8, "u64": 0, "size": 0, "u8 array in": b"ab", "u64 array in": [1, 2], "u8 array out": 2, "u64 array out": 3}
        for name, function in self.library.declared.functions.items():
            kinds = [kind for _, kind in function.parameters]
            if kinds and kinds[0] in HANDLES and name not in ("new", "read", "load", "recover"):
                others = [Handle() if kind in HANDLES else samples[kind] for kind in kinds[1:] if kind in HANDLES or kind in samples]
                self.expect_of(Handle(), name, "EMPTY_HANDLE", *others)

    def free(self):
        self.expect("free", "DONE")
        if self.handle.session is not None:
            raise Difference("free leaves a handle that is not empty")
        self.expect("free", "EMPTY_HANDLE")

    def run(self, count):
        """Takes so many random steps from a new bitmap to a freed one."""
        self.use_empty_handle()
        self.expect("new", "DONE", self.model.width)
        if self.begins_indexed:
            self.expect("index", "DONE", 1)
        self.steps(count)
        self.read_all()
        self.check_spare()
        self.free()


@lru_cache(maxsize=None)
def loaded(path):
    return Library(path)


def check_script(path, number):
    """Runs a random script: the counts of its calls, the blocks that it makes and those that are left, and its case."""
    width, begins_indexed = WIDTHS[number % len(WIDTHS)], number // len(WIDTHS) % 2 == 1
    script, before = InterfaceScript(loaded(path), number, width, begins_indexed), blocks_now()
    try:
        script.run(20 + number % 80)
        failure = None
    except (Difference, Overrun) as difference:
        failure = f"{script.shown()}: {difference}"
    made, left = (now - then for now, then in zip(blocks_now(), before))
    blocks = Counter(made=made, left=left)
    return script.calls, blocks, (f"script {number} at width {width}", failure or (f"{left} of {made} blocks are not freed" if left else None))


def check_forgotten(library):
    """Whether a bitmap that is not freed is noticed."""
    handle, before = Handle(), blocks_now()
    library.call("new", handle, 8)
    made, left = (now - then for now, then in zip(blocks_now(), before))
    library.call("free", handle)
    return "a bitmap that is not freed", None if made and left == made and blocks_now()[1] == before[1] else f"{left} of {made} blocks are left"


def text_cases(library):
    """Whether each status has a text of its own, and another number the text of none; and whether the library has the declared version."""
    texts = [library.text(number) for number in sorted(library.names)]
    yield "the texts of the statuses", None if len({*texts}) == len(texts) and all(texts) else f"two are the same, or one is empty: {texts}"
    others = {library.text(number) for number in (len(texts), 1000, 2**32 - 1)}
    yield "the text of a number that is no status", None if len(others) == 1 and not others & {*texts} else f"{others}"
    version, wanted = library.functions["version"](), library.declared.version.number
    yield "the version", None if version == wanted else f"it is {version}, and {wanted} in the sources"


def coverage_cases(library, calls):
    """Whether each function that returns a status has succeeded, and each status has been returned."""
    statuses = {status for _, status in calls}
    for name, function in library.declared.functions.items():
        if function.result == "status":
            yield f"the function {name}", None if calls[name, "DONE"] else "it never succeeds"
    for status in sorted({*library.declared.statuses} - NEVER):
        yield f"the status {status}", None if status in statuses else "no call returns it"


def all_cases(path, count):
    """All runs, as cases."""
    library, calls, blocks = Library(path), Counter(), Counter()
    try:
        with ProcessPoolExecutor() as pool:
            checked = list(pool.map(partial(check_script, str(path)), range(count), chunksize=10))
    except BrokenProcessPool:
        return [("the random scripts", "a call has ended its process")]
    for found, counted, _ in checked:
        calls += found
        blocks += counted
    print(f"calls: {sum(calls.values())} of {len({name for name, _ in calls})} functions")
    print(f"blocks: {blocks['made']} made, {blocks['left']} left")
    return [*text_cases(library), check_forgotten(library), *coverage_cases(library, calls), *[case for _, _, case in checked]]


def main():
    if len(sys.argv) != 3:
        sys.exit(__doc__)
    path, count = sys.argv[1:]
    return report("interface", all_cases(path, int(count)))


if __name__ == "__main__":
    sys.exit(main())
