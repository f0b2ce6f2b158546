"""What the tests share."""

from __future__ import annotations

import subprocess
import sys
from unittest import mock

from mortarpink import Bitmap
from mortarpink._library import CALLS

MAX = 2**64 - 1

# The status of an allocation that failed.
NO_MEMORY = 13


# The log of the calls of `worked_steps`, a frame in each line after the header. Each frame has the length of its body, a digest of its place and this
# length, the body, and a digest of the body and of all that is before it.
WORKED = [
    "4d504249544c4f47 0000000000000001 0000000000000001 0b5345d577e3df7b",
    "0000000000000022 681c20c77e3ca319 04 00 0000000000000000 0000000000000000 0000000000000000 0000000000000000 210e45243dcc6fc5",
    "0000000000000022 5e94e59343a9b255 01 0000000000000001 0000000000000003 0000000000000000 0000000000000000 05 047d3edd96aca7ad",
    "000000000000002b 0617ef9306963819 01 0000000000000005 000000000000000b 0000000000000000 0000000000000000 5d 0000000000000001 06"
    " ee3250713d159206",
    "0000000000000009 3df4e7cbc31e449f 02 0000000000000001 68ce0b476a18468b",
    "0000000000000009 2328220afb295d45 03 0000000000000001 75872cd18716b0dc",
    "0000000000000001 f0e8689801a08294 05 7356dd36b6d8bbf2",
]

# Where each of its frames ends. A frame has 24 bytes beside its body. The body of a commit has 25 bytes, and 9 for each chunk.
ENDS = [90, 148, 215, 248, 281, 306]


def bitmap_of(bits: str, width: int = 1, pruned_chunks: int = 0, commit: int = 1) -> Bitmap:
    """Returns a bitmap with one commit, whose retained bits are the digits."""
    bitmap = Bitmap(width, pruned_chunks)
    with bitmap.batch(commit) as batch:
        for digit in bits:
            batch.push(int(digit))
    return bitmap


def with_versions() -> Bitmap:
    """Returns a bitmap of width 1: 1011 at commit 3, 10110010 11 at commit 5, 2 chunks pruned and 01 after them at commit 9."""
    bitmap = bitmap_of("1011", commit=3)
    with bitmap.batch(5) as batch:
        for digit in "001011":
            batch.push(digit == "1")
    with bitmap.batch(9) as batch:
        for _ in range(6):
            batch.push(False)
        batch.push(False)
        batch.push(True)
        batch.prune(16)
    return bitmap


def worked_steps():
    """Returns the calls on an empty bitmap of width 1 that make the frames after the first one."""

    def commit(bitmap, number, bits):
        with bitmap.batch(number) as batch:
            batch.push_bits(map(int, bits))

    return [
        lambda bitmap: commit(bitmap, 1, "101"),
        lambda bitmap: commit(bitmap, 5, "11010011"),
        lambda bitmap: bitmap.rewind_to(1),
        lambda bitmap: bitmap.drop_before(1),
        lambda bitmap: bitmap.clear(),
    ]


def states(bitmap):
    """Returns what can be read of a bitmap: the encoding of the current version, and of each kept one by its number."""
    return bytes(bitmap), {number: bytes(bitmap.at(number)) for number in bitmap.commits()}


def failing(name: str, status: int = NO_MEMORY):
    """Returns a context in which a function of the library fails with a status, and changes nothing."""
    return mock.patch.dict(CALLS, {name: lambda *arguments: status})


def run_script(*lines: str):
    """Runs a script in another process, and returns what it prints, and its errors."""
    script = "\n".join(["from mortarpink import Bitmap, NoMemoryError, _library", *lines])
    done = subprocess.run([sys.executable, "-c", script], capture_output=True, text=True)
    return done.stdout, done.stderr


def digest(data):
    """Returns the digest of bytes that logs and receipts have, SipHash-1-3 with a zero key, as it is stored: most significant byte first."""
    state = [0x736F6D6570736575, 0x646F72616E646F6D, 0x6C7967656E657261, 0x7465646279746573]
    whole = len(data) // 8 * 8
    words = [int.from_bytes(data[at : at + 8], "little") for at in range(0, whole, 8)]
    for word in *words, int.from_bytes(data[whole:], "little") + (len(data) % 256 << 56):
        state[3] ^= word
        state = sip_round(*state)
        state[0] ^= word
    state[2] ^= 0xFF
    for _ in range(3):
        state = sip_round(*state)
    return (state[0] ^ state[1] ^ state[2] ^ state[3]).to_bytes(8, "big")


def sip_round(v0, v1, v2, v3):
    """Returns the four words of a state of SipHash after one round."""
    v0 = v0 + v1 & MAX
    v1 = rotated(v1, 13) ^ v0
    v0 = rotated(v0, 32)
    v2 = v2 + v3 & MAX
    v3 = rotated(v3, 16) ^ v2
    v0 = v0 + v3 & MAX
    v3 = rotated(v3, 21) ^ v0
    v2 = v2 + v1 & MAX
    v1 = rotated(v1, 17) ^ v2
    return [v0, v1, rotated(v2, 32), v3]


def rotated(word, places):
    """Returns a word of 64 bits, rotated to the left."""
    return word << places & MAX | word >> 64 - places
