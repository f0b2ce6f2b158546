"""The receipts of a store: up to which place of its log all changes are acknowledged.

The file of the receipts has two blocks, which are written in turn. So while one of them is written, the other has the receipt before.
A receipt is written once the bytes of the log before its place are synced, and the call that changed the store returns once the receipt
is synced. The page on formats of the repository has the bytes.
"""

from __future__ import annotations

import struct
from typing import NamedTuple, Optional, Union

from ._session import MAX

# The number of bytes of a block, which is no smaller than what a disk writes at once, and that of a receipt. The rest of a block is zero.
BLOCK = 512
SIZE = 56

MAGIC = b"MPBRECPT"
VERSION = 1

# The magic, the version, the number, the kind, the two numbers of the place, and the check.
FIELDS = struct.Struct(">8s6Q")

# The kinds: the log has the bytes before the place, or a new log is whole at the place and replaces the log now or never.
KEPT = 1
BEGUN = 2

# What is in a block that has something else than a receipt, or no receipt.
DAMAGED = "damaged"
EMPTY = None


class Place(NamedTuple):
    """A place in a log: the number of bytes before it, and the digest of what is before it, which is the last eight bytes."""

    at: int
    digest: int

    @classmethod
    def after(cls, log: bytes) -> Place:
        """Returns the place after a log."""
        return cls(len(log), int.from_bytes(log[-8:], "big"))


class Receipt(NamedTuple):
    """A receipt. They are numbered from 1 on, and the number says which one is the last, and which block it is in."""

    number: int
    kind: int
    place: Place

    def encoded(self) -> bytes:
        """Returns the bytes of its block."""
        head = FIELDS.pack(MAGIC, VERSION, self.number, self.kind, *self.place, 0)[:-8]
        return (head + struct.pack(">Q", digest_of(head))).ljust(BLOCK, b"\0")

    def index(self) -> int:
        """Returns the index of its block."""
        return self.number % 2

    def position(self) -> int:
        """Returns the position of its block."""
        return self.index() * BLOCK

    def is_in(self, good: memoryview) -> bool:
        """Returns whether these first bytes of a log have its place: those before it end with its digest."""
        at, digest = self.place
        return 8 <= at <= len(good) and good[at - 8 : at] == digest.to_bytes(8, "big")


Block = Union[None, str, Receipt]


def block_of(data: bytes) -> Block:
    """Returns what a block has."""
    if not any(data):
        return EMPTY
    if len(data) < SIZE:
        return DAMAGED
    magic, version, number, kind, at, digest, check = FIELDS.unpack(data[:SIZE])
    is_receipt = magic == MAGIC and version == VERSION and kind in (KEPT, BEGUN) and check == digest_of(data[: SIZE - 8])
    return Receipt(number, kind, Place(at, digest)) if is_receipt else DAMAGED


class Receipts:
    """The receipts of the two blocks. They do not change: `after` returns others."""

    def __init__(self, blocks: tuple[Block, Block] = (EMPTY, EMPTY)) -> None:
        self.blocks = blocks

    @classmethod
    def read(cls, data: bytes) -> Receipts:
        """Reads the receipts from the bytes of their file."""
        return cls((block_of(data[:BLOCK]), block_of(data[BLOCK : 2 * BLOCK])))

    def whole(self) -> list[Receipt]:
        """Returns the receipts that are whole, the last one first."""
        return sorted((block for block in self.blocks if isinstance(block, Receipt)), reverse=True)

    def are_none(self) -> bool:
        """Returns whether there are no receipts, neither whole nor damaged."""
        return self.blocks == (EMPTY, EMPTY)

    def are_exact(self) -> bool:
        """Returns whether the last receipt is known: none is damaged, and the one before it is there, unless it is the first."""
        first, second = self.blocks
        if isinstance(first, Receipt) and isinstance(second, Receipt):
            return abs(first.number - second.number) == 1
        return first is EMPTY and isinstance(second, Receipt) and second.number == 1

    def are_before_a_log(self) -> bool:
        """Returns whether nothing was acknowledged yet: of the first receipt there is what a crash may leave, and no second one."""
        first, second = self.blocks
        is_begun = not isinstance(second, Receipt) or (second.number, second.kind) == (1, BEGUN)
        return first is EMPTY and is_begun

    def least(self) -> int:
        """Returns the number of bytes that are acknowledged by the last receipt that is whole."""
        return next((receipt.place.at for receipt in self.whole()), 0)

    def acknowledged(self, good: memoryview) -> Optional[Place]:
        """Returns the place up to which these first bytes of a log are acknowledged, or None if no receipt is of a place in them.

        A new log either has replaced the log or has not, so both of the receipts may apply. If both do, the later place counts.
        """
        places = [receipt.place for receipt in self._candidates() if receipt.is_in(good)]
        return max(places, default=None)

    def missing(self) -> Place:
        """Returns the place that a log has lost of which `acknowledged` returns None. There are receipts."""
        return self._candidates()[-1].place

    def _candidates(self) -> list[Receipt]:
        """Returns the receipts that may apply: the last one, and the one before it too if the last one is of a new log."""
        found = self.whole()
        return found if found and found[0].kind == BEGUN else found[:1]

    def kept(self, place: Place) -> Optional[Receipt]:
        """Returns the last receipt, if it is known and says that the bytes before this place are acknowledged."""
        found = self.whole() if self.are_exact() else []
        return found[0] if found and (found[0].kind, found[0].place) == (KEPT, place) else None

    def of_the_log(self, acknowledged: Place) -> Receipts:
        """Returns them without the last one, if that is of a new log and the one before it has this place, which is acknowledged.

        The next receipt is then written over it, and not over the one that applies: a crash may leave neither of what a block had and
        gets. The new log has not replaced the log, or it is the same. If its receipt was not synced, that is written over too.
        """
        found = self.whole()
        if len(found) == 2 and found[0].kind == BEGUN and found[1].place == acknowledged:
            return self._with(found[0].index(), EMPTY)
        return self

    def next(self, kind: int, place: Place) -> Receipt:
        """Returns the next receipt."""
        number = next((receipt.number + 1 for receipt in self.whole()), 1)
        return Receipt(number & MAX, kind, place)

    def after(self, receipt: Receipt) -> Receipts:
        """Returns them after a further one."""
        return self._with(receipt.index(), receipt)

    def _with(self, index: int, block: Block) -> Receipts:
        """Returns them with another block."""
        first, second = self.blocks
        return Receipts((block, second) if index == 0 else (first, block))


def digest_of(data: bytes) -> int:
    """Returns the digest of bytes that receipts and logs have: SipHash-1-3 with a zero key."""
    v0, v1, v2, v3 = 0x736F6D6570736575, 0x646F72616E646F6D, 0x6C7967656E657261, 0x7465646279746573
    whole = len(data) // 8
    last = int.from_bytes(data[8 * whole :], "little") | (len(data) & 0xFF) << 56
    for word in *struct.unpack(f"<{whole}Q", data[: 8 * whole]), last:
        v0, v1, v2, v3 = _round(v0, v1, v2, v3 ^ word)
        v0 ^= word
    v2 ^= 0xFF
    v0, v1, v2, v3 = _round(*_round(*_round(v0, v1, v2, v3)))
    return v0 ^ v1 ^ v2 ^ v3


def _round(v0: int, v1: int, v2: int, v3: int) -> tuple[int, int, int, int]:
    """Returns the state of SipHash after a round."""
    v0 = v0 + v1 & MAX
    v1 = (v1 << 13 & MAX | v1 >> 51) ^ v0
    v0 = v0 << 32 & MAX | v0 >> 32
    v2 = v2 + v3 & MAX
    v3 = (v3 << 16 & MAX | v3 >> 48) ^ v2
    v0 = v0 + v3 & MAX
    v3 = (v3 << 21 & MAX | v3 >> 43) ^ v0
    v2 = v2 + v1 & MAX
    v1 = (v1 << 17 & MAX | v1 >> 47) ^ v2
    return v0, v1, v2 << 32 & MAX | v2 >> 32, v3
