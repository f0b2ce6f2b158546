//! The receipts of a store: up to which place of its log all changes are acknowledged.
//!
//! The file of the receipts has two blocks, which are written in turn. So while one of them is written, the other has the receipt before. A receipt is
//! written once the bytes of the log before its place are synced, and the call that changed the store returns once the receipt is synced.
//! `docs/FORMATS.md` has the bytes.

use crate::log::frames::Place;
use crate::support::hash::{DefaultHasher, Hasher};

/// The number of bytes of a block. It is no smaller than what a disk writes at once.
const BLOCK: usize = 512;

/// The number of bytes of a receipt. Those after it, up to the end of its block, are zero.
const SIZE: usize = 56;

const MAGIC: [u8; 8] = *b"MPBRECPT";

const VERSION: u64 = 1;

/// What a receipt says of its place.
#[derive(Clone, Copy, Debug, PartialEq, Eq)]
pub(super) enum Kind {
    /// The log has the bytes before the place, and these are acknowledged.
    Kept = 1,

    /// A new log is whole at the place, and replaces the log now or never.
    Begun = 2,
}

#[derive(Clone, Copy, Debug, PartialEq, Eq)]
struct Receipt {
    // Receipts are numbered from 1 on. The number says which one is the last, and which block it is in.
    number: u64,
    kind: Kind,
    place: Place,
}

/// What a block has.
#[derive(Clone, Copy, Debug)]
enum Block {
    Empty,
    Damaged,
    Whole(Receipt),
}

/// The receipts of the two blocks.
#[derive(Clone, Copy, Debug)]
pub(super) struct Receipts {
    blocks: [Block; 2],
}

/// What the receipts say of the good bytes of a log.
#[derive(Clone, Copy, Debug, PartialEq, Eq)]
pub(super) enum Acknowledged {
    /// There is no receipt.
    Unknown,

    /// The bytes before this place are acknowledged, and they are among the good ones.
    UpTo(Place),

    /// The bytes before this place were acknowledged, and they are not among the good ones.
    Missing(Place),
}

fn digest_of(bytes: &[u8]) -> u64 {
    let mut hasher = DefaultHasher::new();
    hasher.write(bytes);
    hasher.finish()
}

/// Returns the number in the bytes of a receipt whose index, counted in numbers, is this.
fn number_in(bytes: &[u8; SIZE], index: usize) -> u64 {
    u64::from_be_bytes(bytes.as_chunks::<8>().0[index])
}

impl Receipt {
    fn encode(self) -> [u8; BLOCK] {
        let mut block = [0; BLOCK];
        let fields = [VERSION, self.number, self.kind as u64, self.place.at, self.place.digest];
        block[..8].copy_from_slice(&MAGIC);
        for (field, bytes) in fields.into_iter().zip(block[8..].as_chunks_mut::<8>().0) {
            *bytes = field.to_be_bytes();
        }
        let check = digest_of(&block[..SIZE - 8]);
        block[SIZE - 8..SIZE].copy_from_slice(&check.to_be_bytes());
        block
    }

    fn decode(bytes: &[u8; SIZE]) -> Option<Receipt> {
        let is_receipt = bytes[..8] == MAGIC && number_in(bytes, 1) == VERSION && number_in(bytes, 6) == digest_of(&bytes[..SIZE - 8]);
        let kind = match number_in(bytes, 3) {
            1 => Kind::Kept,
            2 => Kind::Begun,
            _ => return None,
        };
        let place = Place { at: number_in(bytes, 4), digest: number_in(bytes, 5) };
        is_receipt.then_some(Receipt { number: number_in(bytes, 2), kind, place })
    }

    /// The index of its block.
    fn index(self) -> usize {
        (self.number % 2) as usize
    }

    /// The position of its block.
    fn position(self) -> u64 {
        (self.index() * BLOCK) as u64
    }

    /// Whether these first bytes of a log have the place of the receipt: those before it end with its digest.
    fn is_in(&self, good: &[u8]) -> bool {
        let before = usize::try_from(self.place.at).ok().and_then(|at| good.get(..at));
        before.is_some_and(|bytes| bytes.ends_with(&self.place.digest.to_be_bytes()))
    }
}

impl Block {
    fn read(bytes: &[u8]) -> Block {
        let Some(receipt) = bytes.first_chunk::<SIZE>().filter(|bytes| bytes.iter().any(|byte| *byte != 0)) else {
            return if bytes.iter().all(|byte| *byte == 0) { Block::Empty } else { Block::Damaged };
        };
        Receipt::decode(receipt).map_or(Block::Damaged, Block::Whole)
    }
}

impl Receipts {
    /// No receipts: those of an empty file.
    pub(super) const NONE: Receipts = Receipts { blocks: [Block::Empty; 2] };

    /// Reads the receipts from the bytes of their file.
    pub(super) fn read(bytes: &[u8]) -> Receipts {
        let (first, rest) = bytes.split_at(bytes.len().min(BLOCK));
        Receipts { blocks: [Block::read(first), Block::read(&rest[..rest.len().min(BLOCK)])] }
    }

    /// The receipts that are whole, the last one first.
    fn whole(&self) -> [Option<Receipt>; 2] {
        let mut found = self.blocks.map(|block| if let Block::Whole(receipt) = block { Some(receipt) } else { None });
        found.sort_by_key(|receipt| core::cmp::Reverse(receipt.map(|receipt| receipt.number)));
        found
    }

    /// Whether the last receipt is known: no block is damaged, and the receipt before the last one is there, unless it is the first.
    pub(super) fn are_exact(&self) -> bool {
        match self.blocks {
            [Block::Whole(one), Block::Whole(other)] => one.number.abs_diff(other.number) == 1,
            [Block::Empty, Block::Whole(first)] => first.number == 1,
            _ => false,
        }
    }

    /// Returns the position and the bytes of the last receipt's block, if this receipt is known and says that the bytes before this place are
    /// acknowledged.
    pub(super) fn kept(&self, place: Place) -> Option<(u64, [u8; BLOCK])> {
        let last = self.whole()[0].filter(|last| self.are_exact() && (last.kind, last.place) == (Kind::Kept, place))?;
        Some((last.position(), last.encode()))
    }

    /// Whether there are no receipts, neither whole nor damaged.
    pub(super) fn are_none(&self) -> bool {
        self.blocks.iter().all(|block| matches!(block, Block::Empty))
    }

    /// Whether nothing was acknowledged yet: the second receipt is missing, and of the first one there is what a crash may leave.
    pub(super) fn are_before_a_log(&self) -> bool {
        match self.blocks {
            [Block::Empty, Block::Whole(first)] => (first.number, first.kind) == (1, Kind::Begun),
            [Block::Empty, _] => true,
            _ => false,
        }
    }

    /// The number of bytes that are acknowledged by the last receipt that is whole.
    pub(super) fn least(&self) -> u64 {
        self.whole()[0].map_or(0, |last| last.place.at)
    }

    /// What the receipts say of the good bytes of a log.
    ///
    /// A new log either has replaced the log or has not, so both of the receipts may apply. If both do, the later place counts.
    pub(super) fn acknowledged(&self, good: &[u8]) -> Acknowledged {
        let [Some(last), before] = self.whole() else {
            return Acknowledged::Unknown;
        };
        let before = before.filter(|_| last.kind == Kind::Begun);
        let found = [Some(last), before].into_iter().flatten().filter(|receipt| receipt.is_in(good));
        match found.map(|receipt| receipt.place).max_by_key(|place| place.at) {
            Some(place) => Acknowledged::UpTo(place),
            None => Acknowledged::Missing(before.unwrap_or(last).place),
        }
    }

    /// Returns the receipts without the last one, if that is of a new log and the one before it has this place, which is acknowledged.
    ///
    /// The next receipt is then written over it, and not over the one that applies: a crash may leave neither of what a block had and gets. The new
    /// log has not replaced the log, or it is the same. If its receipt was not synced, that is written over too.
    pub(super) fn of_the_log(&self, acknowledged: Place) -> Receipts {
        let [last, before] = self.whole();
        let mut blocks = self.blocks;
        if let Some(begun) = last.filter(|last| last.kind == Kind::Begun && before.is_some_and(|before| before.place == acknowledged)) {
            blocks[begun.index()] = Block::Empty;
        }
        Receipts { blocks }
    }

    /// Returns the receipts after a further one, with the position and the bytes of the block that it is written to.
    pub(super) fn with(&self, kind: Kind, place: Place) -> (Receipts, u64, [u8; BLOCK]) {
        let receipt = Receipt { number: self.whole()[0].map_or(1, |last| last.number.wrapping_add(1)), kind, place };
        let mut blocks = self.blocks;
        blocks[receipt.index()] = Block::Whole(receipt);
        (Receipts { blocks }, receipt.position(), receipt.encode())
    }
}
