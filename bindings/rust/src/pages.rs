//! Iterators, which read the library in pages.
//!
//! Each page has room for twice as many values as the one before it, up to a limit. So a few values cost little, and a
//! pass over many makes few calls, each of which prepares its reads of a version anew.

use std::fmt;
use std::iter::FusedIterator;

use crate::ffi::Session;

/// How many values the first page has room for.
const LEAST: usize = 64;

/// How many values a page has room for at most.
const MOST: usize = 1 << 16;

/// The page that was read last: ascending values, and how many of them were returned.
#[derive(Clone)]
struct Pages {
    page: Vec<u64>,
    returned: usize,
    /// The least value of the next page, or `None` after the last page.
    from: Option<u64>,
}

impl Pages {
    fn new(from: u64) -> Pages {
        Pages { page: Vec::new(), returned: 0, from: Some(from) }
    }

    /// Returns the next value. `read` fills a page from a value on, and returns how many it has.
    fn next(&mut self, read: impl FnOnce(u64, &mut [u64]) -> usize) -> Option<u64> {
        if self.returned == self.page.len() {
            self.turn(read)?;
        }
        let value = *self.page.get(self.returned)?;
        self.returned += 1;
        Some(value)
    }

    /// Returns the least value that may be returned next, or `None` after the last one.
    fn least(&self) -> Option<u64> {
        self.page.get(self.returned).copied().or(self.from)
    }

    /// Reads the next page, or returns `None` after the last one.
    fn turn(&mut self, read: impl FnOnce(u64, &mut [u64]) -> usize) -> Option<()> {
        let from = self.from.take()?;
        let room = (2 * self.page.len()).clamp(LEAST, MOST);
        self.page.resize(room, 0);
        let count = read(from, &mut self.page);
        self.page.truncate(count);
        self.returned = 0;
        if count == room {
            self.from = self.page[room - 1].checked_add(1);
        }
        Some(())
    }
}

/// An iterator over set positions, ascending. It can be read from both ends.
///
/// [`Bitmap::ones`](crate::Bitmap::ones) and [`Version::ones`](crate::Version::ones) make it.
#[derive(Clone)]
#[must_use = "iterators do nothing unless they are consumed"]
pub struct Ones<'a> {
    session: &'a Session,
    at: Option<u64>,
    to: u64,
    pages: Pages,
}

impl<'a> Ones<'a> {
    pub(crate) fn new(session: &'a Session, at: Option<u64>, (from, to): (u64, u64)) -> Ones<'a> {
        Ones { session, at, to, pages: Pages::new(from) }
    }
}

impl Iterator for Ones<'_> {
    type Item = u64;

    fn next(&mut self) -> Option<u64> {
        let (session, at, to) = (self.session, self.at, self.to);
        // A page may have positions that were returned from the back since it was read.
        self.pages.next(|from, page| session.ones(at, (from, to), page)).filter(|one| *one < to)
    }
}

/// From the back, each position is found by a search of its own.
impl DoubleEndedIterator for Ones<'_> {
    fn next_back(&mut self) -> Option<u64> {
        let least = self.pages.least()?;
        let one = self.session.prev_one(self.at, self.to).filter(|one| *one >= least);
        self.to = one.unwrap_or(0);
        one
    }
}

/// An iterator over the numbers of the kept commits, ascending.
///
/// [`Bitmap::commits`](crate::Bitmap::commits) makes it.
#[derive(Clone)]
#[must_use = "iterators do nothing unless they are consumed"]
pub struct Commits<'a> {
    session: &'a Session,
    pages: Pages,
}

impl<'a> Commits<'a> {
    pub(crate) fn new(session: &'a Session) -> Commits<'a> {
        Commits { session, pages: Pages::new(0) }
    }
}

impl Iterator for Commits<'_> {
    type Item = u64;

    fn next(&mut self) -> Option<u64> {
        let session = self.session;
        self.pages.next(|from, page| session.commits(from, page))
    }
}

/// An iterator over the indices of the chunks that differ between two commits, ascending.
///
/// [`Bitmap::changed_chunks`](crate::Bitmap::changed_chunks) makes it.
#[derive(Clone)]
#[must_use = "iterators do nothing unless they are consumed"]
pub struct ChangedChunks<'a> {
    session: &'a Session,
    commits: (u64, u64),
    pages: Pages,
}

impl<'a> ChangedChunks<'a> {
    /// Makes an iterator. Both commits are kept, and they are in order.
    pub(crate) fn new(session: &'a Session, commits: (u64, u64)) -> ChangedChunks<'a> {
        ChangedChunks { session, commits, pages: Pages::new(0) }
    }
}

impl Iterator for ChangedChunks<'_> {
    type Item = u64;

    fn next(&mut self) -> Option<u64> {
        let (session, commits) = (self.session, self.commits);
        self.pages.next(|first, page| {
            let count = session.changed_chunks(commits, first, page);
            count.expect("both commits are kept while the bitmap is borrowed")
        })
    }
}

impl FusedIterator for Ones<'_> {}
impl FusedIterator for Commits<'_> {}
impl FusedIterator for ChangedChunks<'_> {}

impl fmt::Debug for Ones<'_> {
    fn fmt(&self, f: &mut fmt::Formatter<'_>) -> fmt::Result {
        f.debug_struct("Ones").field("at", &self.at).field("to", &self.to).finish_non_exhaustive()
    }
}

impl fmt::Debug for Commits<'_> {
    fn fmt(&self, f: &mut fmt::Formatter<'_>) -> fmt::Result {
        f.debug_struct("Commits").finish_non_exhaustive()
    }
}

impl fmt::Debug for ChangedChunks<'_> {
    fn fmt(&self, f: &mut fmt::Formatter<'_>) -> fmt::Result {
        f.debug_struct("ChangedChunks").field("commits", &self.commits).finish_non_exhaustive()
    }
}
