//! A disk in memory, for tests of stores. It loses blocks in a crash, and its calls can fail.
//!
//! A file has blocks of 512 bytes. Until it is synced, a crash leaves each block as it was at the last sync or after any write since, in any
//! combination, or with other bytes where it was written; and the file with any length that it had since. Names are found as they were after any
//! rename since the last sync of the folder.

use mortarpink::store::files::{Files, Name};
use std::collections::{BTreeMap, BTreeSet};
use std::io;
use std::sync::{Arc, Mutex, MutexGuard, PoisonError};

pub const BLOCK: usize = 512;

type Block = [u8; BLOCK];

/// A file, which may have lost its name.
#[derive(Clone, Debug, Default)]
struct Content {
    durable: Vec<u8>,
    seen: Vec<u8>,
    // What reads returned after each call since the last sync.
    versions: Vec<Vec<u8>>,
    // The blocks that were written since the last sync.
    dirty: BTreeSet<usize>,
}

fn block_of(bytes: &[u8], index: usize) -> Block {
    let mut block = [0; BLOCK];
    let bytes = bytes.get(index * BLOCK..).unwrap_or_default();
    let len = bytes.len().min(BLOCK);
    block[..len].copy_from_slice(&bytes[..len]);
    block
}

/// What a crash may leave of a block while it is written: half of it, and other bytes in the place of those that change.
fn torn(old: &Block, new: &Block) -> [Block; 2] {
    let (mut half, mut other) = (*old, *old);
    half[..BLOCK / 2].copy_from_slice(&new[..BLOCK / 2]);
    for (byte, new) in other.iter_mut().zip(new).filter(|(byte, new)| byte != new) {
        *byte ^= new.wrapping_mul(7) | 1;
    }
    [half, other]
}

/// The values, each once, in their order.
fn distinct<T: PartialEq>(values: impl IntoIterator<Item = T>) -> Vec<T> {
    values.into_iter().fold(Vec::new(), |mut found, value| {
        if !found.contains(&value) {
            found.push(value);
        }
        found
    })
}

impl Content {
    fn change(&mut self, first: usize, end: usize, change: impl FnOnce(&mut Vec<u8>)) {
        change(&mut self.seen);
        self.dirty.extend(first / BLOCK..end.div_ceil(BLOCK));
        self.versions.push(self.seen.clone());
    }

    fn sync(&mut self) {
        let blocks = (0..self.seen.len().div_ceil(BLOCK)).map(|index| {
            let from = if self.dirty.contains(&index) { &self.seen } else { &self.durable };
            block_of(from, index)
        });
        self.durable = blocks.collect::<Vec<_>>().concat();
        self.durable.truncate(self.seen.len());
        self.forget();
    }

    /// What is not synced counts as synced, as after a sync that failed: only a further write brings it to the disk.
    fn forget(&mut self) {
        self.versions.clear();
        self.dirty.clear();
    }

    /// All that a crash may leave of a block.
    fn choices(&self, index: usize) -> Vec<Block> {
        let old = block_of(&self.durable, index);
        if !self.dirty.contains(&index) {
            return vec![old];
        }
        let written = self.versions.iter().map(|bytes| block_of(bytes, index));
        distinct([old].into_iter().chain(written).chain(torn(&old, &block_of(&self.seen, index))))
    }

    /// All that a crash may leave, or `most` of them if there are more.
    fn outcomes(&self, most: usize) -> Vec<Vec<u8>> {
        let all = || [&self.durable].into_iter().chain(&self.versions);
        let lens = distinct(all().map(Vec::len));
        let blocks = all().map(Vec::len).max().unwrap_or(0).div_ceil(BLOCK);
        let choices: Vec<Vec<Block>> = (0..blocks).map(|index| self.choices(index)).collect();
        let count = choices.iter().fold(lens.len(), |count, choice| count.saturating_mul(choice.len()));
        // A number has the choices as its digits. If there are too many numbers, each so many is taken, by a step that leaves out no digit.
        let step = (count.div_ceil(most)..).find(|step| [2, 3, 5, 7].iter().all(|factor| step % factor != 0)).unwrap();
        let numbers = (0..count).step_by(step);
        let outcomes = numbers.map(|mut number| {
            let mut digit = |base: usize| {
                let digit = number % base;
                number /= base;
                digit
            };
            let len = lens[digit(lens.len())];
            let mut bytes = choices.iter().map(|choice| choice[digit(choice.len())]).collect::<Vec<_>>().concat();
            bytes.resize(len, 0);
            bytes
        });
        outcomes.collect::<BTreeSet<_>>().into_iter().collect()
    }
}

/// How a call fails.
#[derive(Clone, Copy, Debug, PartialEq, Eq)]
pub enum Fault {
    /// It has no effect, or half of it: of a write, half of the bytes are written.
    Half(i32),

    /// It has all of its effect, and returns an error all the same.
    Whole(i32),

    /// It has no effect. If it is a sync, what was to be synced is taken for synced from then on.
    Lost(i32),
}

impl Fault {
    fn error(self) -> io::Error {
        let (Fault::Half(code) | Fault::Whole(code) | Fault::Lost(code)) = self;
        io::Error::from_raw_os_error(code)
    }
}

#[derive(Clone, Debug, Default)]
struct State {
    contents: Vec<Content>,
    names: BTreeMap<Name, usize>,
    // The names at the last sync of the folder, and after each change since.
    past_names: Vec<BTreeMap<Name, usize>>,
    is_locked: bool,
    // The number of calls that change something, and the one that fails.
    calls: usize,
    fault: Option<(usize, Fault)>,
    // The disk before each of these calls, if that is recorded, with the number that the test had given.
    moments: Option<Vec<(u64, State)>>,
    label: u64,
}

/// A disk. Its clones are the same disk.
#[derive(Clone, Debug, Default)]
pub struct Disk(Arc<Mutex<State>>);

impl State {
    fn content(&mut self, name: Name) -> io::Result<&mut Content> {
        let index = self.names.get(&name).ok_or(io::ErrorKind::NotFound)?;
        Ok(&mut self.contents[*index])
    }

    fn with_names(&mut self, change: impl FnOnce(&mut State)) {
        if self.past_names.is_empty() {
            self.past_names.push(self.names.clone());
        }
        change(self);
        self.past_names.push(self.names.clone());
    }

    fn create(&mut self, name: Name) {
        self.with_names(|state| {
            state.contents.push(Content::default());
            state.names.insert(name, state.contents.len() - 1);
        });
    }

    /// What a crash may leave: each file as one of its outcomes, under one of the past sets of names.
    fn outcomes(&self, most: usize) -> Vec<State> {
        let names = if self.past_names.is_empty() { vec![self.names.clone()] } else { distinct(self.past_names.iter().cloned()) };
        names.iter().flat_map(|names| self.outcomes_under(names, most)).collect()
    }

    /// What a crash may leave of the files that have these names.
    fn outcomes_under(&self, names: &BTreeMap<Name, usize>, most: usize) -> Vec<State> {
        let mut states = vec![State::default()];
        for (&name, &index) in names {
            let outcomes = self.contents[index].outcomes(most);
            let with = |state: &State, bytes: &Vec<u8>| {
                let mut state = state.clone();
                state.add(name, bytes.clone());
                state
            };
            states = states.iter().flat_map(|state| outcomes.iter().map(|bytes| with(state, bytes)).collect::<Vec<_>>()).collect();
        }
        states
    }

    /// Adds a file whose bytes are durable.
    fn add(&mut self, name: Name, bytes: Vec<u8>) {
        self.names.insert(name, self.contents.len());
        self.contents.push(Content { durable: bytes.clone(), seen: bytes, ..Content::default() });
    }
}

impl Disk {
    /// A disk with these files. All is durable.
    pub fn with(files: &[(Name, &[u8])]) -> Disk {
        let mut state = State::default();
        for &(name, bytes) in files {
            state.add(name, bytes.to_vec());
        }
        Disk(Arc::new(Mutex::new(state)))
    }

    fn state(&self) -> MutexGuard<'_, State> {
        self.0.lock().unwrap_or_else(PoisonError::into_inner)
    }

    /// The files of a store on this disk.
    pub fn files(&self) -> Box<dyn Files> {
        Box::new(DiskFiles { disk: self.clone(), has_lock: false })
    }

    /// The bytes of a file, as they are read.
    pub fn bytes(&self, name: Name) -> Option<Vec<u8>> {
        self.state().content(name).ok().map(|content| content.seen.clone())
    }

    /// The number of calls that have changed something.
    pub fn calls(&self) -> usize {
        self.state().calls
    }

    /// Makes a call fail: that with this number, counted from 0.
    pub fn fail(&self, call: usize, fault: Fault) {
        self.state().fault = Some((call, fault));
    }

    /// Records the disk before each call from now on, with the last label.
    pub fn record(&self) {
        self.state().moments = Some(Vec::new());
    }

    pub fn set_label(&self, label: u64) {
        self.state().label = label;
    }

    /// All that a crash may leave now, or some of it: at most `most` ways per file.
    pub fn after_crash(&self, most: usize) -> Vec<Disk> {
        self.state().outcomes(most).into_iter().map(|state| Disk(Arc::new(Mutex::new(state)))).collect()
    }

    /// The disk after the process was killed. What is not synced is not lost by this, and the lock has ended.
    pub fn after_kill(&self) -> Disk {
        let state = State { is_locked: false, moments: None, ..self.state().clone() };
        Disk(Arc::new(Mutex::new(state)))
    }

    /// The recorded moments and the present one: the label, and the disk.
    pub fn moments(&self) -> Vec<(u64, Disk)> {
        let state = self.state();
        let now = (state.label, State { moments: None, ..state.clone() });
        let moments = state.moments.iter().flatten().cloned().chain([now]);
        moments.map(|(label, state)| (label, Disk(Arc::new(Mutex::new(state))))).collect()
    }
}

/// The files of a store, with a lock that ends with them.
#[derive(Debug)]
struct DiskFiles {
    disk: Disk,
    has_lock: bool,
}

impl Drop for DiskFiles {
    fn drop(&mut self) {
        if self.has_lock {
            self.disk.state().is_locked = false;
        }
    }
}

impl DiskFiles {
    /// Makes a call that changes something, unless it is the one that fails. `half` is what it does if it fails in the middle.
    fn call(
        &self,
        whole: impl FnOnce(&mut State) -> io::Result<()>,
        half: impl FnOnce(&mut State) -> io::Result<()>,
        lost: impl FnOnce(&mut State) -> io::Result<()>,
    ) -> io::Result<()> {
        let mut state = self.disk.state();
        if state.moments.is_some() {
            let moment = (state.label, State { moments: None, ..state.clone() });
            state.moments.as_mut().unwrap().push(moment);
        }
        let call = state.calls;
        state.calls += 1;
        let Some((_, fault)) = state.fault.filter(|(at, _)| *at == call) else { return whole(&mut state) };
        match fault {
            Fault::Half(_) => half(&mut state)?,
            Fault::Whole(_) => whole(&mut state)?,
            Fault::Lost(_) => lost(&mut state)?,
        }
        Err(fault.error())
    }

    /// The same for a call that has no half effect.
    fn call_at_once(&self, whole: impl FnOnce(&mut State) -> io::Result<()>) -> io::Result<()> {
        self.call(whole, |_| Ok(()), |_| Ok(()))
    }
}

fn write(state: &mut State, name: Name, at: u64, bytes: &[u8]) -> io::Result<()> {
    let (at, end) = (at as usize, at as usize + bytes.len());
    let content = state.content(name)?;
    let first = at.min(content.seen.len());
    content.change(first, end, |seen| {
        seen.resize(seen.len().max(end), 0);
        seen[at..end].copy_from_slice(bytes);
    });
    Ok(())
}

impl Files for DiskFiles {
    fn lock(&mut self) -> io::Result<bool> {
        let mut state = self.disk.state();
        if !state.names.contains_key(&Name::Receipts) {
            state.create(Name::Receipts);
        }
        self.has_lock = !std::mem::replace(&mut state.is_locked, true);
        Ok(self.has_lock)
    }

    fn read(&mut self, name: Name) -> io::Result<Option<Vec<u8>>> {
        Ok(self.disk.bytes(name))
    }

    fn create_new(&mut self) -> io::Result<()> {
        self.call_at_once(|state| {
            state.create(Name::New);
            Ok(())
        })
    }

    fn write_at(&mut self, name: Name, at: u64, bytes: &[u8]) -> io::Result<()> {
        let half = &bytes[..bytes.len() / 2];
        self.call(|state| write(state, name, at, bytes), |state| write(state, name, at, half), |_| Ok(()))
    }

    fn cut_to(&mut self, name: Name, len: u64) -> io::Result<()> {
        self.call_at_once(|state| {
            let content = state.content(name)?;
            let end = content.seen.len();
            content.change(len as usize, end, |seen| seen.truncate(len as usize));
            Ok(())
        })
    }

    fn sync(&mut self, name: Name) -> io::Result<()> {
        let whole = |state: &mut State| state.content(name).map(Content::sync);
        self.call(whole, |_| Ok(()), |state| state.content(name).map(Content::forget))
    }

    fn rename_new(&mut self) -> io::Result<()> {
        self.call_at_once(|state| {
            state.content(Name::New)?;
            state.with_names(|state| {
                let new = state.names.remove(&Name::New).unwrap();
                state.names.insert(Name::Log, new);
            });
            Ok(())
        })
    }

    fn remove_new(&mut self) -> io::Result<()> {
        if !self.disk.state().names.contains_key(&Name::New) {
            return Ok(());
        }
        self.call_at_once(|state| {
            state.with_names(|state| _ = state.names.remove(&Name::New));
            Ok(())
        })
    }

    fn sync_folder(&mut self) -> io::Result<()> {
        self.call_at_once(|state| {
            state.past_names.clear();
            Ok(())
        })
    }
}
