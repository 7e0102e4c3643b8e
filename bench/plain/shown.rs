//! Two copies of a map, of which one is shown: one writer, and readers that never wait. A read is a step
//! of its reader's count, a look, and a step.
use crate::Row;
use std::cell::UnsafeCell;
use std::collections::HashMap;
use std::sync::atomic::{AtomicUsize, Ordering::SeqCst};
use std::sync::Arc;

/// How many readers there are.
pub const READERS: usize = 16;

type Copy = HashMap<usize, Vec<Row>>;

// A count that shares its cache line with no other.
#[repr(align(128))]
struct Count(AtomicUsize);

pub struct Shown {
    copies: [UnsafeCell<Copy>; 2],
    live: Count,
    readers: Vec<Count>,
}

// The writer alone changes a copy, and only the one that no reader can be in.
unsafe impl Sync for Shown {}
unsafe impl Send for Shown {}

impl Shown {
    pub fn new() -> Arc<Shown> {
        Arc::new(Shown {
            copies: Default::default(),
            live: Count(AtomicUsize::new(0)),
            readers: (0..READERS).map(|_| Count(AtomicUsize::new(0))).collect(),
        })
    }

    /// The rows of a key, where it is shown. Each number is used by one thread at a time.
    pub fn look(&self, number: usize, key: usize) -> Option<Vec<Row>> {
        let count = &self.readers[number].0;
        count.fetch_add(1, SeqCst);
        let live = self.live.0.load(SeqCst);
        let rows = unsafe { (*self.copies[live].get()).get(&key).cloned() };
        count.fetch_add(1, SeqCst);
        rows
    }
}

#[derive(Clone)]
pub enum Change {
    /// A row, in place of that of its story, at a filled key.
    Put(usize, Row),
    /// A hole is filled.
    Fill(usize, Vec<Row>),
    /// A key is a hole again.
    Open(usize),
}

fn apply(copy: &mut Copy, change: Change) {
    match change {
        Change::Put(key, row) => {
            let Some(rows) = copy.get_mut(&key) else { return };
            match rows.iter_mut().find(|old| old[0] == row[0]) {
                Some(old) => *old = row,
                None => rows.push(row),
            }
        }
        Change::Fill(key, rows) => {
            copy.insert(key, rows);
        }
        Change::Open(key) => {
            copy.remove(&key);
        }
    }
}

pub struct Writer {
    shown: Arc<Shown>,
    live: usize,
    counts: [usize; READERS],
    /// Changes that the live copy has and the other has not.
    behind: Vec<Change>,
    /// Changes that neither copy has.
    new: Vec<Change>,
}

impl Writer {
    /// There is one for each shown map.
    pub fn new(shown: Arc<Shown>) -> Writer {
        Writer { shown, live: 0, counts: [0; READERS], behind: Vec::new(), new: Vec::new() }
    }

    /// Whether the live copy has the key.
    pub fn has(&self, key: usize) -> bool {
        unsafe { &*self.shown.copies[self.live].get() }.contains_key(&key)
    }

    pub fn append(&mut self, change: Change) {
        self.new.push(change);
    }

    /// Shows all that was appended.
    pub fn publish(&mut self) {
        for (number, seen) in self.counts.iter().enumerate() {
            let count = &self.shown.readers[number].0;
            let mut looks = 0;
            while seen % 2 == 1 && count.load(SeqCst) == *seen {
                looks += 1;
                if looks % 64 == 0 { std::thread::yield_now() } else { std::hint::spin_loop() }
            }
        }
        let stale = unsafe { &mut *self.shown.copies[1 - self.live].get() };
        for change in self.behind.drain(..) {
            apply(stale, change);
        }
        for change in &self.new {
            apply(stale, change.clone());
        }
        std::mem::swap(&mut self.behind, &mut self.new);
        self.live = 1 - self.live;
        self.shown.live.0.store(self.live, SeqCst);
        for (number, seen) in self.counts.iter_mut().enumerate() {
            *seen = self.shown.readers[number].0.load(SeqCst);
        }
    }
}
