//! Entries in a `BTreeMap` from each deadline to a `VecDeque`.
use crate::hub::{CELLS, Cell, Entry, Queue};
use std::collections::{BTreeMap, VecDeque};

/// With `ROWS`, no deadline has more entries than a row of the table has cells, as in the row bank.
pub struct MapQueue<const ROWS: bool> {
    pending: BTreeMap<u32, VecDeque<Cell>>,
    waiting: VecDeque<Cell>,
    /// what those that wait were due at
    cycle: u32,
    held: usize,
    each: usize,
    all: usize,
}

impl<const ROWS: bool> Queue for MapQueue<ROWS> {
    #[inline(always)]
    fn new(trays: usize) -> Self {
        let each = if ROWS { CELLS / trays } else { CELLS };
        MapQueue {
            pending: BTreeMap::new(),
            waiting: VecDeque::new(),
            cycle: 0,
            held: 0,
            each,
            all: if ROWS { each * trays } else { CELLS },
        }
    }

    #[inline(always)]
    fn put(&mut self, entry: Entry) -> bool {
        if self.held >= self.all {
            return false;
        }
        let tray = self.pending.entry(entry.deadline).or_default();
        if tray.len() >= self.each {
            return false;
        }
        tray.push_back(Cell {
            receipt: entry.receipt,
            message: entry.message,
        });
        self.held += 1;
        true
    }

    #[inline(always)]
    fn take_soonest(&mut self) -> Option<Entry> {
        let mut first = self.pending.first_entry()?;
        let deadline = *first.key();
        let cell = first.get_mut().pop_front()?;
        if first.get().is_empty() {
            first.remove();
        }
        self.held -= 1;
        Some(Entry {
            receipt: cell.receipt,
            message: cell.message,
            deadline,
        })
    }

    #[inline(always)]
    fn turn(&mut self, cycle: u32) -> usize {
        self.cycle = cycle;
        if let Some(late) = self.pending.remove(&cycle) {
            self.waiting = late;
        }
        self.waiting.len()
    }

    #[inline(always)]
    fn take_waiting(&mut self) -> Option<Entry> {
        let cell = self.waiting.pop_front()?;
        self.held -= 1;
        Some(Entry {
            receipt: cell.receipt,
            message: cell.message,
            deadline: self.cycle,
        })
    }

    #[inline(always)]
    fn waiting(&self) -> usize {
        self.waiting.len()
    }
}
