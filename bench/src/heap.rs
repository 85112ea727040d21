//! Entries in a `BinaryHeap`, by deadline and then by receipt.
use crate::hub::{CELLS, Entry, Note, Queue};
use std::cmp::Reverse;
use std::collections::{BinaryHeap, VecDeque};

/// With `ROWS`, no deadline has more entries than a row of the table has cells, as in the row bank.
pub struct HeapQueue<const ROWS: bool> {
    pending: BinaryHeap<Reverse<(u32, u32, Note)>>,
    waiting: VecDeque<Entry>,
    trays: usize,
    each: usize,
    all: usize,
    counts: [u16; 128],
}

impl<const ROWS: bool> HeapQueue<ROWS> {
    #[inline(always)]
    fn pop(&mut self) -> Option<Entry> {
        let Reverse((deadline, receipt, message)) = self.pending.pop()?;
        if ROWS {
            self.counts[deadline as usize % self.trays] -= 1;
        }
        Some(Entry {
            receipt,
            message,
            deadline,
        })
    }
}

impl<const ROWS: bool> Queue for HeapQueue<ROWS> {
    #[inline(always)]
    fn new(trays: usize) -> Self {
        let each = if ROWS { CELLS / trays } else { CELLS };
        HeapQueue {
            pending: BinaryHeap::with_capacity(CELLS),
            waiting: VecDeque::with_capacity(CELLS),
            trays,
            each,
            all: if ROWS { each * trays } else { CELLS },
            counts: [0; 128],
        }
    }

    #[inline(always)]
    fn put(&mut self, entry: Entry) -> bool {
        if self.pending.len() + self.waiting.len() >= self.all {
            return false;
        }
        if ROWS {
            let count = &mut self.counts[entry.deadline as usize % self.trays];
            if *count as usize >= self.each {
                return false;
            }
            *count += 1;
        }
        self.pending
            .push(Reverse((entry.deadline, entry.receipt, entry.message)));
        true
    }

    #[inline(always)]
    fn take_soonest(&mut self) -> Option<Entry> {
        self.pop()
    }

    #[inline(always)]
    fn turn(&mut self, cycle: u32) -> usize {
        while let Some(Reverse((deadline, ..))) = self.pending.peek() {
            if *deadline != cycle {
                break;
            }
            let late = self.pop();
            self.waiting.extend(late);
        }
        self.waiting.len()
    }

    #[inline(always)]
    fn take_waiting(&mut self) -> Option<Entry> {
        self.waiting.pop_front()
    }

    #[inline(always)]
    fn waiting(&self) -> usize {
        self.waiting.len()
    }
}
