//! Trays by hand: each tray a chain through one table, and a bit for each tray that holds an entry.
use crate::hub::{CELLS, Cell, Entry, Queue};
use crate::ring::Ring;

const END: u16 = u16::MAX;

#[derive(Clone, Copy)]
struct Chain {
    first: u16,
    last: u16,
    count: u16,
}

pub struct ChainTrays {
    cells: [Cell; CELLS],
    next: [u16; CELLS],
    chains: [Chain; 128],
    /// the first of the cells that hold no entry
    free: u16,
    ring: Ring,
    cycle: u32,
}

impl ChainTrays {
    #[inline(always)]
    fn take(&mut self, tray: usize) -> Cell {
        let chain = &mut self.chains[tray];
        let place = chain.first;
        chain.first = self.next[place as usize];
        chain.count -= 1;
        self.next[place as usize] = self.free;
        self.free = place;
        self.cells[place as usize]
    }
}

impl Queue for ChainTrays {
    #[inline(always)]
    fn new(trays: usize) -> Self {
        let mut next = [END; CELLS];
        for (place, after) in next.iter_mut().take(CELLS - 1).enumerate() {
            *after = place as u16 + 1;
        }
        ChainTrays {
            cells: [Cell::BLANK; CELLS],
            next,
            chains: [Chain {
                first: END,
                last: END,
                count: 0,
            }; 128],
            free: 0,
            ring: Ring::new(trays),
            cycle: 0,
        }
    }

    #[inline(always)]
    fn put(&mut self, entry: Entry) -> bool {
        let place = self.free;
        if place == END {
            return false;
        }
        self.free = self.next[place as usize];
        self.cells[place as usize] = Cell {
            receipt: entry.receipt,
            message: entry.message,
        };
        let tray = self.ring.ahead(entry.message.interval as usize);
        let chain = &mut self.chains[tray];
        if chain.count == 0 {
            chain.first = place;
        } else {
            self.next[chain.last as usize] = place;
        }
        chain.last = place;
        chain.count += 1;
        self.ring.set(tray);
        true
    }

    #[inline(always)]
    fn take_soonest(&mut self) -> Option<Entry> {
        let ahead = self.ring.soonest()?;
        let tray = self.ring.ahead(ahead);
        let cell = self.take(tray);
        if self.chains[tray].count == 0 {
            self.ring.clear(tray);
        }
        Some(Entry {
            receipt: cell.receipt,
            message: cell.message,
            deadline: self.cycle + ahead as u32,
        })
    }

    #[inline(always)]
    fn turn(&mut self, cycle: u32) -> usize {
        self.cycle = cycle;
        self.ring.turn();
        self.waiting()
    }

    #[inline(always)]
    fn take_waiting(&mut self) -> Option<Entry> {
        if self.waiting() == 0 {
            return None;
        }
        let cell = self.take(self.ring.here());
        Some(Entry {
            receipt: cell.receipt,
            message: cell.message,
            deadline: self.cycle,
        })
    }

    #[inline(always)]
    fn waiting(&self) -> usize {
        self.chains[self.ring.here()].count as usize
    }
}
