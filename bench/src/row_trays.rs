//! Trays by hand: each tray a ring in a row of one table, and a bit for each tray that holds an entry.
use crate::hub::{CELLS, Cell, Entry, Queue};
use crate::ring::Ring;

#[derive(Clone, Copy)]
struct Head {
    first: u16,
    count: u16,
}

pub struct RowTrays {
    cells: [Cell; CELLS],
    heads: [Head; 128],
    ring: Ring,
    limit: usize,
    cycle: u32,
}

impl RowTrays {
    #[inline(always)]
    fn take(&mut self, tray: usize) -> Cell {
        let head = &mut self.heads[tray];
        let cell = self.cells[tray * self.limit + head.first as usize];
        head.first += 1;
        if head.first as usize == self.limit {
            head.first = 0;
        }
        head.count -= 1;
        cell
    }
}

impl Queue for RowTrays {
    #[inline(always)]
    fn new(trays: usize) -> Self {
        RowTrays {
            cells: [Cell::BLANK; CELLS],
            heads: [Head { first: 0, count: 0 }; 128],
            ring: Ring::new(trays),
            limit: CELLS / trays,
            cycle: 0,
        }
    }

    #[inline(always)]
    fn put(&mut self, entry: Entry) -> bool {
        let tray = self.ring.ahead(entry.message.interval as usize);
        let head = &mut self.heads[tray];
        if head.count as usize >= self.limit {
            return false;
        }
        let mut place = (head.first + head.count) as usize;
        if place >= self.limit {
            place -= self.limit;
        }
        head.count += 1;
        self.cells[tray * self.limit + place] = Cell {
            receipt: entry.receipt,
            message: entry.message,
        };
        self.ring.set(tray);
        true
    }

    #[inline(always)]
    fn take_soonest(&mut self) -> Option<Entry> {
        let ahead = self.ring.soonest()?;
        let tray = self.ring.ahead(ahead);
        let cell = self.take(tray);
        if self.heads[tray].count == 0 {
            self.ring.clear(tray);
        }
        Some(Entry {
            receipt: cell.receipt,
            message: cell.message,
            deadline: self.cycle + ahead as u32,
        })
    }

    #[inline(always)]
    fn turn(&mut self, cycle: u32) -> usize {
        self.cycle = cycle;
        self.ring.turn();
        self.waiting()
    }

    #[inline(always)]
    fn take_waiting(&mut self) -> Option<Entry> {
        if self.waiting() == 0 {
            return None;
        }
        let cell = self.take(self.ring.here());
        Some(Entry {
            receipt: cell.receipt,
            message: cell.message,
            deadline: self.cycle,
        })
    }

    #[inline(always)]
    fn waiting(&self) -> usize {
        self.heads[self.ring.here()].count as usize
    }
}
