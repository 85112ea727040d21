//! The dispatcher's rules (docs/dispatcher.md, docs/refusals.md) over any way to keep entries.

/// How many cells a bank has.
pub const CELLS: usize = 1024;

/// No cycle and no receipt goes beyond this.
const LIMIT: u32 = 4_000_000_000;

#[derive(Clone, Copy, PartialEq, Eq, PartialOrd, Ord)]
pub struct Note {
    pub pad: u8,
    pub kind: u8,
    pub interval: u8,
    pub payload: u32,
}

#[derive(Clone, Copy)]
pub struct Cell {
    pub receipt: u32,
    pub message: Note,
}

impl Cell {
    pub const BLANK: Cell = Cell {
        receipt: 0,
        message: Note {
            pad: 0,
            kind: 11,
            interval: 0,
            payload: 0,
        },
    };
}

#[derive(Clone, Copy)]
pub struct Entry {
    pub receipt: u32,
    pub message: Note,
    pub deadline: u32,
}

#[derive(Clone, Copy)]
pub struct Figures {
    pub pending: usize,
    pub waiting: usize,
}

/// The refusals that a load can meet, under their numbers.
#[derive(Clone, Copy)]
pub enum Refusal {
    Shut = 1,
    UnfitBank = 4,
    IntervalOutOfRange = 5,
    Full = 6,
    ReceiptsUsedUp = 7,
    NotNextCycle = 8,
    LateWaiting = 9,
    CyclesUsedUp = 10,
}

/// How a hub keeps its entries: those that are pending, and those that became late and wait to be named.
pub trait Queue {
    /// Empty, for so many trays, 2 to 128.
    fn new(trays: usize) -> Self;

    /// Whether such a queue can have so many trays.
    fn fits(trays: usize) -> bool {
        (2..=128).contains(&trays)
    }

    /// Keeps an entry of an interval from 1 to the number of trays less one, or refuses it where there is no room.
    fn put(&mut self, entry: Entry) -> bool;

    /// The pending entry of the smallest deadline, and of equals the one that was put first.
    fn take_soonest(&mut self) -> Option<Entry>;

    /// Begins this cycle: what is due at it waits from now on. Answers how many.
    fn turn(&mut self, cycle: u32) -> usize;

    /// The first of those that wait.
    fn take_waiting(&mut self) -> Option<Entry>;

    fn waiting(&self) -> usize;
}

/// A hub with its numbers, opened at cycle 0 and receipt 0 where it can be.
pub struct Hub<Q> {
    queue: Q,
    open: bool,
    span: usize,
    cycle: u32,
    receipt: u32,
    accepted: usize,
    dispatched: usize,
    late: usize,
}

impl<Q: Queue> Hub<Q> {
    #[inline(always)]
    pub fn new(trays: usize) -> (Self, Result<(), Refusal>) {
        let open = Q::fits(trays);
        let hub = Hub {
            queue: Q::new(if open { trays } else { 2 }),
            open,
            span: if open { trays - 1 } else { 0 },
            cycle: 0,
            receipt: 0,
            accepted: 0,
            dispatched: 0,
            late: 0,
        };
        let answer = if open {
            Ok(())
        } else {
            Err(Refusal::UnfitBank)
        };
        (hub, answer)
    }

    #[inline(always)]
    pub fn cycle(&self) -> u32 {
        self.cycle
    }

    #[inline(always)]
    pub fn post(&mut self, message: Note) -> Result<Entry, Refusal> {
        if !self.open {
            return Err(Refusal::Shut);
        }
        if message.interval == 0 || message.interval as usize > self.span {
            return Err(Refusal::IntervalOutOfRange);
        }
        if self.receipt >= LIMIT {
            return Err(Refusal::ReceiptsUsedUp);
        }
        let entry = Entry {
            receipt: self.receipt,
            message,
            deadline: self.cycle + message.interval as u32,
        };
        if !self.queue.put(entry) {
            return Err(Refusal::Full);
        }
        self.receipt += 1;
        self.accepted += 1;
        Ok(entry)
    }

    #[inline(always)]
    pub fn dispatch(&mut self) -> Result<Option<Entry>, Refusal> {
        if !self.open {
            return Err(Refusal::Shut);
        }
        let entry = self.queue.take_soonest();
        self.dispatched += entry.is_some() as usize;
        Ok(entry)
    }

    #[inline(always)]
    pub fn turn(&mut self, cycle: u32) -> Result<usize, Refusal> {
        if !self.open {
            return Err(Refusal::Shut);
        }
        if self.queue.waiting() > 0 {
            return Err(Refusal::LateWaiting);
        }
        if cycle != self.cycle + 1 {
            return Err(Refusal::NotNextCycle);
        }
        if cycle > LIMIT {
            return Err(Refusal::CyclesUsedUp);
        }
        self.cycle = cycle;
        let late = self.queue.turn(cycle);
        self.late += late;
        Ok(late)
    }

    #[inline(always)]
    pub fn name(&mut self) -> Result<Option<Entry>, Refusal> {
        if !self.open {
            return Err(Refusal::Shut);
        }
        Ok(self.queue.take_waiting())
    }

    #[inline(always)]
    pub fn ask(&self) -> Figures {
        Figures {
            pending: self.accepted - self.dispatched - self.late,
            waiting: self.queue.waiting(),
        }
    }
}
