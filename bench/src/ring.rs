//! Which trays ahead hold an entry: one bit for each tray, and the place of the present cycle among them.

/// The bit of the present cycle's tray is never set. The bits are two words, read together as one number of 128 bits: of
/// a `u128` the compiler writes only the quarter that a bit is in, and the next read of the whole then has to wait.
pub struct Ring {
    held: [u64; 2],
    trays: usize,
    here: usize,
}

impl Ring {
    #[inline(always)]
    pub fn new(trays: usize) -> Self {
        Ring {
            held: [0, 0],
            trays,
            here: 0,
        }
    }

    #[inline(always)]
    pub fn here(&self) -> usize {
        self.here
    }

    /// The tray of the cycle so many ahead, fewer than there are trays.
    #[inline(always)]
    pub fn ahead(&self, interval: usize) -> usize {
        let tray = self.here + interval;
        if tray >= self.trays {
            tray - self.trays
        } else {
            tray
        }
    }

    #[inline(always)]
    pub fn set(&mut self, tray: usize) {
        self.held[tray / 64 % 2] |= 1 << (tray % 64);
    }

    #[inline(always)]
    pub fn clear(&mut self, tray: usize) {
        self.held[tray / 64 % 2] &= !(1 << (tray % 64));
    }

    /// How many cycles ahead the first tray lies that holds an entry.
    #[inline(always)]
    pub fn soonest(&self) -> Option<usize> {
        let held = (self.held[1] as u128) << 64 | self.held[0] as u128;
        if held == 0 {
            return None;
        }
        let later = held >> self.here;
        Some(if later != 0 {
            later.trailing_zeros() as usize
        } else {
            held.trailing_zeros() as usize + self.trays - self.here
        })
    }

    #[inline(always)]
    pub fn turn(&mut self) {
        self.here = self.ahead(1);
        self.clear(self.here);
    }
}
