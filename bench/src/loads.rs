//! The loads, made from a fixed seed.
use crate::drive::{ASK, DISPATCH, NAME, TURN};
use crate::hub::{CELLS, Hub, Note};
use crate::row_trays::RowTrays;

/// Some calls as bytes, and the number of trays that they are made over.
pub struct Load {
    pub name: &'static str,
    pub trays: usize,
    pub bytes: Vec<u8>,
}

/// Random numbers (xorshift).
pub struct Random(u64);

impl Random {
    pub fn new(seed: u64) -> Self {
        Random(seed.wrapping_mul(0x9e37_79b9_7f4a_7c15) | 1)
    }

    /// A number below this.
    pub fn below(&mut self, limit: usize) -> usize {
        self.0 ^= self.0 << 13;
        self.0 ^= self.0 >> 7;
        self.0 ^= self.0 << 17;
        ((self.0 >> 33) as usize) % limit
    }
}

/// Writes a load, and makes its calls as it goes to know what is held.
struct Writer {
    bytes: Vec<u8>,
    hub: Hub<RowTrays>,
    trays: usize,
    counts: Vec<usize>,
    held: usize,
}

impl Writer {
    fn new(trays: usize) -> Self {
        let (hub, _) = Hub::new(trays);
        Writer {
            bytes: Vec::new(),
            hub,
            trays,
            counts: vec![0; trays],
            held: 0,
        }
    }

    fn post(&mut self, interval: usize) {
        self.bytes.push(interval as u8);
        let message = Note {
            pad: 0,
            kind: 0,
            interval: interval as u8,
            payload: 0,
        };
        if let Ok(entry) = self.hub.post(message) {
            self.counts[entry.deadline as usize % self.trays] += 1;
            self.held += 1;
        }
    }

    fn gone(&mut self, deadline: u32) {
        self.counts[deadline as usize % self.trays] -= 1;
        self.held -= 1;
    }

    fn dispatch(&mut self) {
        self.bytes.push(DISPATCH);
        if let Ok(Some(entry)) = self.hub.dispatch() {
            self.gone(entry.deadline);
        }
    }

    /// Turns to the next cycle and names what is late, so that the next turn can come.
    fn turn(&mut self) {
        self.bytes.push(TURN);
        let _ = self.hub.turn(self.hub.cycle() + 1);
        while self.hub.ask().waiting > 0 {
            self.bytes.push(NAME);
            if let Ok(Some(entry)) = self.hub.name() {
                self.gone(entry.deadline);
            }
        }
    }

    /// Whether the tray of this interval has a cell free in a row bank.
    fn has_room(&self, interval: usize) -> bool {
        let tray = (self.hub.cycle() as usize + interval) % self.trays;
        self.counts[tray] < CELLS / self.trays
    }

    /// The first so many calls.
    fn into_load(mut self, name: &'static str, calls: usize) -> Load {
        self.bytes.truncate(calls);
        Load {
            name,
            trays: self.trays,
            bytes: self.bytes,
        }
    }
}

/// A class of 40 pads. In a cycle most pads send a pen sample or a tilt note, of intervals 1 to 3, and now and then a
/// key note of interval 12. About as many are dispatched as came.
pub fn class(calls: usize) -> Load {
    let mut random = Random::new(40);
    let mut writer = Writer::new(13);
    while writer.bytes.len() < calls {
        for _pad in 0..40 {
            match random.below(16) {
                0 => writer.post(12),
                1..=3 => {}
                _ => writer.post(1 + random.below(3)),
            }
            if random.below(16) < 13 {
                writer.dispatch();
            }
        }
        writer.turn();
    }
    writer.into_load("class", calls)
}

/// 128 trays, in which a few entries are held.
pub fn sparse(calls: usize) -> Load {
    let mut random = Random::new(128);
    let mut writer = Writer::new(128);
    while writer.bytes.len() < calls {
        if writer.held < 1 + random.below(4) {
            writer.post(1 + random.below(127));
        } else {
            writer.dispatch();
        }
        if random.below(4) == 0 {
            writer.turn();
        }
    }
    writer.into_load("sparse", calls)
}

/// As many held as the bank takes: in the row bank all but the present cycle's row, in the chain bank all 1,024. One goes,
/// and one or two come into trays that have room, or are refused where none has; at each turn a tray becomes late.
fn full(name: &'static str, trays: usize, calls: usize) -> Load {
    let mut random = Random::new(1024);
    let mut writer = Writer::new(trays);
    let longest = trays - 1;
    (0..CELLS).for_each(|place| writer.post(1 + place % longest));
    while writer.bytes.len() < calls {
        for _ in 0..3 * CELLS / trays {
            writer.dispatch();
            for _ in 0..1 + random.below(2) {
                let first = random.below(longest);
                let mut others = (first..first + longest).map(|i| 1 + i % longest);
                let room = others.find(|interval| writer.has_room(*interval));
                writer.post(room.unwrap_or(1 + first));
            }
        }
        writer.turn();
    }
    writer.into_load(name, calls)
}

/// Over 16 trays, and over as many as there can be.
pub fn full_16(calls: usize) -> Load {
    full("full", 16, calls)
}

pub fn full_128(calls: usize) -> Load {
    full("full128", 128, calls)
}

/// More comes than is dispatched, so that each turn makes some late.
pub fn late(calls: usize) -> Load {
    let mut random = Random::new(9);
    let mut writer = Writer::new(8);
    while writer.bytes.len() < calls {
        for _ in 0..12 {
            writer.post(1 + random.below(4));
            if random.below(2) == 0 {
                writer.dispatch();
            }
        }
        writer.turn();
    }
    writer.into_load("late", calls)
}

/// How many turns come before the posts of the loads below, so that they are not in the first cycles, where a cycle is
/// its own tray's number.
const TURNS: usize = 1000;

/// So many intervals, from the longest down to 1 in turn.
fn intervals(trays: usize, count: usize) -> impl Iterator<Item = u8> {
    let longest = trays.clamp(2, 128) - 1;
    (0..count).map(move |place| (longest - place % longest) as u8)
}

/// Posts of all intervals.
pub fn posts(trays: usize, count: usize) -> Load {
    let mut bytes = vec![TURN; TURNS];
    bytes.extend(intervals(trays, count));
    Load {
        name: "posts",
        trays,
        bytes,
    }
}

/// Pairs of a post and a dispatch with nothing else held, of all intervals.
pub fn far(trays: usize, pairs: usize) -> Load {
    let mut bytes = vec![TURN; TURNS];
    bytes.extend(intervals(trays, pairs).flat_map(|post| [post, DISPATCH]));
    Load {
        name: "far",
        trays,
        bytes,
    }
}

/// So many posts of all intervals, and then pairs of a post of interval 1 and a dispatch.
pub fn near(trays: usize, held: usize, pairs: usize) -> Load {
    let mut bytes = posts(trays, held).bytes;
    bytes.extend([1, DISPATCH].repeat(pairs));
    Load {
        name: "near",
        trays,
        bytes,
    }
}

/// The load of this name, with its numbers as words.
pub fn by_name(words: &[&str]) -> Option<Load> {
    let number = |word: &&str| word.parse::<usize>().ok();
    let numbers: Option<Vec<usize>> = words.get(1..)?.iter().map(number).collect();
    match (words[0], numbers?.as_slice()) {
        ("class", &[calls]) => Some(class(calls)),
        ("sparse", &[calls]) => Some(sparse(calls)),
        ("full", &[calls]) => Some(full_16(calls)),
        ("full128", &[calls]) => Some(full_128(calls)),
        ("late", &[calls]) => Some(late(calls)),
        ("posts", &[trays, count]) => Some(posts(trays, count)),
        ("far", &[trays, pairs]) => Some(far(trays, pairs)),
        ("near", &[trays, held, pairs]) => Some(near(trays, held, pairs)),
        _ => None,
    }
}

/// Any bytes at all, more often small ones, over any number of trays, also over ones that there cannot be.
pub fn any(seed: u64) -> Load {
    let mut random = Random::new(seed);
    let trays = match random.below(8) {
        0 => random.below(200),
        1 => 128,
        _ => 2 + random.below(20),
    };
    let calls = 1 + random.below(6000);
    let turns = 1 + random.below(40);
    let posts = 1 + random.below(40);
    let bytes = (0..calls)
        .map(|_| match random.below(80) {
            0 => random.below(256) as u8,
            1..3 => ASK,
            x if x < 3 + turns => [TURN, NAME][random.below(2)],
            x if x < 3 + turns + posts => (1 + random.below(trays.max(2))) as u8,
            _ => DISPATCH,
        })
        .collect();
    Load {
        name: "any",
        trays,
        bytes,
    }
}
