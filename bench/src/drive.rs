//! A load on a hub, and the checksum of what it answers: as `pad_hub_load_over_rows` does it on the proved dispatcher
//! (crates/bench_driver/specs has both as definitions).
use crate::hub::{Entry, Figures, Hub, Note, Queue, Refusal};

/// The bytes of a load; 1 to 127 are posts of that interval.
pub const DISPATCH: u8 = 0;
pub const TURN: u8 = 128;
pub const NAME: u8 = 129;
pub const ASK: u8 = 130;

const TILT: u8 = 13;

fn mix(sum: u64, number: u64) -> u64 {
    sum.wrapping_mul(31).wrapping_add(number)
}

fn entry_number(entry: Entry) -> u64 {
    ((entry.deadline as u64) << 32 | entry.receipt as u64)
        .wrapping_add(entry.message.payload as u64)
}

fn given_number(entry: Result<Option<Entry>, Refusal>, none: u64) -> u64 {
    match entry {
        Ok(Some(entry)) => entry_number(entry),
        Ok(None) => none,
        Err(refusal) => refusal as u64,
    }
}

fn asked_number(figures: Figures) -> u64 {
    mix(figures.pending as u64, figures.waiting as u64)
}

fn answer<Q: Queue>(hub: &mut Hub<Q>, byte: u8) -> u64 {
    match byte {
        DISPATCH => given_number(hub.dispatch(), 33),
        1..=127 => {
            let message = Note {
                pad: byte,
                kind: TILT,
                interval: byte,
                payload: hub.cycle(),
            };
            match hub.post(message) {
                Ok(entry) => entry_number(entry),
                Err(refusal) => refusal as u64,
            }
        }
        TURN => {
            let next = hub.cycle() + 1;
            match hub.turn(next) {
                Ok(late) => ((next as u64) << 32).wrapping_add(late as u64),
                Err(refusal) => refusal as u64,
            }
        }
        NAME => given_number(hub.name(), 34),
        _ => asked_number(hub.ask()),
    }
}

#[inline(never)]
pub fn drive<Q: Queue>(load: &[u8], trays: usize) -> u64 {
    let (mut hub, opened) = Hub::<Q>::new(trays);
    let mut sum = match opened {
        Ok(()) => 32,
        Err(refusal) => refusal as u64,
    };
    for &byte in load {
        sum = mix(sum, answer(&mut hub, byte));
    }
    sum
}
