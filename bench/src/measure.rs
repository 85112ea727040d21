//! How long each takes, and the ratios.
use crate::contenders::{Contender, Limits};
use crate::loads::{self, Load};
use std::hint::black_box;
use std::time::Instant;

const CALLS: usize = 200_000;
const ROUNDS: usize = 25;

/// A ratio that is wanted of the proved dispatcher to each of the others, in the order of `Contender::ALL`.
struct Goal {
    load: Load,
    at_most: Option<[f64; 3]>,
}

/// The least time in nanoseconds that each took over several rounds, one after another in each round.
fn least<const N: usize>(runs: [&dyn Fn() -> u64; N]) -> [f64; N] {
    let mut times = [f64::INFINITY; N];
    for _ in 0..ROUNDS {
        for (run, time) in runs.iter().zip(&mut times) {
            let start = Instant::now();
            black_box(run());
            *time = time.min(start.elapsed().as_nanos() as f64);
        }
    }
    times
}

fn print_load(goal: &Goal, limits: Limits) {
    let load = &goal.load;
    let times = least([
        &|| Contender::Proved.run(limits, black_box(load)),
        &|| Contender::BinaryHeap.run(limits, black_box(load)),
        &|| Contender::BTreeMap.run(limits, black_box(load)),
        &|| Contender::Trays.run(limits, black_box(load)),
    ]);
    print!("{:<8}{:<8}", load.name, limits.name());
    for time in times {
        print!("{:>8.1}", time / load.bytes.len() as f64);
    }
    print!("   ");
    for (place, other) in times[1..].iter().enumerate() {
        let ratio = times[0] / other;
        match goal.at_most.map(|wanted| wanted[place]) {
            None => print!("{ratio:>8.2}      "),
            Some(wanted) => {
                let mark = if ratio <= wanted { ' ' } else { '!' };
                print!("{ratio:>8.2}{mark}({wanted:.1})");
            }
        }
    }
    println!();
}

/// The time of a post and a dispatch together, over the second load and over the first.
fn print_pair(what: &str, limits: Limits, contender: Contender, loads: [&Load; 2]) {
    let times = least([&|| contender.run(limits, black_box(loads[0])), &|| {
        contender.run(limits, black_box(loads[1]))
    }]);
    let each = |i: usize| times[i] / (loads[i].bytes.len() as f64 / 2.0);
    println!(
        "{what:<34}{:<8}{:<16}{:>8.1}{:>8.1}{:>8.2}",
        limits.name(),
        contender.name(),
        each(0),
        each(1),
        each(1) / each(0)
    );
}

pub fn print_all() {
    let goals = [
        Goal {
            load: loads::class(CALLS),
            at_most: Some([0.7, 0.5, 1.2]),
        },
        Goal {
            load: loads::sparse(CALLS),
            at_most: Some([1.0, 0.5, 1.2]),
        },
        Goal {
            load: loads::full_16(CALLS),
            at_most: Some([0.5, 0.5, 1.2]),
        },
        Goal {
            load: loads::full_128(CALLS),
            at_most: Some([0.5, 0.5, 1.2]),
        },
        Goal {
            load: loads::late(CALLS),
            at_most: None,
        },
    ];
    println!(
        "ns per call, the least of {ROUNDS} rounds, and the proved dispatcher's time over each other's"
    );
    println!("(! : over the ratio that is wanted, in brackets)\n");
    println!(
        "load    bank      proved    heap     map   trays      / heap        / map         / trays"
    );
    for goal in &goals {
        for limits in Limits::BOTH {
            print_load(goal, limits);
        }
    }
    println!("\nns for a post and a dispatch together (wanted: at most 1.2 times)\n");
    println!(
        "{:<34}{:<8}{:<16}{:>8}{:>8}{:>8}",
        "", "bank", "", "first", "second", "ratio"
    );
    let four = loads::far(4, CALLS / 2);
    let most = loads::far(128, CALLS / 2);
    let one = loads::near(64, 0, CALLS / 2);
    let thousand = loads::near(64, 999, CALLS / 2);
    for limits in Limits::BOTH {
        for contender in [Contender::Proved, Contender::Trays] {
            print_pair(
                "1 held: 4 trays, 128 trays",
                limits,
                contender,
                [&four, &most],
            );
            print_pair(
                "64 trays: 1 held, 1,000 held",
                limits,
                contender,
                [&one, &thousand],
            );
        }
    }
}
