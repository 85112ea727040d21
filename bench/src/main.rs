//! Measures the proved dispatcher against what one would take instead: README.md beside this has what and how.
mod agree;
mod chain_trays;
mod contenders;
mod drive;
mod heap;
mod hub;
mod loads;
mod map;
mod measure;
mod ring;
mod row_trays;

use contenders::{Contender, Limits};
use std::process::ExitCode;

const USAGE: &str = "usage: bench | bench agree | bench once BANK CONTENDER LOAD NUMBER..";

/// Makes the calls of one load once, as for a count of instructions.
fn once(limits: &str, contender: &str, load: &[&str]) -> Option<u64> {
    let load = loads::by_name(load)?;
    Some(Contender::by_name(contender)?.run(Limits::by_name(limits)?, &load))
}

fn main() -> ExitCode {
    let words: Vec<String> = std::env::args().skip(1).collect();
    let words: Vec<&str> = words.iter().map(String::as_str).collect();
    let done = match words.as_slice() {
        [] => {
            measure::print_all();
            true
        }
        ["agree"] => agree::all_agree(),
        ["once", limits, contender, load @ ..] => match once(limits, contender, load) {
            Some(sum) => {
                println!("{sum:016x}");
                true
            }
            None => {
                eprintln!("{USAGE}");
                false
            }
        },
        _ => {
            eprintln!("{USAGE}");
            false
        }
    };
    if done {
        ExitCode::SUCCESS
    } else {
        ExitCode::FAILURE
    }
}
