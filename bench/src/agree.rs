//! Whether all answer the same.
use crate::contenders::{Contender, Limits};
use crate::loads::{self, Load};

/// Says where checksums differ, if they do.
fn differs(load: &Load) -> bool {
    let mut found = false;
    for limits in Limits::BOTH {
        let proved = Contender::Proved.run(limits, load);
        for other in Contender::ALL {
            let sum = other.run(limits, load);
            if sum != proved {
                found = true;
                println!(
                    "{} under {} with {} trays: {} has {sum:016x}, proved {proved:016x}",
                    load.name,
                    limits.name(),
                    load.trays,
                    other.name()
                );
            }
        }
    }
    found
}

/// The example of docs/loads.md, and the checksum that it works out.
fn example() -> (Load, u64) {
    let load = Load {
        name: "example",
        trays: 4,
        bytes: vec![2, 1, 0, 128, 128, 129, 130],
    };
    (load, 7_750_663_682_717_683_649)
}

/// Makes every kind of load, and many that are random.
pub fn all_agree() -> bool {
    let (example, worked_out) = example();
    let right =
        Limits::BOTH.map(|limits| Contender::Proved.run(limits, &example)) == [worked_out; 2];
    if !right {
        println!("the example of docs/loads.md has another checksum");
    }
    let mut all = vec![
        example,
        loads::class(20_000),
        loads::sparse(20_000),
        loads::full_16(20_000),
        loads::full_128(20_000),
        loads::late(20_000),
    ];
    for trays in [0, 1, 2, 3, 127, 128, 129, usize::MAX] {
        all.push(loads::posts(trays, 1100));
        all.push(Load {
            name: "every byte",
            trays,
            bytes: (0..=255).cycle().take(5000).collect(),
        });
    }
    all.push(Load {
        name: "no call",
        trays: 8,
        bytes: Vec::new(),
    });
    all.push(loads::far(128, 1000));
    all.push(loads::near(64, 999, 1000));
    all.extend((1..=400).map(loads::any));
    let calls: usize = all.iter().map(|load| load.bytes.len()).sum();
    let wrong = all.iter().filter(|load| differs(load)).count();
    println!(
        "{} loads, {calls} calls over each bank: {wrong} differ",
        all.len()
    );
    right && wrong == 0
}
