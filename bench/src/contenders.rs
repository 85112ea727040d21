//! What is measured: the proved dispatcher over its two banks, and what one would take instead.
use crate::chain_trays::ChainTrays;
use crate::drive::drive;
use crate::heap::HeapQueue;
use crate::loads::Load;
use crate::map::MapQueue;
use crate::row_trays::RowTrays;

/// The proved library's two functions. A slice crosses as its address and its length.
mod proved {
    unsafe extern "C" {
        pub fn pad_hub_load_over_rows(load: *const u8, len: usize, trays: usize) -> u64;
        pub fn pad_hub_load_over_chains(load: *const u8, len: usize, trays: usize) -> u64;
    }
}

/// The limits under which entries are held: those of the row bank, or those of the chain bank.
#[derive(Clone, Copy, PartialEq, Eq)]
pub enum Limits {
    Rows,
    Chains,
}

impl Limits {
    pub const BOTH: [Limits; 2] = [Limits::Rows, Limits::Chains];

    pub fn name(self) -> &'static str {
        match self {
            Limits::Rows => "rows",
            Limits::Chains => "chains",
        }
    }

    pub fn by_name(name: &str) -> Option<Limits> {
        Limits::BOTH
            .into_iter()
            .find(|limits| limits.name() == name)
    }
}

#[derive(Clone, Copy, PartialEq, Eq)]
pub enum Contender {
    Proved,
    BinaryHeap,
    BTreeMap,
    Trays,
}

impl Contender {
    pub const ALL: [Contender; 4] = [
        Contender::Proved,
        Contender::BinaryHeap,
        Contender::BTreeMap,
        Contender::Trays,
    ];

    pub fn name(self) -> &'static str {
        match self {
            Contender::Proved => "proved",
            Contender::BinaryHeap => "BinaryHeap",
            Contender::BTreeMap => "BTreeMap",
            Contender::Trays => "trays",
        }
    }

    pub fn by_name(name: &str) -> Option<Contender> {
        Contender::ALL
            .into_iter()
            .find(|contender| contender.name() == name)
    }

    /// Makes the calls of a load, and answers the checksum.
    pub fn run(self, limits: Limits, load: &Load) -> u64 {
        let bytes = load.bytes.as_slice();
        let trays = load.trays;
        match (self, limits) {
            // SAFETY: the address and the length are those of a slice that lives over the call. The function only
            // reads it, which its proof says, and asks nothing else of its caller.
            (Contender::Proved, Limits::Rows) => unsafe {
                proved::pad_hub_load_over_rows(bytes.as_ptr(), bytes.len(), trays)
            },
            // SAFETY: as above.
            (Contender::Proved, Limits::Chains) => unsafe {
                proved::pad_hub_load_over_chains(bytes.as_ptr(), bytes.len(), trays)
            },
            (Contender::BinaryHeap, Limits::Rows) => drive::<HeapQueue<true>>(bytes, trays),
            (Contender::BinaryHeap, Limits::Chains) => drive::<HeapQueue<false>>(bytes, trays),
            (Contender::BTreeMap, Limits::Rows) => drive::<MapQueue<true>>(bytes, trays),
            (Contender::BTreeMap, Limits::Chains) => drive::<MapQueue<false>>(bytes, trays),
            (Contender::Trays, Limits::Rows) => drive::<RowTrays>(bytes, trays),
            (Contender::Trays, Limits::Chains) => drive::<ChainTrays>(bytes, trays),
        }
    }
}
