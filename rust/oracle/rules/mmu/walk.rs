//! The walk: which entries are read, and the leaf that they lead to (Volume II, "Virtual Address
//! Translation Process"). It is the same for every call; whether the leaf allows the call is asked by who
//! walks.

use super::Found;
use super::call::{R, SV39, V, W, X};

const LEVELS: u32 = 3;

/// Page numbers in satp and in an entry have 44 bits.
const PAGE_BITS: u64 = (1 << 44) - 1;

pub struct Walk {
    pub reads: u64,
    /// Where there is none the walk faults.
    pub leaf: Option<Found>,
}

impl Walk {
    const NOTHING_READ: Self = Self {
        reads: 0,
        leaf: None,
    };
}

pub fn walk(address: u64, satp: u64, memory: &[u8]) -> Walk {
    match satp >> 60 == SV39 && is_canonical(address) {
        true => follow(address, satp, memory, is_reserved),
        false => Walk::NOTHING_READ,
    }
}

/// Whether bits 63 to 39 are copies of bit 38.
pub fn is_canonical(address: u64) -> bool {
    let from_38 = address >> 38;
    from_38 == 0 || from_38 == u64::MAX >> 38
}

/// Whether an entry has a form that is none: W without R, or one of bits 63 to 54 set. It is neither a
/// pointer nor a leaf.
pub fn is_reserved(entry: u64) -> bool {
    entry & (R | W) == W || entry >> 54 != 0
}

/// The way down the tables that satp's page number leads to. It ends at an entry that is not valid or
/// that is `refused`.
pub fn follow(address: u64, satp: u64, memory: &[u8], refused: fn(u64) -> bool) -> Walk {
    let mut table = satp & PAGE_BITS;
    for level in (0..LEVELS).rev() {
        let index = (address >> (12 + 9 * level)) % 512;
        let entry = doubleword(memory, table * 4096 + index * 8);
        let ends = |leaf| Walk {
            reads: (LEVELS - level).into(),
            leaf,
        };
        if entry & V == 0 || refused(entry) {
            return ends(None);
        }
        if entry & (R | X) != 0 {
            return ends(mapped(entry, level, address));
        }
        table = page_of(entry);
    }
    // A pointer at level 0.
    Walk {
        reads: LEVELS.into(),
        leaf: None,
    }
}

/// Where a leaf at this level puts the address: the low 9 bits of its page number for each level
/// are the address's, so the leaf's own must be 0.
fn mapped(leaf: u64, level: u32, address: u64) -> Option<Found> {
    let pages = 1 << (9 * level);
    let is_aligned = page_of(leaf) % pages == 0;
    is_aligned.then(|| Found {
        frame: page_of(leaf) + (address >> 12) % pages,
        leaf,
    })
}

fn page_of(entry: u64) -> u64 {
    (entry >> 10) & PAGE_BITS
}

/// Little-endian; an address is taken modulo the length of the memory.
fn doubleword(memory: &[u8], address: u64) -> u64 {
    let place = (address % memory.len() as u64) as usize;
    let bytes = memory[place..place + 8].try_into().expect("eight bytes");
    u64::from_le_bytes(bytes)
}
