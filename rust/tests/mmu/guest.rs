//! Random guests: a memory full of table entries, and few enough pages and satps that the cache is
//! hit, and fought over.

use oracle::rules::mmu::call::{R, SV39, U, V, W, X};

use super::call::{Call, Kind};
use super::callers::{Caller, Whose};
use crate::common::Random;
use crate::layout::SLOTS;

/// Page numbers in satp and in an entry have 44 bits.
const PAGE_BITS: u64 = (1 << 44) - 1;

pub struct Guest {
    pub memory: Vec<u8>,
    whose: Whose,
    /// The first is asked for most; the others are near it, of another mode, far from it, and unpaged.
    satps: [u64; 5],
    /// Virtual pages.
    pages: Vec<u64>,
}

/// What happens next to a guest and its translation state.
#[derive(Clone, Copy, Debug)]
pub enum Event {
    Ask(Call),
    /// Asked with a memory of a length that is refused.
    Refused(Call, usize),
    Flush,
    /// Eight bytes of memory, at a multiple of 8, are stored to.
    Store(usize, u64),
}

impl Guest {
    pub fn new(random: &mut Random, length: usize, whose: Whose) -> Self {
        let pages = pages(random);
        let satps = satps(random);
        let mut memory = vec![0; length];
        for place in (0..length).step_by(8) {
            let entry = entry(random, place as u64 >> 12, whose);
            memory[place..place + 8].copy_from_slice(&entry.to_le_bytes());
        }
        Self {
            memory,
            whose,
            satps,
            pages,
        }
    }

    /// The first is asked for most, so that a page is often met again by another caller.
    pub fn page(&self, random: &mut Random) -> u64 {
        match random.below(4) {
            0 => self.pages[0],
            _ => self.pages[random.below(self.pages.len() as u64) as usize],
        }
    }

    pub fn satp(&self, random: &mut Random) -> u64 {
        let which = match random.below(32) {
            0..=22 => 0,
            23..=26 => 1,
            27 => 2,
            28..=29 => 3,
            _ => 4,
        };
        self.satps[which]
    }

    /// A leaf entry that a slot or a shortcut may hold.
    pub fn leaf(&self, random: &mut Random) -> u64 {
        entry(random, 0, self.whose)
    }

    pub fn ask(&self, random: &mut Random) -> Call {
        let kind = match random.below(16) {
            0..=5 => Kind::Load,
            6..=10 => Kind::Store,
            11..=14 => Kind::Fetch,
            _ => Kind::Readable,
        };
        let Caller { privilege, mstatus } = self.whose.caller(random, kind);
        Call {
            kind,
            address: (self.page(random) << 12) | random.below(0x1000),
            satp: self.satp(random),
            privilege,
            mstatus,
        }
    }

    /// `memory` is the guest's as it stands now: most stores go to an entry on some page's path.
    pub fn event(&self, random: &mut Random, memory: &[u8]) -> Event {
        match random.below(32) {
            0 => Event::Flush,
            1 => Event::Refused(self.ask(random), refused_length(random)),
            2..=4 => self.store(random, memory),
            _ => Event::Ask(self.ask(random)),
        }
    }

    fn store(&self, random: &mut Random, memory: &[u8]) -> Event {
        let path = path(memory, self.page(random) << 12, self.satps[0]);
        let (place, old) = match random.below(4) {
            0 => (random.below(memory.len() as u64 / 8) as usize * 8, 0),
            _ => path[random.below(path.len() as u64) as usize],
        };
        let value = match random.below(8) {
            0 => old ^ (1 << random.below(10)),
            1 => old ^ (1 << random.below(64)),
            _ => entry(random, place as u64 >> 12, self.whose),
        };
        Event::Store(place, value)
    }
}

/// The places in memory of the entries that the original's walk for this address reads, and what they
/// hold. A walk that refuses more reads the first of them.
pub fn path(memory: &[u8], address: u64, satp: u64) -> Vec<(usize, u64)> {
    let mut entries = Vec::with_capacity(3);
    let mut table = satp & PAGE_BITS;
    for level in [2, 1, 0] {
        let index = (address >> (12 + 9 * level)) & 0x1FF;
        let place = ((table * 4096 + index * 8) % memory.len() as u64) as usize;
        let bytes = memory[place..place + 8].try_into().expect("eight bytes");
        let entry = u64::from_le_bytes(bytes);
        entries.push((place, entry));

        let pointer = entry & 0b1011 == 1;
        if !pointer {
            break;
        }
        table = (entry >> 10) & PAGE_BITS;
    }
    entries
}

fn refused_length(random: &mut Random) -> usize {
    const LENGTHS: [usize; 10] = [0, 1, 2, 4, 7, 9, 12, 24, 1000, 4095];
    LENGTHS[random.below(10) as usize]
}

/// Pages beside each other, in one superpage, in one slot with other tags, in the other half of the
/// addresses; and one that is the first but for a bit, or has the same 27 bits of which the walk
/// makes its indexes: it may be one that no walk finds.
fn pages(random: &mut Random) -> Vec<u64> {
    let first = match random.below(64) {
        0 => random.word() >> 12,
        1..=8 => 0,
        9..=16 => u64::MAX >> 12,
        17..=24 => random.below(512),
        _ => canonical(random.word()),
    };
    let step = 1 + random.below(3);
    let apart = match random.below(8) {
        0 => step << 27,
        1..=3 => 1 << random.below(52),
        _ => 1 << random.below(26),
    };
    let mut pages = vec![
        first,
        first + step,
        first ^ (step * SLOTS as u64),
        first ^ (step << 18),
        first ^ (u64::MAX << 26),
        first ^ apart,
        canonical(random.word()),
    ];
    for page in &mut pages {
        *page &= u64::MAX >> 12;
    }
    pages
}

/// The page with these low 27 bits, the highest of which all others copy.
fn canonical(page: u64) -> u64 {
    let signed = (page << 37).cast_signed() >> 37;
    signed.cast_unsigned() & (u64::MAX >> 12)
}

fn satps(random: &mut Random) -> [u64; 5] {
    let mode = match random.below(32) {
        0 => random.below(16),
        _ => SV39,
    };
    let space = match random.below(2) {
        0 => 0,
        _ => random.below(1 << 16),
    };
    let root = match random.below(3) {
        0 => random.word() & PAGE_BITS,
        _ => random.below(16),
    };
    let rest = (space << 44) | root;
    let first = (mode << 60) | rest;
    let near = match random.below(2) {
        0 => first ^ (1 << (44 + random.below(16))),
        _ => first ^ (1 << random.below(44)),
    };
    let other = (random.below(16) << 60) | rest;
    let far = (SV39 << 60) | (random.word() >> 4);
    [first, near, other, far, rest]
}

/// A table entry: pointers, to their own table too; leaves, aligned and not; all mixes of flags, U as
/// the guest has it. What is refused is seldom enough that walks often come through.
fn entry(random: &mut Random, own: u64, whose: Whose) -> u64 {
    let aligned = match random.below(16) {
        0..=13 => 18,
        14 => 9,
        _ => 0,
    };
    let leaf = |random: &mut Random| random.word() << aligned;
    let (page, flags) = match random.below(16) {
        0 => (own, V),
        1..=4 => (random.word(), V | (random.word() & !(R | W | X))),
        5..=10 => (leaf(random), 0xCF),
        11 => (leaf(random), 0x43 | random.word()),
        12 => (leaf(random), 0x3 | random.word()),
        13 => (leaf(random), 0x49 | (random.word() & !(R | W))),
        14 => (leaf(random), random.word()),
        _ => (random.word(), random.word() & !V),
    };
    let flags = match random.below(256) {
        0 => (flags & !R) | W,
        _ => flags,
    };
    let flags = match whose {
        Whose::Supervisor => flags & !U,
        Whose::User => flags | U,
        Whose::Anyone => flags ^ (U & random.word()),
    };
    let upper = match random.below(256) {
        0 => random.word() << 54,
        1 => 1 << (54 + random.below(10)),
        _ => 0,
    };
    upper | ((page & PAGE_BITS) << 10) | (flags & 0x3FF)
}
