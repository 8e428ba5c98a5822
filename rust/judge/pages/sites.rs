//! What pages.c tries, in its order: addresses, and entries that map them.

use std::iter;

// The same in pages.c, as are the sites and the sound entries: where the tables stand.
pub const ROOT: u64 = 0x8010_0000;
const LEVEL1: u64 = 0x8010_1000;
const LEVEL0: u64 = 0x8010_2000;

pub const SV39: u64 = (8 << 60) | (ROOT >> 12);
const HIGH: u64 = u64::MAX << 38;

// The bits of an entry: its flags, and those that no leaf and no pointer has.
const V: u64 = 1;
const R: u64 = 2;
const W: u64 = 4;
const X: u64 = 8;
const U: u64 = 16;
const A: u64 = 64;
const D: u64 = 128;
const RESERVED: u64 = u64::MAX << 54;

/// The entry for an address in the table of a level names a page, a superpage or the next table.
#[derive(Debug, PartialEq)]
pub struct Site {
    pub satp: u64,
    level: u64,
    pub address: u64,
    target: u64,
}

const fn site(satp: u64, level: u64, address: u64, target: u64) -> Site {
    Site {
        satp,
        level,
        address,
        target,
    }
}

pub const SITES: [Site; 7] = [
    site(SV39, 0, 0x8020_3128, 0x8040_5000),
    site(SV39, 1, 0x8060_5128, 0x8080_0000),
    site(SV39, 2, 0xC0A0_7128, 0x8000_0000),
    site(SV39, 0, HIGH | 0x8020_3128, 0x8040_5000),
    site(SV39, 1, HIGH | 0x8060_5128, 0x8080_0000),
    site(SV39, 2, HIGH | 0xC0A0_7128, 0x8000_0000),
    site(0, 0, 0x8020_3128, 0x8040_5000),
];

/// The flags of entries that nothing is wrong with: a leaf, user mode's leaf, and a pointer.
const SOUND: [u64; 3] = [D | A | X | W | R | V, D | A | U | X | W | R | V, V];

/// The kinds of pointers: a sound one, and one with a flag that Volume II reserves there.
pub const POINTER: &str = "pointer";
pub const POINTER_UAD: &str = "pointer with U, A or D";

/// An address that is reached for, the entry at its site, and what kind of trial that is.
#[derive(Clone, Copy, Debug)]
pub struct Form {
    pub kind: &'static str,
    pub address: u64,
    pub entry: u64,
}

impl Site {
    /// Where the entry stands.
    pub fn place(&self) -> u64 {
        let table = [LEVEL0, LEVEL1, ROOT][self.level as usize];
        table + 8 * ((self.address >> (12 + 9 * self.level)) & 511)
    }

    /// Every combination of flags; then each sound entry with one bit of it wrong, or one of those of
    /// the address that are copies.
    pub fn forms(&self) -> Vec<Form> {
        let form = |kind, address, flags| Form {
            kind,
            address,
            entry: (self.target >> 2) | flags,
        };
        let mut forms = Vec::new();
        for number in 0..64 {
            let flags = ((number >> 4) << 6) | ((number & 15) << 1) | V;
            forms.push(form(kind(flags), self.address, flags));
        }
        for flags in SOUND {
            for (kind, bit) in self.strict_bits(flags) {
                forms.push(form(kind, self.address, flags ^ bit));
            }
            for bit in bits(HIGH) {
                forms.push(form("bit 38 not copied", self.address ^ bit, flags));
            }
        }
        forms
    }

    /// The bits of a sound entry that must be as they are: V, of a superpage the low ones of its page
    /// number, and those reserved.
    fn strict_bits(&self, flags: u64) -> impl Iterator<Item = (&'static str, u64)> {
        let low = ((1 << (9 * self.level)) - 1) << 10;
        let masks = [
            ("V clear", V),
            ("not aligned", if flags & R == 0 { 0 } else { low }),
            ("bit 54 to 63 set", RESERVED),
        ];
        let with = |(kind, mask)| iter::repeat(kind).zip(bits(mask));
        masks.into_iter().flat_map(with)
    }
}

fn bits(mask: u64) -> impl Iterator<Item = u64> {
    (0..64)
        .map(|place| 1 << place)
        .filter(move |bit| mask & bit != 0)
}

/// What kind of entry the flags make.
fn kind(flags: u64) -> &'static str {
    let has = |flag| flags & flag != 0;
    match (has(R), has(W), has(X)) {
        (false, true, _) => "W without R",
        (false, false, false) if has(U | A | D) => POINTER_UAD,
        (false, false, false) => POINTER,
        _ if !has(A) => "leaf, A clear",
        _ if !has(D) => "leaf, D clear",
        _ => "leaf",
    }
}
