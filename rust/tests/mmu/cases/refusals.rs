//! What the manual refuses, each by the place where it comes about: satp's mode, the address, an entry on
//! the way down, the leaf. And what is kept all the same, since it is not asked of a slot or a shortcut.

use oracle::rules::mmu::call::{A, D, R, V, W, X};
use oracle::rules::mmu::walk::{is_canonical, is_reserved};
use oracle::rules::mmu::{Call, Found, Kind};

const LEVELS: usize = 3;

/// The forms of an entry that are none, each for one reason alone, by what the entry would be.
const FORMS: [&str; 4] = [
    "W alone, which would be a pointer",
    "W and X without R, which would be a leaf",
    "a pointer with one of bits 63 to 54",
    "a leaf with one of bits 63 to 54",
];

cases! {
    other_mode "faults: satp's mode is neither 0 nor 8"
    other_mode_shortcut "faults: its mode, where the shortcut has page and satp and would allow"
    other_mode_slot "faults: its mode, where the live slot has the page and would allow"
    not_canonical "faults: bits 63 to 39 are not copies of bit 38"
    upper_half "found by the walk: in the upper half, bits 63 to 38 set"
    shortcut_not_canonical "found by the shortcut: a page that no walk finds"
    slot_not_canonical "found by the slot: a page that no walk finds"
    shortcut_reserved "found by the shortcut: a leaf that no walk takes"
    slot_reserved "found by the slot: a leaf that no walk takes"
    fetch_without_a "denied for A alone: a fetch"
    load_without_a "denied for A alone: a load"
    store_without_a "denied for A alone: a store"
    readable_without_a "denied for A alone: translate_readable"
    store_without_d "denied for D alone: a store"
    shortcut_without_a "the shortcut matches and lacks A alone"
    slot_without_a "the slot is live and lacks A alone"
    shortcut_without_d "the shortcut matches and lacks D alone"
    slot_without_d_finds "the slot is live and lacks D alone, the walk finds"
    slot_without_d_faults "the slot is live and lacks D alone, the walk faults"
    loaded_without_d "the slot is live and lacks D alone, filled by a load"
    fetched_without_d "the slot is live and lacks D alone, filled by a fetch"
}

#[derive(Default)]
pub struct Refusals {
    counts: Counts,
    /// By form and level.
    forms: [[u64; LEVELS]; FORMS.len()],
    /// Where it alone is at fault: each of bits 63 to 54 of an entry, of bits 63 to 39 of an address, and
    /// each mode.
    bits: [u64; 10],
    copies: [u64; 25],
    modes: [u64; 16],
}

impl Refusals {
    pub fn add(&mut self, more: &Self) {
        self.counts.add(&more.counts);
        for (form, more) in self.forms.iter_mut().zip(&more.forms) {
            add(form, more);
        }
        add(&mut self.bits, &more.bits);
        add(&mut self.copies, &more.copies);
        add(&mut self.modes, &more.modes);
    }

    pub fn rows(&self) -> Vec<(String, u64)> {
        let mut rows = self.counts.rows();
        for (form, levels) in FORMS.iter().zip(&self.forms) {
            let by_level = levels.iter().enumerate().rev();
            rows.extend(
                by_level.map(|(l, &count)| (format!("faults: {form}, at level {l}"), count)),
            );
        }
        let others = [&self.modes[1..8], &self.modes[9..]].concat();
        for (of, counts) in [
            ("bits 63 to 54 of an entry, set alone", &self.bits[..]),
            ("bits 63 to 39, alone no copy of bit 38", &self.copies),
            ("modes 1 to 7 and 9 to 15", &others),
        ] {
            let least = counts.iter().min().copied().unwrap_or(0);
            rows.push((format!("faults: the rarest of {of}"), least));
        }
        rows
    }

    /// By a mode that is none. What is kept is not looked at.
    pub fn mode(&mut self, call: Call, matched: Option<Found>, live: Option<Found>) {
        let allows = |kept: Option<Found>| kept.is_some_and(|kept| call.is_allowed_by(kept.leaf));
        self.counts.other_mode += 1;
        self.counts.other_mode_shortcut += u64::from(allows(matched));
        self.counts.other_mode_slot += u64::from(allows(live));
        self.modes[(call.satp >> 60) as usize] += 1;
    }

    pub fn by_shortcut(&mut self, call: Call, kept: Found) {
        self.counts.shortcut_not_canonical += u64::from(!is_canonical(call.address));
        self.counts.shortcut_reserved += u64::from(is_no_leaf(kept.leaf));
    }

    pub fn by_slot(&mut self, call: Call, kept: Found) {
        self.counts.slot_not_canonical += u64::from(!is_canonical(call.address));
        self.counts.slot_reserved += u64::from(is_no_leaf(kept.leaf));
    }

    pub fn by_walk(&mut self, call: Call) {
        self.counts.upper_half += call.address >> 63;
    }

    pub fn shortcut_denies(&mut self, call: Call, kept: Found) {
        self.counts.shortcut_without_a += u64::from(lacks(call, kept, A));
        self.counts.shortcut_without_d += u64::from(lacks(call, kept, D));
    }

    /// `by` is the kind of call that filled it, where that is known.
    pub fn slot_denies(&mut self, call: Call, kept: Found, by: Option<Kind>, walk_finds: bool) {
        let counts = &mut self.counts;
        counts.slot_without_a += u64::from(lacks(call, kept, A));
        if lacks(call, kept, D) {
            counts.slot_without_d_finds += u64::from(walk_finds);
            counts.slot_without_d_faults += u64::from(!walk_finds);
            counts.loaded_without_d += u64::from(by == Some(Kind::Load));
            counts.fetched_without_d += u64::from(by == Some(Kind::Fetch));
        }
    }

    pub fn leaf_denies(&mut self, call: Call, found: Found) {
        let counts = &mut self.counts;
        let without_a = match call.kind {
            Kind::Fetch => &mut counts.fetch_without_a,
            Kind::Load => &mut counts.load_without_a,
            Kind::Store => &mut counts.store_without_a,
            Kind::Readable => &mut counts.readable_without_a,
        };
        *without_a += u64::from(lacks(call, found, A));
        counts.store_without_d += u64::from(lacks(call, found, D));
    }

    /// The walk faulted on this entry, after so many reads; on none where the address was refused.
    pub fn no_leaf(&mut self, call: Call, entry: Option<u64>, reads: u64) {
        let Some(entry) = entry else {
            self.counts.not_canonical += 1;
            let copies = (call.address.cast_signed() << 25 >> 63).cast_unsigned();
            count_alone(&mut self.copies, (call.address ^ copies) >> 39);
            return;
        };
        let upper = entry >> 54;
        let w_without_r = entry & (R | W) == W;
        if entry & V == 0 || w_without_r == (upper != 0) {
            return;
        }
        let is_leaf = entry & (R | X) != 0;
        let form = 2 * usize::from(!w_without_r) + usize::from(is_leaf);
        self.forms[form][LEVELS - reads as usize] += 1;
        count_alone(&mut self.bits, upper);
    }
}

/// Whether the access is denied for want of this bit alone.
fn lacks(call: Call, found: Found, bit: u64) -> bool {
    !call.is_allowed_by(found.leaf) && call.is_allowed_by(found.leaf | bit)
}

/// Whether it is none that a walk would end with, whatever it allows.
fn is_no_leaf(kept: u64) -> bool {
    kept & V == 0 || is_reserved(kept)
}

/// Counts a bit that is set alone.
fn count_alone(counts: &mut [u64], bits: u64) {
    if bits.count_ones() == 1 {
        counts[bits.trailing_zeros() as usize] += 1;
    }
}

fn add(counts: &mut [u64], more: &[u64]) {
    for (count, more) in counts.iter_mut().zip(more) {
        *count += more;
    }
}
