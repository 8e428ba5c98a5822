//! Translation states to begin with.

use leavnnjar::mmu::Mmu;

use super::Words;
use super::guest::Guest;
use crate::common::Random;
use crate::layout::{EPOCH_AT, LOAD_AT, SHORTCUT_WORDS, SLOT_WORDS, SLOTS, SLOTS_AT, STORE_AT};

/// What a call may look at besides memory: epoch, shortcuts, and the slot of the page.
pub type Seen = [u64; SLOTS_AT + SLOT_WORDS];

pub fn seen(words: &Words, page: u64) -> Seen {
    let mut seen = [0; SLOTS_AT + SLOT_WORDS];
    seen[..SLOTS_AT].copy_from_slice(&words[..SLOTS_AT]);
    seen[SLOTS_AT..].copy_from_slice(&words[slot(page)..][..SLOT_WORDS]);
    seen
}

/// Where the slot of a page begins.
pub fn slot(page: u64) -> usize {
    SLOTS_AT + SLOT_WORDS * (page % SLOTS as u64) as usize
}

/// An epoch at which a flush does something else: the last ones before it comes round, and 0, which
/// only a host can make.
pub fn edge_epoch(random: &mut Random) -> u64 {
    match random.below(4) {
        0 => 0,
        _ => u32::MAX as u64 - random.below(4),
    }
}

/// Words that the original's state can hold, beside the leaf entries of shortcuts, about this guest's
/// pages: slots and shortcuts that hit, and others that miss in one part only.
pub fn fitting(random: &mut Random, guest: &Guest) -> Words {
    let epoch = match random.below(3) {
        0 => edge_epoch(random),
        1 => random.word() as u32 as u64,
        _ => random.below(4),
    };
    let mut words = [0; Mmu::WORDS];
    for slot in words[SLOTS_AT..].chunks_exact_mut(SLOT_WORDS) {
        slot.copy_from_slice(&[random.word(), 0, 0, epoch]);
    }
    words[EPOCH_AT] = epoch;

    for shortcut in [LOAD_AT, STORE_AT] {
        let page = page_word(random, guest);
        let held = [
            page,
            result(random),
            guest.satp(random),
            leaf(random, guest),
        ];
        words[shortcut..][..SHORTCUT_WORDS].copy_from_slice(&held);
    }
    for _ in 0..12 {
        let page = page_word(random, guest);
        let old = match random.below(4) {
            0 => random.below(3),
            1 => random.word() as u32 as u64,
            _ => epoch,
        };
        let held = [page, result(random), leaf(random, guest), old];
        words[slot(page)..][..SLOT_WORDS].copy_from_slice(&held);
    }
    words
}

/// Any words at all.
pub fn any(random: &mut Random, guest: &Guest) -> Words {
    let mut words = fitting(random, guest);
    for _ in 0..8 {
        let slot = slot(guest.page(random));
        let place = match random.below(2) {
            0 => random.below(SLOTS_AT as u64) as usize,
            _ => slot + random.below(SLOT_WORDS as u64) as usize,
        };
        words[place] = random.operand();
    }
    words
}

/// A page as a word of the state: seldom one that no address has, 2^64 - 1 among them.
fn page_word(random: &mut Random, guest: &Guest) -> u64 {
    let page = guest.page(random);
    match random.below(16) {
        0 => page | (random.word() << 52),
        1 => u64::MAX,
        _ => page,
    }
}

/// A leaf entry, or any word.
fn leaf(random: &mut Random, guest: &Guest) -> u64 {
    match random.below(4) {
        0 => random.word(),
        _ => guest.leaf(random),
    }
}

/// A result page. One of more than 52 bits, which only a host can make, loses the others when it is
/// shifted.
fn result(random: &mut Random) -> u64 {
    match random.below(8) {
        0 => random.word(),
        _ => random.word() >> 20,
    }
}
