//! Words that ask for an interrupt choice.

use oracle::csr::{MSTATUS_MIE, MSTATUS_SIE};

use super::Words;
use super::inputs::value;
use crate::common::Random;

const MSTATUS: usize = 0;
const MIDELEG: usize = 3;
const MIE: usize = 4;
const MIP: usize = 12;

/// The bits that have a fixed order, last to come first.
const STANDARD: [u32; 6] = [5, 1, 9, 7, 3, 11];

/// No bit, each bit alone, each pair of bits, and each set of standard bits alone and beside others.
pub fn pending_sets(random: &mut Random) -> Vec<u64> {
    let mut sets = vec![0, u64::MAX];
    for low in 0..64 {
        for high in low..64 {
            sets.push((1 << low) | (1 << high));
        }
    }
    for choice in 0..64 {
        let taken = STANDARD.iter().enumerate();
        let standard = taken.map(|(i, bit)| ((choice >> i) & 1) << bit).sum();
        sets.push(standard);
        for _ in 0..4 {
            sets.push(standard | (1 << random.below(64)));
            sets.push(standard | (random.word() & !0xAAA));
        }
    }
    sets
}

/// Delegations of a pending set: nothing, everything, all but the set, the set, its lowest bit, all
/// of it but that, and a part at random.
pub fn delegations(random: &mut Random, set: u64) -> [u64; 7] {
    let lowest = set & set.wrapping_neg();
    let part = random.word();
    [0, u64::MAX, !set, set, lowest, set & !lowest, part]
}

/// Clear and set: SIE and MIE, in each combination.
pub const ENABLES: [u64; 4] = [0, MSTATUS_SIE, MSTATUS_MIE, MSTATUS_SIE | MSTATUS_MIE];

/// The words with exactly this set both pending and enabled. All other bits are one or the other.
pub fn ask(random: &mut Random, words: &Words, set: u64, delegated: u64, enable: u64) -> Words {
    let noise = random.word();
    let mut words = *words;
    words[MSTATUS] = (value(random) & !ENABLES[3]) | enable;
    words[MIDELEG] = delegated;
    words[MIE] = set | noise;
    words[MIP] = set | !noise;
    words
}

/// A word with few bits: of two that are full, nearly every choice would be bit 11.
fn sparse(random: &mut Random) -> u64 {
    match random.below(3) {
        0 => random.word(),
        1 => random.word() & random.word() & random.word(),
        _ => value(random),
    }
}

/// The words with any bits in those that the choice looks at.
pub fn ask_any(random: &mut Random, words: &Words) -> Words {
    let mut words = *words;
    for place in [MSTATUS, MIDELEG, MIE, MIP] {
        words[place] = sparse(random);
    }
    words
}
