//! The writes that the original no longer decides, in parts: of a write of satp the number is still the
//! original's, and so is every other word. The word itself is the value written where its mode is 0 or 8,
//! as in the original, and stays as it was where it is not.

use oracle::csr::{self as original, Csr as Original};

use super::inputs::any_words;
use super::{Words, changed};
use crate::common::{Random, Tally};
use crate::door;

const ROUNDS: usize = 500;
const MSTATUS: usize = 0;
const SATP: usize = 21;

/// Each mode over each that satp had, in each privilege, with TVM clear and set, from any words.
pub fn compare(tally: &mut Tally, random: &mut Random) {
    for _ in 0..ROUNDS {
        let mut words = any_words(random);
        for choice in 0..16 * 16 {
            let (mode, old) = (choice % 16, choice / 16);
            words[SATP] = (old << 60) | (random.word() >> 4);
            words[MSTATUS] ^= original::MSTATUS_TVM & random.word();
            let value = (mode << 60) | (random.word() >> 4);
            write(tally, &words, value, random.below(4));
        }
    }
}

fn write(tally: &mut Tally, words: &Words, value: u64, privilege: u64) {
    let (name, is_taken) = match value >> 60 {
        0 => ("satp: mode 0 taken", true),
        8 => ("satp: mode 8 taken", true),
        _ => ("satp: other mode kept out", false),
    };
    let is_closed = privilege == 1 && words[MSTATUS] & original::MSTATUS_TVM != 0;

    let mut ours = *words;
    let number = door::rv_csr_write(&mut ours, original::SATP, value, privilege);
    let mut read = words[SATP];
    let read_number = door::rv_csr_read(&ours, original::SATP, privilege, &mut read);

    // By the rule.
    let mut expected = *words;
    if is_taken && !is_closed {
        expected[SATP] = value;
    }
    let refused = if is_closed { 3 } else { 0 };
    tally.calls(name, 1);
    let input = (value, words[SATP], words[MSTATUS], privilege);
    let answers = (number, read_number, read);
    let by_rule = (refused, refused, expected[SATP]);
    if answers != by_rule || ours != expected {
        let (ours, theirs) = (changed(words, &ours), changed(words, &expected));
        tally.differ(name, input, (answers, ours), "rule", (by_rule, theirs));
    }

    // By the original, in all but the word itself where the mode is kept out.
    let mut csr = Original::oracle_from(words);
    let accepts = csr.write_register(
        original::SATP,
        value,
        original::PrivMode::from_bits(privilege),
    );
    let mut originals = csr.oracle_words();
    if !is_taken {
        originals[SATP] = ours[SATP];
    }
    if accepts != (number == 0) || ours != originals {
        let (ours, theirs) = (changed(words, &ours), changed(words, &originals));
        tally.differ(name, input, (number, ours), "original", (accepts, theirs));
    }
}
