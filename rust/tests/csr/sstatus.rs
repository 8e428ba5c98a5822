//! The one read that the original no longer decides, in two parts: under its own mask sstatus is still
//! what the original gives, and beside that it shows UXL, and SD exactly if FS, XS or VS is 3.

use oracle::csr::{self as original, Csr as Original};
use oracle::rules::csr::SSTATUS_HIDDEN;

use super::Words;
use super::inputs::any_words;
use crate::common::{Random, Tally};
use crate::door;

const ROUNDS: usize = 100;
const MSTATUS: usize = 0;

/// The lowest bits of FS, XS, VS and UXL, which have two bits each.
const FIELDS: [u32; 4] = [13, 15, 9, 32];

/// Each value of each of the four fields beside the others, in each privilege, from any words.
pub fn compare(tally: &mut Tally, random: &mut Random) {
    for _ in 0..ROUNDS {
        let mut words = any_words(random);
        for choice in 0..256 {
            let values = [0, 2, 4, 6].map(|from| (choice >> from) & 3);
            for (field, value) in FIELDS.into_iter().zip(values) {
                words[MSTATUS] = (words[MSTATUS] & !(3 << field)) | (value << field);
            }
            for privilege in 0..4 {
                read(tally, &words, privilege, values);
            }
        }
    }
}

fn read(tally: &mut Tally, words: &Words, privilege: u64, [fs, xs, vs, uxl]: [u64; 4]) {
    const NAME: &str = "sstatus_in_parts";

    let mut answer = 0;
    let number = door::rv_csr_read(words, original::SSTATUS, privilege, &mut answer);
    let sd = u64::from(fs == 3 || xs == 3 || vs == 3);
    let mode = original::PrivMode::from_bits(privilege);
    let theirs = Original::oracle_from(words).read_register(original::SSTATUS, mode);

    tally.calls(NAME, 1);
    let (shown, hidden) = (answer & !SSTATUS_HIDDEN, answer & SSTATUS_HIDDEN);
    if number != 0 || Some(shown) != theirs {
        tally.differ(
            NAME,
            (words[MSTATUS], privilege),
            (number, shown),
            "original",
            theirs,
        );
    }
    let rule = (sd << 63) | (uxl << 32);
    if hidden != rule {
        tally.differ(NAME, (words[MSTATUS], privilege), hidden, "rule", rule);
    }
}
