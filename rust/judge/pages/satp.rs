//! Holds what satp read after each write on the outside processor, which has Sv39 alone, to what the
//! library's reads. That satp has another mode comes about on neither.

use leavnnjar::Refusal;
use leavnnjar::csr::{Csr, PrivMode, SATP};

use super::guest::Memory;
use super::sites::{ROOT, SV39};
use crate::check;
use crate::common::{Tally, product};

// The same in pages.c, as is the order of the writes: where the answers stand, who writes, what satp
// was before, and what is written beside the mode.
const ANSWERS: u64 = 0x8010_4000;
const WRITERS: [PrivMode; 2] = [PrivMode::S, PrivMode::M];
const BEFORE: [u64; 3] = [0, SV39, SV39 | (0x5A5A << 44)];
const REST: [u64; 4] = [0, ROOT >> 12, (0xFFFF << 44) | (ROOT >> 12), u64::MAX >> 4];

pub fn compare(memory: &Memory) -> Tally {
    let mut tally = Tally::new("satp");
    let mut answers = memory.words(ANSWERS);

    let modes: Vec<u64> = (0..16).collect();
    for (writer, before) in product(&WRITERS, &BEFORE) {
        for (mode, rest) in product(&modes, &REST) {
            let word = (mode << 60) | rest;
            let theirs = answers.next().expect("an answer to each write");
            let name = match mode {
                0 | 8 => "write, mode 0 or 8",
                _ => "write, other mode",
            };
            let inputs = (writer, before, word);
            check(&mut tally, name, inputs, written(inputs), Ok(theirs));
        }
    }
    tally
}

/// What the library's satp reads after this write.
fn written((writer, before, word): (PrivMode, u64, u64)) -> Result<u64, Refusal> {
    let mut csr = Csr::new();
    csr.write_register(SATP, before, writer)?;
    csr.write_register(SATP, word, writer)?;
    csr.read_register(SATP, writer)
}
