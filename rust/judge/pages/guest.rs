//! What pages.c left in its memory: tables, and what came of each probe.

use leavnnjar::csr::PrivMode;

use super::Case;
use super::sites::{Form, POINTER, POINTER_UAD, SITES, Site};
use crate::common::product;

// The same in pages.c: where the answers stand, and how many there are.
const COUNT: u64 = 0x8010_3000;
const ANSWERS: u64 = 0x8100_0000;

/// The guest's memory as it left it. The guest has it at 0x8000_0000, and the library takes an address
/// modulo the memory's length, so both find the same bytes.
pub struct Memory(Vec<u8>);

impl Memory {
    const BASE: u64 = 0x8000_0000;
    const LENGTH: usize = 32 << 20;

    pub fn new(bytes: Vec<u8>) -> Self {
        assert_eq!(bytes.len(), Self::LENGTH, "the whole memory");
        Self(bytes)
    }

    pub fn bytes(&self) -> &[u8] {
        &self.0
    }

    fn contains(address: u64) -> bool {
        (Self::BASE..Self::BASE + Self::LENGTH as u64).contains(&address)
    }

    /// The words from this address on.
    pub fn words(&self, address: u64) -> impl Iterator<Item = u64> {
        let word = |eight: &[u8]| u64::from_le_bytes(eight.try_into().expect("eight bytes"));
        self.0[(address - Self::BASE) as usize..]
            .chunks(8)
            .map(word)
    }

    pub fn write(&mut self, address: u64, word: u64) {
        let offset = (address - Self::BASE) as usize;
        self.0[offset..offset + 8].copy_from_slice(&word.to_le_bytes());
    }
}

/// What the guest wrote down of a probe: cause and value of the trap by which it came back, the page
/// that it reached, and the entry afterwards.
type Answer = [u64; 4];

fn answers(memory: &Memory) -> Vec<Answer> {
    let count = memory.words(COUNT).next().expect("the number of answers");
    let mut words = memory.words(ANSWERS);
    let mut word = || words.next().expect("room for the answers");
    (0..count)
        .map(|_| [word(), word(), word(), word()])
        .collect()
}

/// What came of reaching for an address: where it led, or the cause and the value of the trap.
pub type Outcome = Result<u64, (u64, u64)>;

/// The outcome that an answer tells of.
fn outcome(form: &Form, mode: PrivMode, [cause, value, page, entry]: Answer) -> Outcome {
    assert_eq!(entry, form.entry, "this processor leaves A and D alone");
    let address = form.address;
    if cause == 8 + mode as u64 {
        // It ended by a call, from its own mode: nothing was refused.
        Ok((page << 12) | (address & 0xFFF))
    } else if matches!(cause, 1 | 5 | 7) && value == address && !Memory::contains(address) {
        // An access fault: it was not paged, and no memory stands behind it.
        Ok(address)
    } else {
        Err((cause, value))
    }
}

/// What came of every case at one entry, on the outside processor.
pub struct Round<'a> {
    pub site: &'a Site,
    pub form: Form,
    /// Whether there was a fence before each.
    pub fenced: bool,
    pub outcomes: Vec<Outcome>,
}

pub fn rounds<'a>(memory: &Memory, cases: &[Case]) -> Vec<Round<'a>> {
    let mut answers = answers(memory).into_iter();
    let mut rounds = Vec::new();
    for site in &SITES {
        for (form, fenced) in product(&site.forms(), &[true, false]) {
            let mut next = || answers.next().expect("an answer to each trial");
            let outcome = |&((mode, _), _): &Case| outcome(&form, mode, next());
            let outcomes = cases.iter().map(outcome).collect();
            rounds.push(Round {
                site,
                form,
                fenced,
                outcomes,
            });
        }
    }
    assert!(answers.next().is_none(), "no answer is left over");
    rounds
}

impl Round<'_> {
    /// The outcomes that the library is held to. The outside processor refuses a pointer with U, A or D,
    /// as Volume II does. Request 07 does not: there the same pointer without them counts.
    pub fn counted<'a>(&'a self, rounds: &'a [Self]) -> &'a [Outcome] {
        let without = |other: &&Self| {
            other.form.kind == POINTER && other.site == self.site && other.fenced == self.fenced
        };
        let round = match self.form.kind {
            POINTER_UAD => rounds.iter().find(without).expect("it was tried"),
            _ => self,
        };
        &round.outcomes
    }
}
