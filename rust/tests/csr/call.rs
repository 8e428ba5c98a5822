//! A call on the CSR file, made of the original and by each way to the library.

use std::hint::black_box;

use leavnnjar::Refusal;
use leavnnjar::csr::{self as ours, Csr};
use oracle::csr::{self as original, Csr as Original};
use oracle::rules::csr as rules;

use super::Words;
use crate::door;

#[derive(Clone, Copy, Debug)]
pub enum Call {
    Read {
        address: u32,
        privilege: u64,
    },
    Write {
        address: u32,
        value: u64,
        privilege: u64,
    },
    Pending {
        privilege: u64,
    },
}

/// What a call gives back: the library's number, and what then stands in `out`. An interrupt choice
/// gives 1 for true and 0 for false; a write has no `out`.
#[derive(Clone, Copy, Debug, PartialEq)]
pub struct Answer {
    number: u32,
    out: u64,
}

impl Call {
    pub fn name(self) -> &'static str {
        match self {
            Self::Read { address, .. } if rules::decides_read(address) => {
                "read_register of sstatus"
            }
            Self::Read { .. } => "read_register",
            Self::Write { address, value, .. } if rules::decides_write(address, value) => {
                "write_register, rule"
            }
            Self::Write { .. } => "write_register",
            Self::Pending { .. } => "pending_interrupt",
        }
    }

    /// Who says what it answers.
    pub fn judge(self) -> &'static str {
        match self {
            Self::Read { address, .. } if rules::decides_read(address) => "rule",
            Self::Write { address, value, .. } if rules::decides_write(address, value) => "rule",
            _ => "original",
        }
    }

    /// What the judge answers, and by the rule the number of what is refused.
    pub fn expected(self, csr: &mut Original, untouched: u64) -> Answer {
        let (number, out) = match self {
            Self::Read { address, privilege } => {
                let mode = original::PrivMode::from_bits(privilege);
                match rules::read_register(csr, address, mode) {
                    Some(value) => (0, value),
                    None => (refusal(csr, address, mode), untouched),
                }
            }
            Self::Write {
                address,
                value,
                privilege,
            } => {
                let mode = original::PrivMode::from_bits(privilege);
                match rules::write_register(csr, address, value, mode) {
                    true => (0, untouched),
                    false => (refusal(csr, address, mode), untouched),
                }
            }
            Self::Pending { privilege } => {
                match csr.pending_interrupt(original::PrivMode::from_bits(privilege)) {
                    Some(bit) => (1, bit),
                    None => (0, untouched),
                }
            }
        };
        Answer { number, out }
    }
}

/// The original says only that it refuses: SATP from S-mode with TVM set is no. 3, all else no. 2.
fn refusal(csr: &Original, address: u32, mode: original::PrivMode) -> u32 {
    let trapped = address == original::SATP
        && mode == original::PrivMode::S
        && csr.mstatus & original::MSTATUS_TVM != 0;
    if trapped { 3 } else { 2 }
}

/// A way to the library.
pub trait Library {
    fn at(words: &Words) -> Self;
    fn words(&self) -> &Words;
    fn call(&mut self, call: Call, untouched: u64) -> Answer;
}

/// The door itself, where every privilege number passes and `out` is seen after a refusal.
pub struct Door(Words);

impl Library for Door {
    fn at(words: &Words) -> Self {
        Self(*words)
    }

    fn words(&self) -> &Words {
        &self.0
    }

    fn call(&mut self, call: Call, untouched: u64) -> Answer {
        let words = &mut self.0;
        let mut out = untouched;
        let number = match call {
            Call::Read { address, privilege } => {
                door::rv_csr_read(words, address, privilege, &mut out)
            }
            Call::Write {
                address,
                value,
                privilege,
            } => door::rv_csr_write(words, address, value, privilege),
            Call::Pending { privilege } => door::rv_csr_pending(words, privilege, &mut out).into(),
        };
        // A read must leave the words alone. The compiler would believe it: here it may not.
        black_box(words);
        Answer { number, out }
    }
}

/// The wrapper, which gives no `out` where there is no value.
impl Library for Csr {
    fn at(words: &Words) -> Self {
        Self::from_words(*words)
    }

    fn words(&self) -> &Words {
        Self::words(self)
    }

    fn call(&mut self, call: Call, untouched: u64) -> Answer {
        let (number, out) = match call {
            Call::Read { address, privilege } => {
                match self.read_register(address, ours::PrivMode::from_bits(privilege)) {
                    Ok(value) => (0, value),
                    Err(refusal) => (refusal.number(), untouched),
                }
            }
            Call::Write {
                address,
                value,
                privilege,
            } => {
                let mode = ours::PrivMode::from_bits(privilege);
                let done = self.write_register(address, value, mode);
                (done.map_or_else(Refusal::number, |()| 0), untouched)
            }
            Call::Pending { privilege } => {
                match self.pending_interrupt(ours::PrivMode::from_bits(privilege)) {
                    Some(bit) => (1, bit),
                    None => (0, untouched),
                }
            }
        };
        Answer { number, out }
    }
}
