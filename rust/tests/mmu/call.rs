//! A translation, asked by each way of the library.

use std::hint::black_box;

use leavnnjar::csr::PrivMode;
use leavnnjar::mmu::{Mmu, Translation, TranslationError};
pub use oracle::rules::mmu::{Answer, Call, Kind, Mode};

use super::Words;
use crate::door;

// What `out` holds before a call: nothing that a call would put there.
const UNTOUCHED: [u64; 2] = [0x0123_4567_89AB_CDEF, 0xFEDC_BA98_7654_3210];

/// A way to the library. Of an answer no values are there if `out` is as it was.
pub trait Library {
    fn at(words: &Words) -> Self;
    fn words(&self) -> &Words;
    fn flush(&mut self);
    fn translate(&mut self, call: Call, memory: &[u8]) -> Answer;
}

/// The door itself, where every privilege number passes and `out` is seen after a refusal.
pub struct Door(Box<Words>);

impl Door {
    pub fn set(&mut self, words: &Words) {
        *self.0 = *words;
    }
}

impl Library for Door {
    fn at(words: &Words) -> Self {
        Self(Box::new(*words))
    }

    fn words(&self) -> &Words {
        &self.0
    }

    fn flush(&mut self) {
        door::rv_flush(&mut self.0)
    }

    fn translate(&mut self, call: Call, memory: &[u8]) -> Answer {
        let Call {
            kind,
            address,
            satp,
            privilege,
            mstatus,
        } = call;
        let words = &mut self.0;
        let mut values = UNTOUCHED;
        let out = &mut values;
        let number = match kind {
            Kind::Fetch => {
                door::rv_translate_fetch(words, memory, address, satp, privilege, mstatus, out)
            }
            Kind::Load => {
                door::rv_translate_load(words, memory, address, satp, privilege, mstatus, out)
            }
            Kind::Store => {
                door::rv_translate_store(words, memory, address, satp, privilege, mstatus, out)
            }
            Kind::Readable => {
                door::rv_translate_readable(memory, address, satp, privilege, mstatus, out)
            }
        };
        // The memory must stay as it is. The compiler would believe it: here it may not.
        black_box(memory);
        Answer {
            number,
            values: (values != UNTOUCHED).then_some(values),
        }
    }
}

/// The wrapper, which gives no `out` where it refuses.
impl Library for Mmu {
    fn at(words: &Words) -> Self {
        Self::from_words(*words)
    }

    fn words(&self) -> &Words {
        Self::words(self)
    }

    fn flush(&mut self) {
        Self::flush(self)
    }

    fn translate(&mut self, call: Call, memory: &[u8]) -> Answer {
        let Call {
            kind,
            address,
            satp,
            privilege,
            mstatus,
        } = call;
        let mode = PrivMode::from_bits(privilege);
        let answer = match kind {
            Kind::Fetch => self.translate_fetch(address, satp, mode, mstatus, memory),
            Kind::Load => self.translate_load(address, satp, mode, mstatus, memory),
            Kind::Store => self.translate_store(address, satp, mode, mstatus, memory),
            Kind::Readable => Self::translate_readable(address, satp, mode, mstatus, memory),
        };
        black_box(memory);
        let (number, values) = match answer {
            Ok(Translation { address, reads }) => (0, Some([address, reads])),
            Err(TranslationError::Refused(refusal)) => (refusal.number(), None),
            Err(TranslationError::Fault { fault, reads }) => {
                (fault.mcause() as u32, Some([fault.tval(), reads]))
            }
        };
        Answer { number, values }
    }
}
