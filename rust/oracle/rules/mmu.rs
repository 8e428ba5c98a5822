//! Walk and cache as a whole, read a second time: from documents 01 and 02 and Volume II, and from no
//! other program. `original` says which calls the original still decides.

pub mod call;
pub mod original;
pub mod walk;

pub use call::{Call, Kind, Mode};

use crate::layout::{
    EPOCH_AT, LOAD_AT, MMU_WORDS, SHORTCUT_WORDS, SLOT_WORDS, SLOTS, SLOTS_AT, STORE_AT,
};
use walk::{Walk, walk};

/// A page that no address has.
const NO_PAGE: u64 = u64::MAX;

/// What a call answers: document 01's number, and unless it is refused an address and how many table
/// entries were read.
#[derive(Clone, Copy, Debug, PartialEq)]
pub struct Answer {
    pub number: u32,
    pub values: Option<[u64; 2]>,
}

impl Answer {
    pub const REFUSED: Self = Self {
        number: 4,
        values: None,
    };

    fn found(address: u64, reads: u64) -> Self {
        Self {
            number: 0,
            values: Some([address, reads]),
        }
    }

    fn fault(call: Call, reads: u64) -> Self {
        let number = match call.kind {
            Kind::Fetch => 12,
            Kind::Load | Kind::Readable => 13,
            Kind::Store => 15,
        };
        Self {
            number,
            values: Some([call.address, reads]),
        }
    }
}

/// What a shortcut, a slot or a walk has for a page: the result page and the leaf entry.
#[derive(Clone, Copy, Debug)]
pub struct Found {
    pub frame: u64,
    pub leaf: u64,
}

impl Found {
    /// Of a result page the low 52 bits count.
    fn address(self, call: Call) -> u64 {
        (self.frame << 12) | (call.address % 4096)
    }
}

/// The translation state. Any words are one: of an epoch the low 32 bits count.
#[derive(Clone)]
pub struct State {
    pub words: Box<[u64; MMU_WORDS]>,
}

impl State {
    pub fn new() -> Self {
        let mut words = Box::new([0; MMU_WORDS]);
        words[EPOCH_AT] = 1;
        for at in [LOAD_AT, STORE_AT] {
            words[at..][..SHORTCUT_WORDS].copy_from_slice(&[NO_PAGE, 0, u64::MAX, 0]);
        }
        for slot in words[SLOTS_AT..].chunks_exact_mut(SLOT_WORDS) {
            slot.copy_from_slice(&[NO_PAGE, 0, 0, 0]);
        }
        Self { words }
    }

    pub fn at(words: &[u64; MMU_WORDS]) -> Self {
        Self {
            words: Box::new(*words),
        }
    }

    fn epoch(&self) -> u32 {
        self.words[EPOCH_AT] as u32
    }

    /// Slots stay as they are, and of the shortcuts all but the page.
    pub fn flush(&mut self) {
        let next = match self.epoch().wrapping_add(1) {
            0 => 1,
            next => next,
        };
        self.words[EPOCH_AT] = next.into();
        self.words[LOAD_AT] = NO_PAGE;
        self.words[STORE_AT] = NO_PAGE;
    }

    pub fn translate(&mut self, call: Call, memory: &[u8]) -> Answer {
        let length = memory.len();
        if !length.is_power_of_two() || !(8..=1 << 30).contains(&length) {
            return Answer::REFUSED;
        }
        if !call.is_paged() {
            return Answer::found(call.address, 0);
        }
        // Before anything that is kept: a slot has no satp, and would serve.
        if !call.is_by_sv39() {
            return Answer::fault(call, 0);
        }

        if let Some(kept) = self.shortcut(call)
            && call.is_allowed_by(kept.leaf)
        {
            return Answer::found(kept.address(call), 0);
        }
        if let Some(kept) = self.slot(call)
            && call.is_allowed_by(kept.leaf)
        {
            self.point(call, kept);
            return Answer::found(kept.address(call), 0);
        }

        let (answer, found) = fresh_walk(call, memory);
        if let Some(found) = found {
            self.fill(call, found);
            self.point(call, found);
        }
        answer
    }

    /// What the call's shortcut has, if it is of this page and satp.
    pub fn shortcut(&self, call: Call) -> Option<Found> {
        let at = shortcut_at(call.kind)?;
        let [page, frame, satp, leaf] = self.part(at);
        (page == call.page() && satp == call.satp).then_some(Found { frame, leaf })
    }

    /// What the page's slot has, if it is of this page and epoch.
    pub fn slot(&self, call: Call) -> Option<Found> {
        let at = slot_at(call)?;
        let [tag, frame, leaf, epoch] = self.part(at);
        (tag == call.page() && epoch as u32 == self.epoch()).then_some(Found { frame, leaf })
    }

    fn point(&mut self, call: Call, found: Found) {
        if let Some(at) = shortcut_at(call.kind) {
            self.put(at, [call.page(), found.frame, call.satp, found.leaf]);
        }
    }

    fn fill(&mut self, call: Call, found: Found) {
        let epoch = self.epoch().into();
        if let Some(at) = slot_at(call) {
            self.put(at, [call.page(), found.frame, found.leaf, epoch]);
        }
    }

    fn part<const N: usize>(&self, at: usize) -> [u64; N] {
        self.words[at..at + N].try_into().expect("as many words")
    }

    fn put<const N: usize>(&mut self, at: usize, part: [u64; N]) {
        self.words[at..at + N].copy_from_slice(&part);
    }
}

impl Default for State {
    fn default() -> Self {
        Self::new()
    }
}

/// What a paged call comes to by the tables as they stand now, and where it succeeds what is kept.
pub fn fresh_walk(call: Call, memory: &[u8]) -> (Answer, Option<Found>) {
    let Walk { reads, leaf } = walk(call.address, call.satp, memory);
    match leaf {
        Some(found) if call.is_allowed_by(found.leaf) => {
            (Answer::found(found.address(call), reads), leaf)
        }
        _ => (Answer::fault(call, reads), None),
    }
}

/// Where the shortcut of this kind stands. A fetch has none.
fn shortcut_at(kind: Kind) -> Option<usize> {
    match kind {
        Kind::Load => Some(LOAD_AT),
        Kind::Store => Some(STORE_AT),
        Kind::Fetch | Kind::Readable => None,
    }
}

/// Where the slot of the page stands. `translate_readable` uses none.
fn slot_at(call: Call) -> Option<usize> {
    let slot = (call.page() % SLOTS as u64) as usize;
    (call.kind != Kind::Readable).then_some(SLOTS_AT + SLOT_WORDS * slot)
}
