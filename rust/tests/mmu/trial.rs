//! The library beside its two judges, all three with the same state. The second reading of the rules
//! judges each call; the original judges those that it still decides, and is then put into the state
//! that the others came to. After each call the whole state is compared.

use oracle::counted::Counted;
use oracle::mmu::Mmu as Original;
use oracle::rules::mmu::{State, original};
use oracle::system_bus::SystemBus;

use super::call::{Answer, Call, Kind, Library};
use super::cases::Cases;
use super::{Places, Words, apart, guest, states};
use crate::common::Tally;
use crate::layout::SLOTS_AT;

/// A call: what is asked, with a memory of which length, and all else that the call may look at. The
/// entries are filled in where it differs.
#[allow(dead_code)] // Printed.
#[derive(Debug)]
struct Input {
    call: Call,
    length: usize,
    entries: Places,
    epoch_shortcuts_slot: states::Seen,
}

/// What such a call gave back, and the words of the state in which the two then differ.
#[allow(dead_code)] // Printed.
#[derive(Debug)]
struct Outcome {
    answer: Answer,
    words: Places,
}

/// Every so often all of the original's slots are compared, and not only the one that the call may
/// have changed: the library's are, after each call, with the rule's.
const ALL_SLOTS: usize = 8;

pub struct Trial<L> {
    library: L,
    rule: State,
    original: Box<Original>,
    /// The original has a copy of its own.
    pub memory: Vec<u8>,
    bus: Counted,
    cases: Cases,
    /// How often the original's state was looked at.
    looks: usize,
}

impl<L: Library> Trial<L> {
    pub fn new(start: &Words, memory: Vec<u8>, bus: Counted) -> Self {
        Self {
            library: L::at(start),
            rule: State::at(start),
            original: Box::new(Original::oracle_from(start)),
            memory,
            bus,
            cases: Cases::new(),
            looks: 0,
        }
    }

    pub fn ask(&mut self, tally: &mut Tally, call: Call) {
        let before = self.seen(call.page());
        let decided = original::decides(&self.rule, call, &self.memory);
        self.cases.note(&self.rule, call, &self.memory);

        let answer = self.library.translate(call, &self.memory);
        let by_rule = self.rule.translate(call, &self.memory);
        let by_original = original::translate(&mut self.original, call, &mut self.bus);
        if !decided {
            let same =
                by_original == by_rule && self.original.oracle_is_at(&self.rule.words, call.page());
            self.cases.undecided(same);
            self.original.oracle_take(&self.rule.words, call.page());
        }

        let name = name(call.kind, decided);
        tally.calls(name, 1);
        let is_rules = answer == by_rule && self.is_rules();
        let is_originals = !decided || (answer == by_original && self.is_originals(call.page()));
        if is_rules && is_originals {
            return;
        }
        let input = || Input {
            call,
            length: self.memory.len(),
            entries: guest::path(&self.memory, call.address, call.satp),
            epoch_shortcuts_slot: before,
        };
        if !is_rules {
            let (ours, theirs) = self.beside(answer, &self.rule.words, by_rule);
            tally.differ(name, input(), ours, "rule", theirs);
        }
        if !is_originals {
            let (ours, theirs) = self.beside(answer, &self.originals_words(), by_original);
            tally.differ(name, input(), ours, "original", theirs);
        }
        self.again_alike();
    }

    /// With a memory that is refused. The original is not called.
    pub fn refused(&mut self, tally: &mut Tally, call: Call, memory: &[u8]) {
        let before = self.seen(call.page());
        let answer = self.library.translate(call, memory);
        let expected = self.rule.translate(call, memory);
        tally.calls("refused", 1);
        if answer != expected || expected != Answer::REFUSED || !self.is_rules() {
            let (ours, theirs) = self.beside(answer, &self.rule.words, expected);
            let input = (call, memory.len(), before);
            tally.differ("refused", input, ours, "rule", theirs);
            self.again_alike();
        }
    }

    pub fn flush(&mut self, tally: &mut Tally) {
        let before = self.seen(0);
        self.library.flush();
        self.rule.flush();
        self.original.flush();
        tally.calls("flush", 1);
        let (is_rules, is_originals) = (self.is_rules(), self.is_originals(0));
        let mut differ = |judge, words: &Words| {
            let (ours, theirs) = apart(self.library.words(), words);
            tally.differ("flush", &before[..SLOTS_AT], ours, judge, theirs);
        };
        if !is_rules {
            differ("rule", &self.rule.words);
        }
        if !is_originals {
            differ("original", &self.originals_words());
        }
        if !is_rules || !is_originals {
            self.again_alike();
        }
    }

    pub fn store(&mut self, place: usize, value: u64) {
        self.memory[place..place + 8].copy_from_slice(&value.to_le_bytes());
        self.bus.write_doubleword(place as u64, value);
    }

    /// All slots are the original's too, and no call writes to the memory: what is there was stored
    /// there. Gives the cases that came about.
    pub fn end(self, tally: &mut Tally) -> Cases {
        if !self.original.oracle_is(self.library.words()) {
            let (ours, theirs) = apart(self.library.words(), &self.originals_words());
            tally.differ("slots", "in the end", ours, "original", theirs);
        }
        if self.memory != self.bus.memory.oracle_bytes() {
            let length = self.memory.len();
            tally.differ("memory", length, "changed", "rule", "left alone");
        }
        self.cases
    }

    fn is_rules(&self) -> bool {
        *self.library.words() == *self.rule.words
    }

    /// After a call on this page. The original's other slots are looked at now and then.
    fn is_originals(&mut self, page: u64) -> bool {
        self.looks += 1;
        let words = self.library.words();
        match self.looks % ALL_SLOTS {
            0 => self.original.oracle_is(words),
            _ => self.original.oracle_is_at(words, page),
        }
    }

    fn originals_words(&self) -> Words {
        self.original.oracle_words(self.library.words())
    }

    fn seen(&self, page: u64) -> states::Seen {
        states::seen(&self.rule.words, page)
    }

    fn beside(&self, answer: Answer, theirs: &Words, expected: Answer) -> (Outcome, Outcome) {
        let (ours, theirs) = apart(self.library.words(), theirs);
        let outcome = |answer, words| Outcome { answer, words };
        (outcome(answer, ours), outcome(expected, theirs))
    }

    /// From the same state on, so that one fault is not counted again and again.
    fn again_alike(&mut self) {
        self.library = L::at(&self.rule.words);
        *self.original = Original::oracle_from(&self.rule.words);
    }
}

/// A call is counted once, by who judges it: the rule and the original, or the rule alone.
fn name(kind: Kind, decided: bool) -> &'static str {
    match (kind, decided) {
        (Kind::Fetch, true) => "translate_fetch",
        (Kind::Load, true) => "translate_load",
        (Kind::Store, true) => "translate_store",
        (Kind::Readable, true) => "translate_readable",
        (Kind::Fetch, false) => "translate_fetch, rule",
        (Kind::Load, false) => "translate_load, rule",
        (Kind::Store, false) => "translate_store, rule",
        (Kind::Readable, false) => "translate_readable, rule",
    }
}
