//! The promise about the cache: after any calls, with stores to memory between them, a translation
//! answers as the fresh walk does under its own privilege, SUM and MXR, provided that since the last
//! flush all paged calls used this satp and the entries that this walk reads have held their values.
//! For whom those calls were made is free. Made again at once for the same effective privilege, SUM and
//! MXR it reads no entry, whatever memory it is lent.
//!
//! And what customers ask of it: no user mode finds a page that is not its own, and without SUM no
//! supervisor one that is user mode's; and nobody finds a page by a mode, an address, entries or a leaf
//! that the manual refuses.

use std::collections::BTreeSet;

use oracle::rules::mmu::call::{A, D, SUM, U};
use oracle::rules::mmu::fresh_walk;

use super::call::{Answer, Call, Door, Kind, Library, Mode};
use super::callers::{self, Caller, Whose};
use super::guest::{self, Event, Guest};
use super::{Places, SHORT, Words, lengths, states};
use crate::common::{Random, Tally};

const ROUNDS: usize = 300;
const LONG: usize = 400;

pub fn check(tally: &mut Tally, random: &mut Random, reset: &Words) {
    let guest = |random: &mut Random, length| Guest::new(random, length, Whose::Anyone);
    let others: Vec<Guest> = lengths().map(|length| guest(random, length)).collect();
    for _ in 0..ROUNDS {
        for length in lengths() {
            let guest = guest(random, length);
            let mut history = History::new(&guest, random, reset);
            for _ in 0..LONG {
                history.go_on(tally, random, &others);
            }
        }
    }
}

struct History<'a> {
    guest: &'a Guest,
    memory: Vec<u8>,
    library: Door,
    /// A second state, for the calls that are no part of the history.
    beside: Door,
    /// The satp that most calls use until the next flush.
    satp: u64,
    /// Since the last flush: the satps of paged calls, and the places that were changed.
    satps: BTreeSet<u64>,
    changed: BTreeSet<usize>,
}

impl<'a> History<'a> {
    fn new(guest: &'a Guest, random: &mut Random, reset: &Words) -> Self {
        Self {
            guest,
            memory: guest.memory.clone(),
            library: Door::at(reset),
            beside: Door::at(reset),
            satp: guest.satp(random),
            satps: BTreeSet::new(),
            changed: BTreeSet::new(),
        }
    }

    fn go_on(&mut self, tally: &mut Tally, random: &mut Random, others: &[Guest]) {
        match self.guest.event(random, &self.memory) {
            Event::Flush => self.flush(random),
            Event::Refused(call, length) => {
                self.library.translate(call, &SHORT[..length]);
            }
            Event::Store(place, value) => {
                self.store(place, value);
                if random.below(2) == 0 {
                    self.flush(random);
                }
            }
            Event::Ask(mut call) => {
                if random.below(32) != 0 {
                    call.satp = self.satp;
                }
                let answer = self.library.translate(call, &self.memory);
                // What is unpaged, or no load, store or fetch, is promised nothing.
                if call.is_paged() && call.kind != Kind::Readable {
                    self.satps.insert(call.satp);
                    self.as_fresh(tally, call, answer);
                    self.again(tally, random, call, answer, others);
                }
            }
        }
    }

    fn flush(&mut self, random: &mut Random) {
        self.library.flush();
        self.satps.clear();
        self.changed.clear();
        self.satp = self.guest.satp(random);
    }

    fn store(&mut self, place: usize, value: u64) {
        let bytes = &mut self.memory[place..place + 8];
        if bytes != value.to_le_bytes() {
            bytes.copy_from_slice(&value.to_le_bytes());
            self.changed.insert(place);
        }
    }

    fn as_fresh(&mut self, tally: &mut Tally, call: Call, answer: Answer) {
        const NAME: &str = "history: fresh walk";

        let (fresh, _) = fresh_walk(call, &self.memory);
        let Some([fresh_value, fresh_reads]) = fresh.values else {
            return tally.differ(NAME, call, answer, "fresh walk", fresh);
        };
        let mut entries = guest::path(&self.memory, call.address, call.satp);
        entries.truncate(fresh_reads as usize);
        let held = entries.iter().all(|(at, _)| !self.changed.contains(at));
        if self.satps.len() != 1 || !held {
            return;
        }

        tally.calls(NAME, 1);
        let same = answer.values.is_some_and(|[value, reads]| {
            answer.number == fresh.number
                && value == fresh_value
                && (reads == 0 || reads == fresh_reads)
        });
        if !same {
            let input = self.input(call, &entries);
            tally.differ(NAME, input, answer, "fresh walk", fresh);
        }

        if answer.number == 0 {
            let mut see = |name, holds: bool, rule: &str| {
                tally.calls(name, 1);
                if !holds {
                    let input = self.input(call, &entries);
                    tally.differ(name, input, answer, "rule", rule);
                }
            };
            see(
                "history: whose page",
                is_theirs(call, &entries),
                "no page of it",
            );
            see("history: forms", has_form(call, &entries), "refused");
        }
    }

    fn input(&self, call: Call, entries: &Places) -> (Call, usize, Places, states::Seen) {
        let seen = states::seen(self.library.words(), call.page());
        (call, self.memory.len(), entries.clone(), seen)
    }

    /// Asked again: same kind, page, satp, effective privilege, SUM and MXR, any offset, any memory
    /// that is accepted.
    fn again(
        &mut self,
        tally: &mut Tally,
        random: &mut Random,
        call: Call,
        answer: Answer,
        others: &[Guest],
    ) {
        let (0, Some([found, _])) = (answer.number, answer.values) else {
            return;
        };
        let offset = random.below(0x1000);
        let memory = &others[random.below(others.len() as u64) as usize].memory;
        let Caller { privilege, mstatus } = callers::alike(random, call);
        let call = Call {
            address: (call.address & !0xFFF) | offset,
            privilege,
            mstatus,
            ..call
        };
        let expected = Answer {
            number: 0,
            values: Some([(found & !0xFFF) | offset, 0]),
        };

        self.beside.set(self.library.words());
        let again = self.beside.translate(call, memory);
        tally.calls("history: again at once", 1);
        if again != expected {
            let seen = states::seen(self.library.words(), call.page());
            let input = (call, memory.len(), seen);
            tally.differ("history: again at once", input, again, "rule", expected);
        }
    }
}

/// Whether the page is one of the call's mode.
fn is_theirs(call: Call, entries: &Places) -> bool {
    let users = entries.last().is_some_and(|(_, leaf)| leaf & U != 0);
    match call.mode() {
        Mode::U => users,
        Mode::S => !users || (call.kind != Kind::Fetch && call.mstatus & SUM != 0),
        Mode::M => false,
    }
}

/// Whether satp, the address and each entry are of a form that there is, and the leaf has A, and D for a
/// store. Bits 2 and 1 of an entry are W and R.
fn has_form(call: Call, entries: &Places) -> bool {
    let sign = call.address.cast_signed() >> 38;
    let has_sign = sign == 0 || sign == -1;
    let has_mode = call.satp >> 60 == 8;
    let is_plain = |(_, entry): &(usize, u64)| entry >> 54 == 0 && (entry >> 1) % 4 != 2;
    let needed = match call.kind {
        Kind::Store => A | D,
        _ => A,
    };
    let has_bits = entries
        .last()
        .is_some_and(|(_, leaf)| leaf & needed == needed);
    has_sign && has_mode && entries.iter().all(is_plain) && has_bits
}
