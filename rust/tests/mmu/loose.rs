//! Any words as a state. What those mean that no call writes, an epoch of 2^32 or more above all, is
//! the library's own to define, and the original cannot hold them: so they are held to the second
//! reading alone.

use oracle::rules::mmu::State;

use super::call::{Door, Library};
use super::callers::Whose;
use super::guest::{self, Event, Guest};
use super::{SHORT, Words, apart, lengths, states};
use crate::common::{Random, Tally};

const ROUNDS: usize = 200;
const LONG: usize = 100;

pub fn check(tally: &mut Tally, random: &mut Random) {
    for _ in 0..ROUNDS {
        for length in lengths() {
            let guest = Guest::new(random, length, Whose::Anyone);
            let start = states::any(random, &guest);
            run(tally, random, &guest, &start);
        }
    }
}

fn run(tally: &mut Tally, random: &mut Random, guest: &Guest, start: &Words) {
    let mut memory = guest.memory.clone();
    let mut library = Door::at(start);
    let mut rule = State::at(start);

    for _ in 0..LONG {
        let before = *rule.words;
        let (name, asked) = match guest.event(random, &memory) {
            Event::Store(place, value) => {
                memory[place..place + 8].copy_from_slice(&value.to_le_bytes());
                continue;
            }
            Event::Flush => ("any words: flush", None),
            Event::Refused(call, length) => ("any words: refused", Some((call, &SHORT[..length]))),
            Event::Ask(call) => ("any words: translate", Some((call, &memory[..]))),
        };
        let ours = asked.map(|(call, lent)| library.translate(call, lent));
        let theirs = asked.map(|(call, lent)| rule.translate(call, lent));
        if asked.is_none() {
            library.flush();
            rule.flush();
        }

        tally.calls(name, 1);
        if ours != theirs || *library.words() != *rule.words {
            let page = asked.map_or(0, |(call, _)| call.page());
            let input = asked.map(|(call, lent)| {
                let entries = guest::path(&memory, call.address, call.satp);
                (call, lent.len(), entries)
            });
            let (words, rules) = apart(library.words(), &rule.words);
            let seen = states::seen(&before, page);
            tally.differ(name, (input, seen), (ours, words), "rule", (theirs, rules));
            library.set(&rule.words);
        }
    }
}
