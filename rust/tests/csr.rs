//! csr.rs: every address, interrupts asked for bit by bit, and long sequences of calls; the whole
//! state compared after each call.

mod call;
mod constants;
mod fields;
mod inputs;
mod interrupts;
mod satp;
mod sstatus;

use std::fmt::Debug;

use leavnnjar::csr::{self as ours, Csr};
use oracle::csr::{self as original, Csr as Original};

use crate::common::{Random, Tally};
use crate::door;
use call::{Answer, Call, Door, Library};
use inputs::{Addresses, any_words};

type Words = [u64; Csr::WORDS];

const FULL_STARTS: usize = 3;
const STARTS: usize = 2_000;
const ROUNDS: usize = 4;
const CHOICES: usize = 1_000_000;
const RUNS: usize = 500;
const WRAPPER_RUNS: usize = 100;
const LONG: usize = 4_000;

pub fn compare(seed: u64) -> Tally {
    let mut tally = Tally::new("csr");
    let mut random = Random::new(seed);

    constants::compare(&mut tally);
    modes(&mut tally, &mut random);
    fields::compare(&mut tally, &mut random);
    sstatus::compare(&mut tally, &mut random);
    satp::compare(&mut tally, &mut random);
    let reset = new(&mut tally, &mut random);

    // From the reset state first: what differs there is the easiest to read.
    let mut trapped = reset;
    trapped[0] |= original::MSTATUS_TVM;
    let full = (0..FULL_STARTS).map(|_| any_words(&mut random));
    for start in [reset, trapped].into_iter().chain(full.collect::<Vec<_>>()) {
        every_address(&mut tally, &mut random, &start);
        every_mask(&mut tally, &start);
    }
    interrupt_choices(&mut tally, &mut random, &reset);

    for _ in 0..STARTS {
        let start = any_words(&mut random);
        every_register(&mut tally, &mut random, &start);
    }

    let addresses = Addresses::new();
    for _ in 0..RUNS {
        for start in [reset, any_words(&mut random)] {
            run::<Door>(&mut tally, &start, any_calls(&mut random, &addresses));
        }
    }
    for _ in 0..WRAPPER_RUNS {
        for start in [reset, any_words(&mut random)] {
            run::<Csr>(&mut tally, &start, any_calls(&mut random, &addresses));
        }
    }

    tally
}

/// The wrapper's own reading of a privilege number.
fn modes(tally: &mut Tally, random: &mut Random) {
    for bits in (0..256).chain((0..256).map(|_| random.word())) {
        tally.calls("from_bits", 1);
        let answer = ours::PrivMode::from_bits(bits) as u64;
        let expected = original::PrivMode::from_bits(bits) as u64;
        if answer != expected {
            tally.differ("from_bits", bits, answer, "original", expected);
        }
    }
}

/// The reset state, made over words that are not 0, and by the wrapper.
fn new(tally: &mut Tally, random: &mut Random) -> Words {
    let expected = Original::new().oracle_words();
    let mut see = |words: &Words, over: &dyn Debug| {
        tally.calls("new", 1);
        if *words != expected {
            let places = changed(&expected, words);
            let theirs: Vec<_> = places.iter().map(|&(i, _)| (i, expected[i])).collect();
            tally.differ("new", over, places, "original", theirs);
        }
    };

    for _ in 0..100 {
        let over = any_words(random);
        let mut words = over;
        door::rv_csr_new(&mut words);
        see(&words, &over);
    }
    see(Csr::new().words(), &"new");
    see(Csr::default().words(), &"default");
    expected
}

/// Reads and writes of each address in each privilege, each from these words.
fn every_address(tally: &mut Tally, random: &mut Random, start: &Words) {
    for address in inputs::addresses() {
        for privilege in inputs::privileges(random) {
            run::<Door>(tally, start, [Call::Read { address, privilege }]);
            for value in [0, u64::MAX, random.word()] {
                run::<Door>(tally, start, write_and_read(address, value, privilege));
            }
        }
    }
}

/// Writes of each bit alone and of all bits but one to each listed address, each from these words.
fn every_mask(tally: &mut Tally, start: &Words) {
    for address in inputs::listed() {
        for value in inputs::masks() {
            run::<Door>(tally, start, write_and_read(address, value, 3));
        }
    }
}

/// A read and a write of each listed address, each from these words.
fn every_register(tally: &mut Tally, random: &mut Random, start: &Words) {
    for address in inputs::listed() {
        let privilege = inputs::privilege(random);
        let value = inputs::value_for(random, address);
        run::<Door>(tally, start, [Call::Read { address, privilege }]);
        run::<Door>(tally, start, write_and_read(address, value, privilege));
    }
}

fn write_and_read(address: u32, value: u64, privilege: u64) -> [Call; 2] {
    let write = Call::Write {
        address,
        value,
        privilege,
    };
    [write, Call::Read { address, privilege }]
}

/// An interrupt choice in each privilege, with each pending set, each way to delegate it, and each
/// of MIE and SIE set and clear; then with any bits.
fn interrupt_choices(tally: &mut Tally, random: &mut Random, reset: &Words) {
    for round in 0..ROUNDS {
        let words = match round {
            0 => *reset,
            _ => any_words(random),
        };
        for set in interrupts::pending_sets(random) {
            for delegated in interrupts::delegations(random, set) {
                for enable in interrupts::ENABLES {
                    let start = interrupts::ask(random, &words, set, delegated, enable);
                    let any = inputs::privilege(random);
                    let calls = [0, 1, 2, 3, any].map(|privilege| Call::Pending { privilege });
                    run::<Door>(tally, &start, calls);
                }
            }
        }
    }

    let words = any_words(random);
    for _ in 0..CHOICES {
        let start = interrupts::ask_any(random, &words);
        let privilege = inputs::privilege(random);
        run::<Door>(tally, &start, [Call::Pending { privilege }]);
    }
}

fn any_calls(random: &mut Random, addresses: &Addresses) -> impl Iterator<Item = Call> {
    (0..LONG).map(|_| {
        let address = addresses.draw(random);
        let value = inputs::value_for(random, address);
        let privilege = inputs::privilege(random);
        match random.below(8) {
            0 => Call::Pending { privilege },
            1..=3 => Call::Read { address, privilege },
            _ => Call::Write {
                address,
                value,
                privilege,
            },
        }
    })
}

/// A call that differs, and the words before it that are not the reset state's.
#[allow(dead_code)] // Printed.
#[derive(Debug)]
struct Input {
    call: Call,
    not_as_reset: Vec<(usize, u64)>,
}

/// What such a call gave back, and the words that it changed.
#[allow(dead_code)] // Printed.
#[derive(Debug)]
struct Outcome {
    answer: Answer,
    changed: Vec<(usize, u64)>,
}

fn run<L: Library>(tally: &mut Tally, start: &Words, calls: impl IntoIterator<Item = Call>) {
    // What `out` holds before a call: nothing that a call would put there.
    const UNTOUCHED: u64 = 0x0123_4567_89AB_CDEF;

    let mut library = L::at(start);
    let mut original = Original::oracle_from(start);
    let mut before = *start;

    for call in calls {
        let expected = call.expected(&mut original, UNTOUCHED);
        let after = original.oracle_words();

        tally.calls(call.name(), 1);
        let answer = library.call(call, UNTOUCHED);
        if answer != expected || *library.words() != after {
            let input = Input {
                call,
                not_as_reset: changed(&Original::new().oracle_words(), &before),
            };
            let ours = Outcome {
                answer,
                changed: changed(&before, library.words()),
            };
            let theirs = Outcome {
                answer: expected,
                changed: changed(&before, &after),
            };
            tally.differ(call.name(), input, ours, call.judge(), theirs);
            // From the same state on, so that one fault is not counted again and again.
            library = L::at(&after);
        }
        before = after;
    }
}

/// The words that are not as before, each with its place.
fn changed(before: &Words, after: &Words) -> Vec<(usize, u64)> {
    let differs = |&i: &usize| before[i] != after[i];
    let places = (0..Csr::WORDS).filter(differs);
    places.map(|i| (i, after[i])).collect()
}
