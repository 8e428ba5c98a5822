//! system_bus.rs: memories of each length, every width at the addresses around their ends and at
//! any; the whole memory compared after each call.

mod call;
mod inputs;

use std::hint::black_box;

use oracle::system_bus::FlatMemory as Original;

use crate::common::{Random, Tally};
use call::{Answer, Call, Way};

const WAYS: [Way; 2] = [call::door, call::wrapper];
const CALLS: usize = 20_000;
const LARGE_CALLS: usize = 1_000;

// What `out` holds before a call: nothing that a call would put there.
const UNTOUCHED: u64 = 0x0123_4567_89AB_CDEF;

pub fn compare(seed: u64) -> Tally {
    let mut tally = Tally::new("system_bus");
    let mut random = Random::new(seed);

    for length in inputs::accepted().chain(inputs::REFUSED) {
        for way in WAYS {
            let bytes = inputs::bytes(&mut random, length);
            let calls = inputs::edge_accesses(&mut random, length);
            run(&mut tally, way, &bytes, calls);
            let calls = inputs::edge_loads(&mut random, length);
            run(&mut tally, way, &bytes, calls);
            let calls = (0..CALLS).map(|_| inputs::any_call(&mut random, length));
            run(&mut tally, way, &bytes, calls);
        }
    }
    large(&mut tally, &mut random);

    tally
}

/// A call that differs, and the memory's length before it. A short memory is shown whole.
#[allow(dead_code)] // Printed.
#[derive(Debug)]
struct Input<'a> {
    call: &'a Call,
    length: usize,
    bytes: Option<&'a [u8]>,
}

/// What such a call gave back, and the bytes that it changed.
#[allow(dead_code)] // Printed.
#[derive(Debug)]
struct Outcome {
    answer: Answer,
    changed: Vec<(usize, u8)>,
}

fn run(tally: &mut Tally, way: Way, start: &[u8], calls: impl IntoIterator<Item = Call>) {
    let length = start.len();
    let mut memory = start.to_vec();
    let mut before = start.to_vec();
    // Where the length is refused, every call is, and the original stays unused.
    let mut original = Original::new(length.next_power_of_two());
    original.load_at(0, start);

    for call in calls {
        let (judge, expected) = match call.refused(length) {
            Some(number) => {
                let out = UNTOUCHED;
                ("rule", Answer { number, out })
            }
            None => ("original", call.original(&mut original, UNTOUCHED)),
        };
        let after = &original.oracle_bytes()[..length];

        tally.calls(call.name(), 1);
        let answer = way(&call, &mut memory, UNTOUCHED);
        if answer != expected || memory != after {
            let input = Input {
                call: &call,
                length,
                bytes: (length <= 64).then_some(&before),
            };
            let ours = Outcome {
                answer,
                changed: changed(&before, &memory),
            };
            let theirs = Outcome {
                answer: expected,
                changed: changed(&before, after),
            };
            tally.differ(call.name(), input, ours, judge, theirs);
            // From the same bytes on, so that one fault is not counted again and again.
            memory.copy_from_slice(after);
        }
        before.copy_from_slice(after);
    }
}

/// The bytes that are not as before, each with its place: the first few.
fn changed(before: &[u8], after: &[u8]) -> Vec<(usize, u8)> {
    let differs = |&i: &usize| before[i] != after[i];
    let places = (0..before.len()).filter(differs);
    places.take(16).map(|i| (i, after[i])).collect()
}

/// The longest memory that is accepted, and longer ones. They are never filled, so the machine gives
/// them no room; of their bytes those around the access and at both ends are compared.
fn large(tally: &mut Tally, random: &mut Random) {
    let Some(mut memory) = zeroed(1 << 31) else {
        println!("memories of 2^30 bytes and more passed over: the machine has no room for them");
        return;
    };
    let longest = 1 << 30;
    let mut original = Original::new(longest);

    let mut calls = inputs::edge_accesses(random, longest);
    for address in inputs::edge_addresses(longest) {
        let offset = address as usize;
        let bytes = inputs::bytes(random, 8);
        calls.push(Call::LoadAt { offset, bytes });
    }
    calls.extend((0..LARGE_CALLS).map(|_| any_access(random)));

    for length in [longest, longest + 1, longest + 8, 1 << 31] {
        for call in &calls {
            let (judge, expected) = match call.refused(length) {
                Some(number) => {
                    let out = UNTOUCHED;
                    ("rule", Answer { number, out })
                }
                None => ("original", call.original(&mut original, UNTOUCHED)),
            };
            tally.calls(call.name(), 1);
            let answer = call::door(call, &mut memory[..length], UNTOUCHED);
            let same = windows(call, longest).all(|i| memory[i] == original.oracle_bytes()[i]);
            if answer != expected || !same {
                let ours = (answer, same);
                tally.differ(call.name(), (call, length), ours, judge, (expected, true));
                for i in windows(call, longest) {
                    memory[i] = original.oracle_bytes()[i];
                }
            }
        }
    }
}

/// Room for this many bytes, all 0, if the machine has it. Until they are written they take none.
pub fn zeroed(length: usize) -> Option<Vec<u8>> {
    let mut room = Vec::<u8>::new();
    room.try_reserve_exact(length).ok()?;
    drop(black_box(room));
    Some(vec![0; length])
}

fn any_access(random: &mut Random) -> Call {
    let width = inputs::WIDTHS[random.below(4) as usize];
    let (address, value) = (random.word(), random.word());
    match random.below(2) {
        0 => Call::Read { width, address },
        _ => Call::Write {
            width,
            address,
            value,
        },
    }
}

fn windows(call: &Call, length: usize) -> impl Iterator<Item = usize> {
    let place = match call {
        Call::Read { address, .. } | Call::Write { address, .. } => *address as usize,
        Call::LoadAt { offset, .. } => *offset,
    };
    [0, place]
        .into_iter()
        .flat_map(move |turn| (-16..=16).map(move |step| turn.wrapping_add_signed(step) % length))
}
