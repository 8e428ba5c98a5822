//! mmu.rs: random guests, whose tables are stored to between the calls; the whole state compared
//! after each call. Then the promise about the cache, and words that no call writes.

mod call;
mod callers;
mod cases;
mod guest;
mod history;
mod loose;
mod states;
mod trial;

use leavnnjar::mmu::{self as ours, Mmu};
use oracle::counted::Counted;
use oracle::mmu::{self as original, Mmu as Original};
use oracle::rules::mmu::State;

use crate::common::{Random, Tally};
use crate::door;
use crate::layout::EPOCH_AT;
use crate::system_bus::zeroed;
use call::{Call, Door, Kind, Library};
use callers::{Caller, Whose};
use cases::Cases;
use guest::{Event, Guest};
use trial::Trial;

type Words = [u64; Mmu::WORDS];

/// Entries of a memory or words of a state, each with its place.
type Places = Vec<(usize, u64)>;

const ROUNDS: usize = 1_400;
const LONG: usize = 400;
/// What a state began with is soon replaced: where it is made up, runs are shorter, and so many more.
const MADE_UP: usize = 8;
const LARGE_CALLS: usize = 2_000;

// Lent where the length is to be refused.
const SHORT: [u8; 4096] = [0xCF; 4096];

pub fn compare(seed: u64) -> Tally {
    let mut tally = Tally::new("mmu");
    let mut random = Random::new(seed);
    let mut cases = Cases::new();

    faults(&mut tally);
    let reset = new(&mut tally, &mut random);
    for round in 0..ROUNDS {
        for length in lengths() {
            let guest = Guest::new(&mut random, length, whose(round));
            for (start, long) in starts(&mut random, &guest, &reset, round) {
                cases.add(&match round % 16 {
                    12.. => run::<Mmu>(&mut tally, &mut random, &guest, &start, long),
                    _ => run::<Door>(&mut tally, &mut random, &guest, &start, long),
                });
            }
        }
    }
    cases.report(&mut tally);
    large(&mut tally, &mut random, &reset);
    history::check(&mut tally, &mut random, &reset);
    loose::check(&mut tally, &mut random);

    tally
}

/// The lengths of a guest's memory: from one entry to 16 tables.
fn lengths() -> impl Iterator<Item = usize> {
    (3..=16).map(|power| 1 << power)
}

/// Whose guests come in this round.
fn whose(round: usize) -> Whose {
    match round % 5 {
        0 | 1 => Whose::Supervisor,
        2 => Whose::User,
        _ => Whose::Anyone,
    }
}

/// The states that a round's runs begin with, and how long each run is.
fn starts(random: &mut Random, guest: &Guest, reset: &Words, round: usize) -> Vec<(Words, usize)> {
    let mut edge = *reset;
    edge[EPOCH_AT] = states::edge_epoch(random);
    let made_up = || (states::fitting(random, guest), LONG / MADE_UP);
    match round % 4 {
        0 | 1 => vec![(*reset, LONG)],
        2 => vec![(edge, LONG)],
        _ => std::iter::repeat_with(made_up).take(MADE_UP).collect(),
    }
}

/// The wrapper's own account of a fault: each kind's code and value.
fn faults(tally: &mut Tally) {
    use ours::MmuFault::{InstructionPageFault, LoadPageFault, StorePageFault};

    let kinds = [InstructionPageFault, LoadPageFault, StorePageFault];
    for address in [0, 0x123, 0x8000_0000_0000_0000, u64::MAX] {
        for fault in kinds.map(|kind| kind(address)) {
            let same = match fault {
                InstructionPageFault(a) => original::MmuFault::InstructionPageFault(a),
                LoadPageFault(a) => original::MmuFault::LoadPageFault(a),
                StorePageFault(a) => original::MmuFault::StorePageFault(a),
            };
            tally.calls("fault", 1);
            let answer = (fault.mcause(), fault.tval());
            let expected = (same.mcause(), same.tval());
            if answer != expected {
                tally.differ("fault", fault, answer, "original", expected);
            }
        }
    }
}

/// The state at the start, made over words that are not 0, and by the wrapper.
fn new(tally: &mut Tally, random: &mut Random) -> Words {
    // The original keeps no leaf entry in a shortcut: by the rule a new one's is 0.
    let expected = *State::new().words;
    let mut see = |words: &Words, over: &str| {
        tally.calls("new", 1);
        if *words != expected {
            let (ours, theirs) = apart(words, &expected);
            tally.differ("new", over, ours, "rule", theirs);
        }
        if !Original::new().oracle_is(words) {
            let (ours, theirs) = apart(words, &Original::new().oracle_words(words));
            tally.differ("new", over, ours, "original", theirs);
        }
    };

    for _ in 0..100 {
        let mut words: Words = std::array::from_fn(|_| random.word());
        door::rv_mmu_new(&mut words);
        see(&words, "any words");
    }
    see(Mmu::new().words(), "Mmu::new");
    see(Mmu::default().words(), "Mmu::default");

    let mut mmu = Mmu::from_words([0; Mmu::WORDS]);
    *mmu.words_mut() = expected;
    see(mmu.words(), "Mmu::words_mut");
    expected
}

/// The words in which two states differ, each with its place: the first few.
fn apart(ours: &Words, theirs: &Words) -> (Places, Places) {
    let differs = |&i: &usize| ours[i] != theirs[i];
    let places: Vec<usize> = (0..Mmu::WORDS).filter(differs).take(16).collect();
    let of = |words: &Words| places.iter().map(|&i| (i, words[i])).collect();
    (of(ours), of(theirs))
}

fn run<L: Library>(
    tally: &mut Tally,
    random: &mut Random,
    guest: &Guest,
    start: &Words,
    long: usize,
) -> Cases {
    let memory = guest.memory.clone();
    let bus = Counted::new(&memory);
    let mut trial: Trial<L> = Trial::new(start, memory, bus);

    for _ in 0..long {
        match guest.event(random, &trial.memory) {
            Event::Ask(call) => trial.ask(tally, call),
            Event::Refused(call, length) => trial.refused(tally, call, &SHORT[..length]),
            Event::Flush => trial.flush(tally),
            Event::Store(place, value) => trial.store(place, value),
        }
    }
    trial.end(tally)
}

/// The longest memory that is accepted, its tables at both ends and in the middle, and longer ones.
fn large(tally: &mut Tally, random: &mut Random, reset: &Words) {
    let longest = 1 << 30;
    let (Some(longer), Some(memory)) = (zeroed(1 << 31), zeroed(longest)) else {
        println!("memories of 2^30 bytes and more passed over: the machine has no room for them");
        return;
    };
    let mut trial: Trial<Door> = Trial::new(reset, memory, Counted::zeroed(longest));
    trial.store(longest - 8, (0x20000 << 10) | 1);
    trial.store(longest / 2, 1);
    trial.store(8, (0x3_0000_0005 << 10) | 0xCF);
    trial.store(longest - 16, (0x7_FFFC_0000 << 10) | 0xCF);

    for _ in 0..LARGE_CALLS {
        // Of the root's page number the last 18 bits count: it is the last page of the memory.
        let root = (random.word() & ((1 << 44) - 1)) | 0x3FFFF;
        let kind = [Kind::Fetch, Kind::Load, Kind::Store, Kind::Readable][random.below(4) as usize];
        let Caller { privilege, mstatus } = Whose::Supervisor.caller(random, kind);
        let call = Call {
            kind,
            // In the upper half, by the root's last entry and the one before it.
            address: match random.below(2) {
                0 => (u64::MAX << 30) | random.below(0x3000),
                _ => (u64::MAX << 31) | random.below(1 << 30),
            },
            satp: (8 << 60) | root,
            privilege,
            mstatus,
        };
        trial.ask(tally, call);
        let beyond = [longest + 1, longest + 8, 1 << 31][random.below(3) as usize];
        trial.refused(tally, call, &longer[..beyond]);
    }
}
