//! Holds what fetches, loads and stores came to on the outside processor, by page table entries of
//! every kind and from every state of its hart, to what the library translates.

mod guest;
mod satp;
mod sites;

use std::collections::BTreeMap;
use std::process::ExitCode;

use leavnnjar::csr::{MSTATUS_MPRV, MSTATUS_MXR, MSTATUS_SUM, PrivMode};
use leavnnjar::mmu::{Mmu, Translation, TranslationError};

use crate::check;
use crate::common::{self, Tally, product};
use guest::{Memory, Outcome, Round};
use sites::{Form, POINTER_UAD, Site};

type Translate =
    fn(&mut Mmu, u64, u64, PrivMode, u64, &[u8]) -> Result<Translation, TranslationError>;

/// A way to reach for an address: its name, and the call.
type Probe = (&'static str, Translate);

// In the order of pages.c.
const PROBES: [Probe; 3] = [
    ("fetch", Mmu::translate_fetch),
    ("load", Mmu::translate_load),
    ("store", Mmu::translate_store),
];

const MODES: [PrivMode; 3] = [PrivMode::U, PrivMode::S, PrivMode::M];

/// A state of the hart: its mode and its mstatus.
type State = (PrivMode, u64);

/// The states in the order of pages.c. That MPRV is set below M-mode does not occur: what enters a
/// lower mode clears it, and only M-mode can set it.
fn states() -> Vec<State> {
    let bits = |bit: u64| [0, bit];
    let mut states = Vec::new();
    for mode in MODES {
        for mprv in bits(MSTATUS_MPRV) {
            for mpp in MODES {
                for sum in bits(MSTATUS_SUM) {
                    for mxr in bits(MSTATUS_MXR) {
                        if mprv == 0 || mode == PrivMode::M {
                            states.push((mode, mprv | ((mpp as u64) << 11) | sum | mxr));
                        }
                    }
                }
            }
        }
    }
    states
}

/// A case is a state and a probe from it.
type Case = (State, Probe);

/// One case at one entry, and what the library is held to.
struct Trial<'a> {
    site: &'a Site,
    form: Form,
    case: Case,
    theirs: Outcome,
}

impl Trial<'_> {
    /// What the library makes of it at this address.
    fn ours(&self, address: u64, mmu: &mut Mmu, memory: &Memory) -> Outcome {
        let ((mode, mstatus), (_, translate)) = self.case;
        match translate(mmu, address, self.site.satp, mode, mstatus, memory.bytes()) {
            Ok(translation) => Ok(translation.address),
            Err(TranslationError::Fault { fault, .. }) => Err((fault.mcause(), fault.tval())),
            Err(TranslationError::Refused(refusal)) => panic!("{refusal}"),
        }
    }

    fn check(&self, tally: &mut Tally, before: Option<&Self>, mmu: &mut Mmu, memory: &Memory) {
        let (state, (name, _)) = self.case;
        let before = before.map(|trial| (trial.case.0, trial.case.1.0));
        let inputs = (self.site, self.form, state, "after", before);
        let ours = self.ours(self.form.address, mmu, memory);
        check(tally, name, inputs, ours, self.theirs);
    }
}

/// The library is asked in three ways: on a new state; in the guest's order on one state, which is
/// flushed where the guest fenced; and on a state that was flushed and then asked another case, each
/// after each, since what is kept must not be served where it is not allowed. That other one is asked at
/// the site's own address, also where the trial is at one that is refused.
pub fn compare(memory: Vec<u8>) -> ExitCode {
    let mut memory = Memory::new(memory);
    let cases = product(&states(), &PROBES);
    let rounds = guest::rounds(&memory, &cases);

    let mut fresh = Tally::new("new state");
    let mut in_order = Tally::new("in order");
    let mut in_pairs = Tally::new("after another");
    let mut mmu = Mmu::new();

    for round in &rounds {
        let &Round {
            site, form, fenced, ..
        } = round;
        let trial = |(&case, &theirs)| Trial {
            site,
            form,
            case,
            theirs,
        };
        let cases = cases.iter().zip(round.counted(&rounds));
        let trials: Vec<Trial> = cases.map(trial).collect();

        memory.write(site.place(), form.entry);
        mmu.flush();
        for trial in &trials {
            trial.check(&mut fresh, None, &mut Mmu::new(), &memory);
            if fenced {
                mmu.flush();
            }
            trial.check(&mut in_order, None, &mut mmu, &memory);
        }

        for before in trials.iter().filter(|_| fenced) {
            for trial in &trials {
                mmu.flush();
                // Whatever it answers is compared above.
                let _ = before.ours(site.address, &mut mmu, &memory);
                trial.check(&mut in_pairs, Some(before), &mut mmu, &memory);
            }
        }
    }

    print_account(&rounds);
    common::summary(&[fresh, in_order, in_pairs, satp::compare(&memory)])
}

/// Prints what came of the trials of each kind on the outside processor, and in how many of them the
/// library is held to something else.
fn print_account(rounds: &[Round]) {
    let column = |address, outcome| match outcome {
        Ok(reached) if reached == address => 0,
        Ok(_) => 1,
        Err((12, _)) => 2,
        Err((13, _)) => 3,
        Err((15, _)) => 4,
        Err(_) => 5,
    };
    let mut account = BTreeMap::<&str, [usize; 6]>::new();
    let mut departs = 0;
    for round in rounds {
        let counts = account.entry(round.form.kind).or_default();
        for (&outcome, counted) in round.outcomes.iter().zip(round.counted(rounds)) {
            counts[column(round.form.address, outcome)] += 1;
            departs += (outcome != *counted) as usize;
        }
    }

    let row = |name: &str, cells: [String; 6]| {
        let cells = cells.map(|cell| format!("{cell:>9}"));
        println!("{name:24}{}", cells.concat());
    };
    let heads = [
        "unpaged", "reached", "fault 12", "fault 13", "fault 15", "other",
    ];
    row("trials", heads.map(String::from));
    for (kind, counts) in &account {
        row(kind, counts.map(|count| count.to_string()));
    }
    let made: usize = account.values().flatten().sum();
    println!("{made} trials; in {departs} a {POINTER_UAD} is refused that request 07 lets pass");
}
