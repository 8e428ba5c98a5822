//! What comes about in the calls that are compared: by whom the page is asked for, where it is found,
//! and why it is not. Each case is counted, so that one that no longer comes about is seen.

use oracle::rules::mmu::call::{MPP_FROM, MPRV, MXR, R, SUM, U, W, X};
use oracle::rules::mmu::walk::{Walk, walk};
use oracle::rules::mmu::{Call, Found, Kind, Mode, State};

use super::guest;
use crate::common::Tally;
use crate::layout::SLOTS;

/// Each of these must come about so often.
const LEAST: u64 = 100;

macro_rules! cases {
    ($($case:ident $what:literal)*) => {
        #[derive(Default)]
        struct Counts {
            $($case: u64,)*
        }

        impl Counts {
            fn add(&mut self, more: &Self) {
                $(self.$case += more.$case;)*
            }

            fn rows(&self) -> Vec<(String, u64)> {
                vec![$(($what.to_string(), self.$case)),*]
            }
        }
    };
}

// After the macro, which it uses, too.
mod refusals;

use refusals::Refusals;

// Of accesses by a satp that pages.
cases! {
    machine "effective M"
    by_mpp "by MPP, which is another mode than the hart's"
    by_mpp_2 "by MPP, which is 2"
    fetch_beside_mpp "a fetch with MPRV set, and MPP another mode"
    privilege_2 "privilege 2"
    by_shortcut "found by the shortcut"
    by_slot "found by the slot"
    by_walk "found by the walk"
    no_leaf "faults: the walk comes to no leaf"
    leaf_denies "faults: the walk's leaf denies"
    shortcut_denies "the shortcut matches and denies"
    shortcut_denies_slot_serves "the shortcut matches and denies, the slot serves"
    slot_denies "the slot is live and denies"
    slot_denies_walk_finds "the slot is live and denies, the walk finds"
    shortcut_by_other "found by the shortcut, set under another privilege, SUM or MXR"
    slot_by_other "found by the slot, filled under another privilege, SUM or MXR"
    shortcut_of_other_mode "found by the shortcut, set under another privilege"
    slot_of_other_mode "found by the slot, filled under another privilege"
    user_page_by_sum "found in S with SUM: a page with U"
    user_page_without_sum "denied in S without SUM: a page with U"
    user_page_fetched "denied in S with SUM: a fetch from a page with U"
    supervisor_page "denied in U: a page without U"
    read_by_mxr "found with MXR: a load from a page with X alone"
    read_without_mxr "denied without MXR: a load from a page with X alone"
    written_with_mxr "denied with MXR: a store to a page with X and without W"
}

/// What was in force when a slot or a shortcut was set.
#[derive(Clone, Copy, PartialEq)]
struct Under {
    mode: Mode,
    bits: u64,
}

pub struct Cases {
    counts: Counts,
    refusals: Refusals,
    /// The calls that the original is said not to decide, and those of them in which it does the same.
    undecided: u64,
    same: u64,
    /// By which kind of call each was set, by slot, then for the two shortcuts. It is not known of those
    /// that a state began with.
    under: [Option<(Kind, Under)>; SLOTS + 2],
}

impl Cases {
    pub fn new() -> Self {
        Self {
            counts: Counts::default(),
            refusals: Refusals::default(),
            undecided: 0,
            same: 0,
            under: [None; SLOTS + 2],
        }
    }

    pub fn add(&mut self, more: &Self) {
        self.counts.add(&more.counts);
        self.refusals.add(&more.refusals);
        self.undecided += more.undecided;
        self.same += more.same;
    }

    /// Prints each case, and finds fault with one that is too rare.
    pub fn report(&self, tally: &mut Tally) {
        println!("translations by a satp that pages, by what came about:");
        for (what, count) in self.counts.rows().into_iter().chain(self.refusals.rows()) {
            println!("{count:>12} {what}");
            if count < LEAST {
                tally.differ("cases", what, count, "least", LEAST);
            }
        }

        // It seldom does the same by chance. Otherwise it would decide more than it is said to.
        let (undecided, same) = (self.undecided, self.same);
        println!(
            "{undecided:>12} no longer decided by the original, which does the same in {same}"
        );
        if same > undecided / 1_000 {
            tally.differ("cases", "not decided, and the same", same, "of", undecided);
        }
    }

    /// A call that is about to be made in this state.
    pub fn note(&mut self, state: &State, call: Call, memory: &[u8]) {
        if call.satp >> 60 == 0 {
            return;
        }
        self.caller(call);
        if call.mode() != Mode::M {
            self.way(state, call, memory);
        }
    }

    /// A call that the original does not decide, and whether it did the same.
    pub fn undecided(&mut self, same: bool) {
        self.undecided += 1;
        self.same += u64::from(same);
    }

    fn caller(&mut self, call: Call) {
        let counts = &mut self.counts;
        let mprv = call.mstatus & MPRV != 0;
        let mpp = (call.mstatus >> MPP_FROM) % 4;
        let apart = Mode::of(mpp) != Mode::of(call.privilege);
        let fetch = call.kind == Kind::Fetch;
        counts.machine += u64::from(call.mode() == Mode::M);
        counts.by_mpp += u64::from(mprv && !fetch && apart);
        counts.by_mpp_2 += u64::from(mprv && !fetch && mpp == 2);
        counts.fetch_beside_mpp += u64::from(mprv && fetch && apart);
        counts.privilege_2 += u64::from(!(mprv && !fetch) && call.privilege % 4 == 2);
    }

    fn way(&mut self, state: &State, call: Call, memory: &[u8]) {
        let now = Under {
            mode: call.mode(),
            bits: call.mstatus & (SUM | MXR),
        };
        let slot = (call.page() % SLOTS as u64) as usize;
        let shortcut = SLOTS + usize::from(call.kind == Kind::Store);
        let pointed = matches!(call.kind, Kind::Load | Kind::Store);

        let matched = state.shortcut(call);
        let live = state.slot(call);
        if !call.is_by_sv39() {
            return self.refusals.mode(call, matched, live);
        }

        if let Some(kept) = matched {
            if call.is_allowed_by(kept.leaf) {
                self.counts.by_shortcut += 1;
                self.refusals.by_shortcut(call, kept);
                if let Some((_, under)) = self.under[shortcut] {
                    self.counts.shortcut_by_other += u64::from(under != now);
                    self.counts.shortcut_of_other_mode += u64::from(under.mode != now.mode);
                }
                return self.found(call, kept);
            }
            self.counts.shortcut_denies += 1;
            self.refusals.shortcut_denies(call, kept);
        }

        if let Some(kept) = live {
            if call.is_allowed_by(kept.leaf) {
                self.counts.by_slot += 1;
                self.refusals.by_slot(call, kept);
                self.counts.shortcut_denies_slot_serves += u64::from(matched.is_some());
                if let Some((_, under)) = self.under[slot] {
                    self.counts.slot_by_other += u64::from(under != now);
                    self.counts.slot_of_other_mode += u64::from(under.mode != now.mode);
                }
                if pointed {
                    self.under[shortcut] = Some((call.kind, now));
                }
                return self.found(call, kept);
            }
            self.counts.slot_denies += 1;
        }

        let walked = walk(call.address, call.satp, memory);
        let finds = walked.leaf.filter(|found| call.is_allowed_by(found.leaf));
        if let Some(kept) = live {
            let by = self.under[slot].map(|(kind, _)| kind);
            self.counts.slot_denies_walk_finds += u64::from(finds.is_some());
            self.refusals.slot_denies(call, kept, by, finds.is_some());
        }
        match finds {
            Some(found) => {
                self.counts.by_walk += 1;
                self.refusals.by_walk(call);
                if call.kind != Kind::Readable {
                    self.under[slot] = Some((call.kind, now));
                }
                if pointed {
                    self.under[shortcut] = Some((call.kind, now));
                }
                self.found(call, found);
            }
            None => self.faults(call, &walked, memory),
        }
    }

    fn faults(&mut self, call: Call, walked: &Walk, memory: &[u8]) {
        match walked.leaf {
            Some(found) => {
                self.counts.leaf_denies += 1;
                self.refusals.leaf_denies(call, found);
                self.denied(call, found);
            }
            None => {
                self.counts.no_leaf += 1;
                let entries = guest::path(memory, call.address, call.satp);
                let read = &entries[..walked.reads as usize];
                self.refusals
                    .no_leaf(call, read.last().map(|&(_, entry)| entry), walked.reads);
            }
        }
    }

    fn found(&mut self, call: Call, found: Found) {
        let is_load = matches!(call.kind, Kind::Load | Kind::Readable);
        let user = found.leaf & U != 0;
        self.counts.user_page_by_sum += u64::from(user && call.mode() == Mode::S);
        self.counts.read_by_mxr += u64::from(is_load && found.leaf & R == 0);
    }

    /// Denied by the walk's leaf, and for one reason alone.
    fn denied(&mut self, call: Call, found: Found) {
        let counts = &mut self.counts;
        let has = |bit: u64| found.leaf & bit != 0;
        let is_set = |bit: u64| call.mstatus & bit != 0;
        let with = |bit: u64| {
            let mstatus = call.mstatus | bit;
            Call { mstatus, ..call }.is_allowed_by(found.leaf)
        };
        match call.mode() {
            Mode::S => {
                counts.user_page_without_sum += u64::from(with(SUM));
                let own = call.is_allowed_by(found.leaf & !U);
                let fetched = call.kind == Kind::Fetch && is_set(SUM) && own;
                counts.user_page_fetched += u64::from(fetched);
            }
            Mode::U => counts.supervisor_page += u64::from(call.is_allowed_by(found.leaf | U)),
            Mode::M => (),
        }
        counts.read_without_mxr += u64::from(with(MXR));
        let lacks_w = call.kind == Kind::Store && call.is_allowed_by(found.leaf | W);
        let written = lacks_w && is_set(MXR) && has(X);
        counts.written_with_mxr += u64::from(written);
    }
}
