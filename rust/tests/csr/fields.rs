//! The wrapper's words by name are the original's fields of the same names.

use leavnnjar::csr::Csr;
use oracle::csr::Csr as Original;

use super::inputs::{any_words, value};
use super::{Words, changed};
use crate::common::{Random, Tally};

const ROUNDS: usize = 2_000;

type Get<C> = fn(&C) -> u64;
type Set<C> = fn(&mut C, u64);

/// A word by name: how the wrapper reads and sets it, and how the original does.
struct Field {
    name: &'static str,
    get: (Get<Csr>, Get<Original>),
    set: (Set<Csr>, Set<Original>),
}

macro_rules! fields {
    ($($name:ident $set:ident)*) => {
        [$(Field {
            name: stringify!($name),
            get: (Csr::$name, |csr| csr.$name),
            set: (Csr::$set, |csr, value| csr.$name = value),
        }),*]
    };
}

/// Every field but the three that are lists: as many as there are words beside theirs.
const FIELDS: [Field; Csr::WORDS - 16 - 64 - 29] = fields! {
    mstatus set_mstatus
    misa set_misa
    medeleg set_medeleg
    mideleg set_mideleg
    mie set_mie
    mtvec set_mtvec
    mcounteren set_mcounteren
    mcountinhibit set_mcountinhibit
    mscratch set_mscratch
    mepc set_mepc
    mcause set_mcause
    mtval set_mtval
    mip set_mip
    menvcfg set_menvcfg
    stvec set_stvec
    scounteren set_scounteren
    senvcfg set_senvcfg
    sscratch set_sscratch
    sepc set_sepc
    scause set_scause
    stval set_stval
    satp set_satp
    hart_id set_hart_id
    cycle set_cycle
    instret set_instret
    time set_time
    fcsr set_fcsr
};

const RAISE: (Set<Csr>, Set<Original>) = (Csr::raise_interrupt, |csr, bits| csr.mip |= bits);
const CLEAR: (Set<Csr>, Set<Original>) = (Csr::clear_interrupt, |csr, bits| csr.mip &= !bits);

/// Each field read and set, and mip's bits raised and cleared, from any words.
pub fn compare(tally: &mut Tally, random: &mut Random) {
    for _ in 0..ROUNDS {
        let start = any_words(random);
        let value = value(random);
        for field in &FIELDS {
            read(tally, field, &start);
            change(tally, "set_field", field.name, field.set, &start, value);
        }
        change(tally, "raise_interrupt", "mip", RAISE, &start, value);
        change(tally, "clear_interrupt", "mip", CLEAR, &start, value);
    }
}

fn read(tally: &mut Tally, field: &Field, start: &Words) {
    tally.calls("field", 1);
    let (ours, theirs) = field.get;
    let answer = ours(&Csr::from_words(*start));
    let expected = theirs(&Original::oracle_from(start));
    if answer != expected {
        tally.differ("field", field.name, answer, "original", expected);
    }
}

fn change(
    tally: &mut Tally,
    name: &'static str,
    field: &str,
    (ours, theirs): (Set<Csr>, Set<Original>),
    start: &Words,
    value: u64,
) {
    let mut csr = Csr::from_words(*start);
    let mut original = Original::oracle_from(start);
    ours(&mut csr, value);
    theirs(&mut original, value);

    tally.calls(name, 1);
    let expected = original.oracle_words();
    if *csr.words() != expected {
        let (ours, theirs) = (changed(start, csr.words()), changed(start, &expected));
        tally.differ(name, (field, value), ours, "original", theirs);
    }
}
