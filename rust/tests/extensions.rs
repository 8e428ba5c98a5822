//! extensions.rs: every M and A function on each pair of boundary values, and on random pairs.

use std::fmt::Debug;

use leavnnjar::extensions as ours;
use oracle::extensions as original;

use crate::common::{Random, Tally, operand_pairs};
use crate::door;

/// A function's name, then the library's and the original's.
type Row<A, R> = (&'static str, fn(A, u64) -> R, fn(A, u64) -> R);

const M: [Row<u64, u64>; 13] = [
    ("mul", ours::mul, original::mul),
    ("mulh", ours::mulh, original::mulh),
    ("mulhu", ours::mulhu, original::mulhu),
    ("mulhsu", ours::mulhsu, original::mulhsu),
    ("div", ours::div, original::div),
    ("divu", ours::divu, original::divu),
    ("rem", ours::rem, original::rem),
    ("remu", ours::remu, original::remu),
    ("mulw", ours::mulw, original::mulw),
    ("divw", ours::divw, original::divw),
    ("divuw", ours::divuw, original::divuw),
    ("remw", ours::remw, original::remw),
    ("remuw", ours::remuw, original::remuw),
];

const A_W: [Row<u32, (u64, u32)>; 9] = [
    ("amoswap_w", ours::amoswap_w, original::amoswap_w),
    ("amoadd_w", ours::amoadd_w, original::amoadd_w),
    ("amoxor_w", ours::amoxor_w, original::amoxor_w),
    ("amoand_w", ours::amoand_w, original::amoand_w),
    ("amoor_w", ours::amoor_w, original::amoor_w),
    ("amomin_w", ours::amomin_w, original::amomin_w),
    ("amomax_w", ours::amomax_w, original::amomax_w),
    ("amominu_w", ours::amominu_w, original::amominu_w),
    ("amomaxu_w", ours::amomaxu_w, original::amomaxu_w),
];

const A_D: [Row<u64, (u64, u64)>; 9] = [
    ("amoswap_d", ours::amoswap_d, original::amoswap_d),
    ("amoadd_d", ours::amoadd_d, original::amoadd_d),
    ("amoxor_d", ours::amoxor_d, original::amoxor_d),
    ("amoand_d", ours::amoand_d, original::amoand_d),
    ("amoor_d", ours::amoor_d, original::amoor_d),
    ("amomin_d", ours::amomin_d, original::amomin_d),
    ("amomax_d", ours::amomax_d, original::amomax_d),
    ("amominu_d", ours::amominu_d, original::amominu_d),
    ("amomaxu_d", ours::amomaxu_d, original::amomaxu_d),
];

/// A word operation at the door, which gives the new memory value as 64 bits.
type DoorRow = (
    &'static str,
    extern "C" fn(u32, u64, &mut [u64; 2]),
    fn(u32, u64) -> (u64, u32),
);

const A_W_DOOR: [DoorRow; 9] = [
    ("amoswap_w", door::rv_amoswap_w, original::amoswap_w),
    ("amoadd_w", door::rv_amoadd_w, original::amoadd_w),
    ("amoxor_w", door::rv_amoxor_w, original::amoxor_w),
    ("amoand_w", door::rv_amoand_w, original::amoand_w),
    ("amoor_w", door::rv_amoor_w, original::amoor_w),
    ("amomin_w", door::rv_amomin_w, original::amomin_w),
    ("amomax_w", door::rv_amomax_w, original::amomax_w),
    ("amominu_w", door::rv_amominu_w, original::amominu_w),
    ("amomaxu_w", door::rv_amomaxu_w, original::amomaxu_w),
];

const PAIRS: usize = 1_000_000;

pub fn compare(seed: u64) -> Tally {
    let mut tally = Tally::new("extensions");
    let mut random = Random::new(seed);

    let pairs = operand_pairs(&mut random, PAIRS);
    each(&mut tally, &pairs, &M);
    each(&mut tally, &pairs, &A_D);

    let word_pairs: Vec<(u32, u64)> = pairs.iter().map(|&(old, src)| (old as u32, src)).collect();
    each(&mut tally, &word_pairs, &A_W);
    upper_halves(&mut tally, &word_pairs);

    tally
}

fn each<A: Copy + Debug, R: PartialEq + Debug>(
    tally: &mut Tally,
    inputs: &[(A, u64)],
    rows: &[Row<A, R>],
) {
    for &(name, ours, original) in rows {
        tally.calls(name, inputs.len());
        for &(left, right) in inputs {
            let (answer, expected) = (ours(left, right), original(left, right));
            if answer != expected {
                tally.differ(name, (left, right), answer, "original", expected);
            }
        }
    }
}

/// The wrapper keeps 32 bits of a new memory word: see at the door that the others are 0.
fn upper_halves(tally: &mut Tally, inputs: &[(u32, u64)]) {
    for (name, door, original) in A_W_DOOR {
        tally.calls(name, inputs.len());
        for &(left, right) in inputs {
            let mut answer = [0; 2];
            door(left, right, &mut answer);
            let (returned, new) = original(left, right);
            let expected = [returned, new.into()];
            if answer != expected {
                tally.differ(name, (left, right), answer, "original", expected);
            }
        }
    }
}
