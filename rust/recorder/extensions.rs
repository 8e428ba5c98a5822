//! extensions.rs: every M and A function on pairs of boundary values and on others.

use oracle::extensions::*;

use crate::common::{Random, product};
use crate::list::List;

const M: [(u64, &str, fn(u64, u64) -> u64); 13] = [
    (0x0, "divw", divw),
    (0x1, "remw", remw),
    (0x2, "divuw", divuw),
    (0x3, "remuw", remuw),
    (0x4, "mul", mul),
    (0x5, "mulh", mulh),
    (0x6, "mulhu", mulhu),
    (0x7, "mulhsu", mulhsu),
    (0x8, "div", div),
    (0x9, "divu", divu),
    (0xA, "rem", rem),
    (0xB, "remu", remu),
    (0xC, "mulw", mulw),
];

const A_W: [(u64, &str, fn(u32, u64) -> (u64, u32)); 9] = [
    (0xD, "amoswap_w", amoswap_w),
    (0xE, "amoadd_w", amoadd_w),
    (0xF, "amoxor_w", amoxor_w),
    (0x10, "amoand_w", amoand_w),
    (0x11, "amoor_w", amoor_w),
    (0x12, "amomin_w", amomin_w),
    (0x13, "amomax_w", amomax_w),
    (0x14, "amominu_w", amominu_w),
    (0x15, "amomaxu_w", amomaxu_w),
];

const A_D: [(u64, &str, fn(u64, u64) -> (u64, u64)); 9] = [
    (0x16, "amoswap_d", amoswap_d),
    (0x17, "amoadd_d", amoadd_d),
    (0x18, "amoxor_d", amoxor_d),
    (0x19, "amoand_d", amoand_d),
    (0x1A, "amoor_d", amoor_d),
    (0x1B, "amomin_d", amomin_d),
    (0x1C, "amomax_d", amomax_d),
    (0x1D, "amominu_d", amominu_d),
    (0x1E, "amomaxu_d", amomaxu_d),
];

/// 0 and 1, the least and the greatest of 64 bits, and -1 and the least of each width.
const WIDE: [u64; 7] = [
    0,
    1,
    0x8000_0000,
    0xFFFF_FFFF,
    0x7FFF_FFFF_FFFF_FFFF,
    0x8000_0000_0000_0000,
    0xFFFF_FFFF_FFFF_FFFF,
];

/// The same for words, and a register whose upper half says something else.
const WORD: [u32; 5] = [0, 1, 0x7FFF_FFFF, 0x8000_0000, 0xFFFF_FFFF];
const SOURCE: [u64; 7] = [
    0,
    1,
    0x7FFF_FFFF,
    0x8000_0000,
    0xFFFF_FFFF,
    0xFFFF_FFFF_8000_0000,
    0x1_7FFF_FFFF,
];

const DRAWN: usize = 12;

pub fn record(list: &mut List, random: &mut Random) {
    list.module("extensions", 'e', "M and A arithmetic on register values");

    let mut pairs = product(&WIDE, &WIDE);
    pairs.extend((0..DRAWN).map(|_| (random.operand(), random.operand())));
    for (number, name, of) in M {
        list.function(number, &format!("{name} lhs rhs = value"));
        for &(lhs, rhs) in &pairs {
            list.answer(number, &[lhs, rhs], &[of(lhs, rhs)], &[]);
        }
    }

    let mut pairs = product(&WORD, &SOURCE);
    pairs.extend((0..DRAWN).map(|_| (random.word() as u32, random.operand())));
    for (number, name, of) in A_W {
        list.function(number, &format!("{name} memory_value src = returned new"));
        for &(old, src) in &pairs {
            let (returned, new) = of(old, src);
            list.answer(number, &[old.into(), src], &[returned, new.into()], &[]);
        }
    }

    let edges = [0, 1, 0x7FFF_FFFF_FFFF_FFFF, 0x8000_0000_0000_0000, u64::MAX];
    let mut pairs = product(&edges, &edges);
    pairs.extend((0..DRAWN).map(|_| (random.operand(), random.operand())));
    for (number, name, of) in A_D {
        list.function(number, &format!("{name} memory_value src = returned new"));
        for &(old, src) in &pairs {
            let (returned, new) = of(old, src);
            list.answer(number, &[old, src], &[returned, new], &[]);
        }
    }
}
