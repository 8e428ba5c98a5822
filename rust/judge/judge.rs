//! Compares the library's M and A arithmetic with that of an outside RISC-V processor, what its CSR
//! file shows S-mode of mstatus and takes of satp, and where its translations lead.
//!
//! `judge operands FILE` writes the operand pairs for judge.c to execute; `judge compare OPERANDS
//! ANSWERS` holds its answers to the library's; `judge sstatus ANSWERS` does so with those of
//! sstatus.c, and `judge pages MEMORY` with what pages.c left in its memory. `run` does all four.

#[path = "../tests/common.rs"]
mod common;
mod pages;
mod sstatus;

use std::fmt::Debug;
use std::process::ExitCode;
use std::{env, fs};

use common::{Random, Tally, operand_pairs};
use leavnnjar::extensions as ours;

type Row<A, R> = (&'static str, fn(A, u64) -> R);

// In the order of judge.c.
const M: [Row<u64, u64>; 13] = [
    ("mul", ours::mul),
    ("mulh", ours::mulh),
    ("mulhu", ours::mulhu),
    ("mulhsu", ours::mulhsu),
    ("div", ours::div),
    ("divu", ours::divu),
    ("rem", ours::rem),
    ("remu", ours::remu),
    ("mulw", ours::mulw),
    ("divw", ours::divw),
    ("divuw", ours::divuw),
    ("remw", ours::remw),
    ("remuw", ours::remuw),
];

const A_W: [Row<u32, (u64, u32)>; 9] = [
    ("amoswap.w", ours::amoswap_w),
    ("amoadd.w", ours::amoadd_w),
    ("amoxor.w", ours::amoxor_w),
    ("amoand.w", ours::amoand_w),
    ("amoor.w", ours::amoor_w),
    ("amomin.w", ours::amomin_w),
    ("amomax.w", ours::amomax_w),
    ("amominu.w", ours::amominu_w),
    ("amomaxu.w", ours::amomaxu_w),
];

const A_D: [Row<u64, (u64, u64)>; 9] = [
    ("amoswap.d", ours::amoswap_d),
    ("amoadd.d", ours::amoadd_d),
    ("amoxor.d", ours::amoxor_d),
    ("amoand.d", ours::amoand_d),
    ("amoor.d", ours::amoor_d),
    ("amomin.d", ours::amomin_d),
    ("amomax.d", ours::amomax_d),
    ("amominu.d", ours::amominu_d),
    ("amomaxu.d", ours::amomaxu_d),
];

const PAIRS: usize = 100_000;

fn main() -> ExitCode {
    let arguments: Vec<String> = env::args().skip(1).collect();
    let arguments: Vec<&str> = arguments.iter().map(String::as_str).collect();
    match arguments[..] {
        ["operands", file] => write_operands(file),
        ["compare", operands, answers] => compare(&read(operands), &read(answers)),
        ["sstatus", answers] => sstatus::compare(&read(answers)),
        ["pages", memory] => pages::compare(fs::read(memory).expect("the file is there")),
        _ => panic!(
            "judge operands FILE | compare OPERANDS ANSWERS | sstatus ANSWERS | pages MEMORY"
        ),
    }
}

fn write_operands(file: &str) -> ExitCode {
    let mut random = Random::new(common::seed());
    let pairs = operand_pairs(&mut random, PAIRS);
    let words = pairs.iter().flat_map(|&(left, right)| [left, right]);
    let bytes: Vec<u8> = words.flat_map(u64::to_le_bytes).collect();
    fs::write(file, bytes).expect("the operands are written");
    ExitCode::SUCCESS
}

fn read(file: &str) -> Vec<u64> {
    let bytes = fs::read(file).expect("the file is there");
    let word = |eight: &[u8]| u64::from_le_bytes(eight.try_into().expect("whole words"));
    bytes.chunks(8).map(word).collect()
}

fn compare(operands: &[u64], answers: &[u64]) -> ExitCode {
    let mut tally = Tally::new("qemu-riscv64");
    let mut answers = answers.iter().copied();
    let mut answer = || answers.next().expect("an answer to each operand pair");

    for pair in operands.chunks(2) {
        let (left, right) = (pair[0], pair[1]);
        for (name, function) in M {
            check(
                &mut tally,
                name,
                (left, right),
                function(left, right),
                answer(),
            );
        }
        for (name, function) in A_W {
            let word = left as u32;
            let theirs = (answer(), answer() as u32);
            check(
                &mut tally,
                name,
                (word, right),
                function(word, right),
                theirs,
            );
        }
        for (name, function) in A_D {
            let theirs = (answer(), answer());
            check(
                &mut tally,
                name,
                (left, right),
                function(left, right),
                theirs,
            );
        }
    }
    assert!(answers.next().is_none(), "no answer is left over");

    common::summary(&[tally])
}

fn check<R: PartialEq + Debug>(
    tally: &mut Tally,
    name: &'static str,
    inputs: impl Debug,
    ours: R,
    theirs: R,
) {
    tally.calls(name, 1);
    if ours != theirs {
        tally.differ(name, inputs, ours, "qemu", theirs);
    }
}
