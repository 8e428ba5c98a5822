//! decode.rs: every field and immediate, of words at the fields' edges and of others; sign extension
//! from each number of bits that the original takes.

use oracle::decode::{CompressedInstruction, Instruction, sign_extend};

use crate::common::Random;
use crate::list::List;

type Row<I> = (u64, &'static str, fn(&I) -> u64);

const WORD: [Row<Instruction>; 15] = [
    (0x0, "opcode", |i| i.opcode().into()),
    (0x1, "rd", |i| i.rd() as u64),
    (0x2, "rs1", |i| i.rs1() as u64),
    (0x3, "rs2", |i| i.rs2() as u64),
    (0x4, "funct3", |i| i.funct3().into()),
    (0x5, "funct7", |i| i.funct7().into()),
    (0x6, "csr_addr", |i| i.csr_addr().into()),
    (0x7, "funct5", |i| i.funct5().into()),
    (0x8, "aq", |i| i.aq().into()),
    (0x9, "rl", |i| i.rl().into()),
    (0xA, "imm_i", |i| i.imm_i() as u64),
    (0xB, "imm_s", |i| i.imm_s() as u64),
    (0xC, "imm_b", |i| i.imm_b() as u64),
    (0xD, "imm_u", |i| i.imm_u() as u64),
    (0xE, "imm_j", |i| i.imm_j() as u64),
];

const HALF: [Row<CompressedInstruction>; 6] = [
    (0xF, "quadrant", |i| i.quadrant().into()),
    (0x10, "funct3", |i| i.funct3().into()),
    (0x11, "rs2_prime", |i| i.rs2_prime() as u64),
    (0x12, "rs1_prime", |i| i.rs1_prime() as u64),
    (0x13, "rd", |i| i.rd() as u64),
    (0x14, "rs2", |i| i.rs2() as u64),
];

const SIGN_EXTEND: u64 = 0x15;

pub fn record(list: &mut List, random: &mut Random) {
    list.module(
        "decode",
        'd',
        "fields and immediates of a word, fields of a halfword, sign extension",
    );

    let words = words(random);
    for (number, name, of) in WORD {
        list.function(number, &format!("{name} word = value"));
        for &word in &words {
            list.answer(number, &[word.into()], &[of(&Instruction(word))], &[]);
        }
    }

    let halves = halves(random);
    for (number, name, of) in HALF {
        list.function(number, &format!("{name} halfword = value"));
        for &half in &halves {
            list.answer(
                number,
                &[half.into()],
                &[of(&CompressedInstruction(half))],
                &[],
            );
        }
    }

    list.function(SIGN_EXTEND, "sign_extend value bits = value");
    for bits in 1..=64 {
        let sign = 1 << (bits - 1);
        for value in [sign, sign - 1, random.word(), random.operand()] {
            let extended = sign_extend(value as i64, bits) as u64;
            list.answer(SIGN_EXTEND, &[value, bits.into()], &[extended], &[]);
        }
    }
}

/// All zeros and all ones, each bit alone, each field's own bits alone, and words at random.
fn words(random: &mut Random) -> Vec<u32> {
    let mut words = vec![0, u32::MAX];
    words.extend((0..32).map(|bit| 1 << bit));
    let fields = [
        (6, 0),
        (11, 7),
        (14, 12),
        (19, 15),
        (24, 20),
        (31, 25),
        (31, 20),
        (31, 12),
        (30, 0),
    ];
    for (high, low) in fields {
        let run = (u32::MAX << low) & (u32::MAX >> (31 - high));
        words.extend([run, !run]);
    }
    words.extend((0..16).map(|_| random.word() as u32));
    words
}

fn halves(random: &mut Random) -> Vec<u16> {
    let mut halves = vec![0, u16::MAX];
    halves.extend((0..16).flat_map(|bit| [1 << bit, !(1 << bit)]));
    halves.extend((0..10).map(|_| random.word() as u16));
    halves
}
