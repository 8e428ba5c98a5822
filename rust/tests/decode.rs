//! decode.rs: every halfword, the words at the edges of every field, random words; sign extension
//! from any number of bits.

use std::fmt::Debug;

use leavnnjar::Refusal;
use leavnnjar::decode::{self, CompressedInstruction as OurHalf, Instruction as OurWord};
use oracle::decode::{
    self as original, CompressedInstruction as OriginalHalf, Instruction as OriginalWord,
};

use crate::common::{Random, Tally, boundaries, product};
use crate::door;

/// A function's name, then the library's and the original's.
type Row<Ours, Original, R> = (&'static str, fn(&Ours) -> R, fn(&Original) -> R);
type Word<R> = Row<OurWord, OriginalWord, R>;
type Half<R> = Row<OurHalf, OriginalHalf, R>;

/// What makes the library's value and the original's of an input.
type Makers<A, Ours, Original> = (fn(A) -> Ours, fn(A) -> Original);

const WORD_U32: [Word<u32>; 5] = [
    ("opcode", OurWord::opcode, OriginalWord::opcode),
    ("funct3", OurWord::funct3, OriginalWord::funct3),
    ("funct7", OurWord::funct7, OriginalWord::funct7),
    ("csr_addr", OurWord::csr_addr, OriginalWord::csr_addr),
    ("funct5", OurWord::funct5, OriginalWord::funct5),
];

const WORD_USIZE: [Word<usize>; 3] = [
    ("rd", OurWord::rd, OriginalWord::rd),
    ("rs1", OurWord::rs1, OriginalWord::rs1),
    ("rs2", OurWord::rs2, OriginalWord::rs2),
];

const WORD_I64: [Word<i64>; 5] = [
    ("imm_i", OurWord::imm_i, OriginalWord::imm_i),
    ("imm_s", OurWord::imm_s, OriginalWord::imm_s),
    ("imm_b", OurWord::imm_b, OriginalWord::imm_b),
    ("imm_u", OurWord::imm_u, OriginalWord::imm_u),
    ("imm_j", OurWord::imm_j, OriginalWord::imm_j),
];

const WORD_BOOL: [Word<bool>; 2] = [
    ("aq", OurWord::aq, OriginalWord::aq),
    ("rl", OurWord::rl, OriginalWord::rl),
];

const HALF_U16: [Half<u16>; 2] = [
    ("c_quadrant", OurHalf::quadrant, OriginalHalf::quadrant),
    ("c_funct3", OurHalf::funct3, OriginalHalf::funct3),
];

const HALF_USIZE: [Half<usize>; 4] = [
    ("c_rs2_prime", OurHalf::rs2_prime, OriginalHalf::rs2_prime),
    ("c_rs1_prime", OurHalf::rs1_prime, OriginalHalf::rs1_prime),
    ("c_rd", OurHalf::rd, OriginalHalf::rd),
    ("c_rs2", OurHalf::rs2, OriginalHalf::rs2),
];

const RANDOM_WORDS: usize = 2_000_000;
const RANDOM_VALUES: usize = 10_000;

pub fn compare(seed: u64) -> Tally {
    let mut tally = Tally::new("decode");
    let mut random = Random::new(seed);

    let mut words = edge_words();
    words.extend((0..RANDOM_WORDS).map(|_| random.word() as u32));
    each(&mut tally, &words, (OurWord, OriginalWord), &WORD_U32);
    each(&mut tally, &words, (OurWord, OriginalWord), &WORD_USIZE);
    each(&mut tally, &words, (OurWord, OriginalWord), &WORD_I64);
    each(&mut tally, &words, (OurWord, OriginalWord), &WORD_BOOL);

    let halves: Vec<u16> = (0..=u16::MAX).collect();
    each(&mut tally, &halves, (OurHalf, OriginalHalf), &HALF_U16);
    each(&mut tally, &halves, (OurHalf, OriginalHalf), &HALF_USIZE);

    let mut values = boundaries();
    values.extend((0..RANDOM_VALUES).map(|_| random.operand()));
    let large = [128, 256, 1 << 16, 1 << 31, u32::MAX - 63, u32::MAX];
    let bits: Vec<u32> = (0..=70).chain(large).collect();
    for (value, bits) in product(&values, &bits) {
        sign_extend(&mut tally, value as i64, bits);
    }

    tally
}

fn each<A: Copy + Debug, Ours, Original, R: PartialEq + Debug>(
    tally: &mut Tally,
    inputs: &[A],
    (make, make_original): Makers<A, Ours, Original>,
    rows: &[Row<Ours, Original, R>],
) {
    for &(name, ours, original) in rows {
        tally.calls(name, inputs.len());
        for &input in inputs {
            let (answer, expected) = (ours(&make(input)), original(&make_original(input)));
            if answer != expected {
                tally.differ(name, input, answer, "original", expected);
            }
        }
    }
}

/// Every run of one bits and every pair of one bits, and their complements: among them each field
/// alone at its greatest with the rest 0, and at 0 with the rest ones.
fn edge_words() -> Vec<u32> {
    let mut words = Vec::new();
    for low in 0..32 {
        for high in low..32 {
            let run = (u32::MAX << low) & (u32::MAX >> (31 - high));
            let pair = (1 << low) | (1 << high);
            words.extend([run, !run, pair, !pair]);
        }
    }
    words
}

fn sign_extend(tally: &mut Tally, value: i64, bits: u32) {
    // The original panics where we refuse, so it is not called there.
    let refused = bits == 0 || bits > 64;
    let (judge, expected) = match refused {
        true => ("rule", Err(Refusal::ExtensionWidth)),
        false => ("original", Ok(original::sign_extend(value, bits))),
    };

    tally.calls("sign_extend", 1);
    let answer = decode::sign_extend(value, bits);
    if answer != expected {
        tally.differ("sign_extend", (value, bits), answer, judge, expected);
    }

    if refused {
        const UNTOUCHED: i64 = 0x0123_4567_89AB_CDEF;
        let mut out = UNTOUCHED;
        tally.calls("sign_extend", 1);
        let answer = door::rv_sign_extend(value, bits, &mut out);
        let expected = (Refusal::ExtensionWidth.number(), UNTOUCHED);
        if (answer, out) != expected {
            tally.differ(
                "sign_extend",
                (value, bits),
                (answer, out),
                "rule",
                expected,
            );
        }
    }
}
