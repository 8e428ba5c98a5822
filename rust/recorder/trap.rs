//! trap.rs: each cause's code and what it carries, of an illegal instruction with many words; and
//! what a step comes to, with each cause.

use oracle::trap::{StepResult, TrapCause};

use crate::common::Random;
use crate::list::List;

// After the causes, which are 0 to 7.
const OK: u64 = 0x8;
const TRAP: u64 = 0x9;
const HALT: u64 = 0xA;

const DRAWN: usize = 400;

/// The causes in their order. Only the second carries its word.
fn causes(word: u32) -> [TrapCause; 8] {
    [
        TrapCause::InstructionAddressMisaligned,
        TrapCause::IllegalInstruction(word),
        TrapCause::Breakpoint,
        TrapCause::LoadAddressMisaligned,
        TrapCause::StoreAddressMisaligned,
        TrapCause::EcallFromUMode,
        TrapCause::EcallFromSMode,
        TrapCause::EcallFromMMode,
    ]
}

fn carried(cause: &TrapCause) -> Option<u32> {
    match cause {
        TrapCause::IllegalInstruction(word) => Some(*word),
        TrapCause::InstructionAddressMisaligned
        | TrapCause::Breakpoint
        | TrapCause::LoadAddressMisaligned
        | TrapCause::StoreAddressMisaligned
        | TrapCause::EcallFromUMode
        | TrapCause::EcallFromSMode
        | TrapCause::EcallFromMMode => None,
    }
}

pub fn record(list: &mut List, random: &mut Random) {
    list.module(
        "trap",
        't',
        "the causes by their number in its order, then what a step comes to: 0 Ok, 1 Trap, 2 Halt",
    );

    let words = words(random);
    for (number, cause) in (0..).zip(causes(0)) {
        let Some(_) = carried(&cause) else {
            list.function(number, &format!("{cause:?} = code"));
            list.answer(number, &[], &[cause.mcause_code()], &[]);
            continue;
        };
        list.function(number, "IllegalInstruction word = code word");
        for &word in &words {
            let cause = TrapCause::IllegalInstruction(word);
            let carried = carried(&cause).expect("the word").into();
            list.answer(number, &[word.into()], &[cause.mcause_code(), carried], &[]);
        }
    }

    list.function(OK, "Ok = step");
    list.answer(OK, &[], &step(&StepResult::Ok)[..1], &[]);
    list.function(
        TRAP,
        "Trap cause word = step code word; the word is 0 where the cause carries none",
    );
    for word in [0, 1, 0x8000_0000, u32::MAX, random.word() as u32] {
        for (number, cause) in (0..).zip(causes(word)) {
            let inputs = [number, word.into()];
            list.answer(TRAP, &inputs, &step(&StepResult::Trap(cause)), &[]);
        }
    }
    list.function(HALT, "Halt = step");
    list.answer(HALT, &[], &step(&StepResult::Halt)[..1], &[]);
}

/// What a step comes to, and of a trap its cause's code and word.
fn step(result: &StepResult) -> [u64; 3] {
    match result {
        StepResult::Ok => [0, 0, 0],
        StepResult::Trap(cause) => [
            1,
            cause.mcause_code(),
            carried(cause).unwrap_or_default().into(),
        ],
        StepResult::Halt => [2, 0, 0],
    }
}

/// All zeros and all ones, each bit alone, all bits but one, and words at random.
fn words(random: &mut Random) -> Vec<u32> {
    let mut words = vec![0, u32::MAX];
    words.extend((0..32).flat_map(|bit| [1 << bit, !(1 << bit)]));
    words.extend((0..DRAWN).map(|_| random.word() as u32));
    words
}
