//! gpr.rs: each call on each register, then a history of calls.

use oracle::gpr::Gpr;
use oracle::layout::GPR_WORDS;

use crate::common::Random;
use crate::list::{List, changed, not_zero};

const NEW: u64 = 0x0;
const SET: u64 = 0x1;
const READ: u64 = 0x2;
const READ_MASKED: u64 = 0x3;
const READ_F: u64 = 0x4;
const READ_F32: u64 = 0x5;
const WRITE: u64 = 0x6;
const WRITE_MASKED: u64 = 0x7;
const WRITE_F: u64 = 0x8;
const WRITE_F32: u64 = 0x9;

const HISTORY: usize = 300;

/// 32-bit float values under their one bits, and under almost all of them.
const BOXES: [u64; 6] = [
    0xFFFF_FFFF_3F80_0000,
    0xFFFF_FFFE_3F80_0000,
    0x7FFF_FFFF_3F80_0000,
    0xFFFF_FFFF_FFFF_FFFF,
    0x0000_0000_3F80_0000,
    0xFFFF_FFFF_0000_0000,
];

pub fn record(list: &mut List, random: &mut Random) {
    list.module(
        "gpr",
        'g',
        &format!("the registers, as {GPR_WORDS} words: x0 to x31, pc, f0 to f31"),
    );
    list.function(NEW, "new pc = number ; words");
    list.function(SET, "set = ; words");
    list.function(READ, "read reg = number value");
    list.function(READ_MASKED, "read_masked reg = number value");
    list.function(READ_F, "read_f reg = number value");
    list.function(READ_F32, "read_f32 reg = number value");
    list.function(WRITE, "write reg value = number ; words");
    list.function(WRITE_MASKED, "write_masked reg value = number ; words");
    list.function(WRITE_F, "write_f reg value = number ; words");
    list.function(WRITE_F32, "write_f32 reg value = number ; words");

    let mut registers = Registers::new(list, 0x8000_0000);
    for reg in 0..32 {
        registers.call(WRITE, reg, random.operand());
        registers.call(READ, reg, 0);
        registers.call(WRITE_F, reg, random.operand());
        registers.call(READ_F, reg, 0);
        registers.call(READ_F32, reg, 0);
    }

    let mut registers = Registers::new(list, u64::MAX);
    for reg in (0..256)
        .step_by(31)
        .chain([32, 64, 96, 128, 160, 192, 224, 255])
    {
        registers.call(WRITE_MASKED, reg, random.word());
        registers.call(READ_MASKED, reg, 0);
        registers.call(READ, reg % 32, 0);
    }
    for reg in [0, 1, 31] {
        for bits in BOXES {
            registers.call(WRITE_F, reg, bits);
            registers.call(READ_F32, reg, 0);
            registers.call(WRITE_F32, reg, bits);
            registers.call(READ_F, reg, 0);
            registers.call(READ_F32, reg, 0);
        }
    }

    let mut registers = Registers::new(list, 0);
    registers.set(random);
    for _ in 0..HISTORY {
        let function = READ + random.below(8);
        let reg = match function {
            READ_MASKED | WRITE_MASKED => random.below(256),
            _ => random.below(32),
        };
        let value = match random.below(3) {
            0 => random.word() | 0xFFFF_FFFF_0000_0000,
            _ => random.operand(),
        };
        registers.call(function, reg, value);
    }
}

struct Registers<'a> {
    list: &'a mut List,
    gpr: Gpr,
}

impl<'a> Registers<'a> {
    fn new(list: &'a mut List, pc: u64) -> Self {
        let gpr = Gpr::new(pc);
        list.answer(NEW, &[pc], &[0], &not_zero(&gpr.oracle_words()));
        Self { list, gpr }
    }

    /// Every word but x0, which no call makes other than 0.
    fn set(&mut self, random: &mut Random) {
        let mut words = [0; GPR_WORDS];
        words[1..].fill_with(|| random.word());
        self.gpr = Gpr::oracle_from(words);
        self.list.set(SET, &[], &not_zero(&words));
    }

    /// A read takes no value.
    fn call(&mut self, function: u64, reg: u64, value: u64) {
        let before = self.gpr.oracle_words();
        let at = reg as usize;
        let read = match function {
            READ => Some(self.gpr.read(at)),
            READ_MASKED => Some(self.gpr.read_masked(reg as u8)),
            READ_F => Some(self.gpr.read_f(at)),
            READ_F32 => Some(self.gpr.read_f32(at).into()),
            _ => None,
        };
        if let Some(read) = read {
            self.list.answer(function, &[reg], &[0, read], &[]);
            return;
        }

        // Of a 32-bit float value only those bits are an input.
        let value = match function {
            WRITE_F32 => value & 0xFFFF_FFFF,
            _ => value,
        };
        match function {
            WRITE => self.gpr.write(at, value),
            WRITE_MASKED => self.gpr.write_masked(reg as u8, value),
            WRITE_F => self.gpr.write_f(at, value),
            _ => self.gpr.write_f32(at, value as u32),
        }
        let changes = changed(&before, &self.gpr.oracle_words());
        self.list.answer(function, &[reg, value], &[0], &changes);
    }
}
