//! Addresses, values, privileges and words to try the CSR file with.

use oracle::csr::{self as original, Csr as Original, PrivMode};

use super::Words;
use crate::common::Random;

/// The addresses that the original lists: in M-mode it refuses no other.
pub fn listed() -> Vec<u32> {
    let csr = Original::new();
    let known = |&address: &u32| csr.read_register(address, PrivMode::M).is_some();
    (0..=0xFFF).filter(known).collect()
}

/// Every address of 12 bits, the first ones after them, and some that would be listed if their
/// upper bits were lost.
pub fn addresses() -> Vec<u32> {
    let beyond = [0x1000, 0x1001, 0x1180, u32::MAX, u32::MAX - 0xCFF];
    let upper = (12..32).flat_map(|bit| [1 << bit, 0x300 | (1 << bit), 0x180 | (1 << bit)]);
    (0..=0xFFF).chain(beyond).chain(upper).collect()
}

/// Each privilege number, the same with upper bits, which do not count, and one at random.
pub fn privileges(random: &mut Random) -> [u64; 11] {
    let upper = u64::MAX - 3;
    [
        0,
        1,
        2,
        3,
        4,
        5,
        6,
        7,
        upper,
        upper | (1 << random.below(2)),
        random.word(),
    ]
}

/// The values that decide a register's masks: 0, all ones, each bit alone, and all bits but one.
pub fn masks() -> Vec<u64> {
    let bits = (0..64).flat_map(|bit| [1 << bit, !(1 << bit)]);
    [0, u64::MAX].into_iter().chain(bits).collect()
}

/// What the registers' own masks are made of.
const FIELDS: [u64; 12] = [
    0x7F_FFEA,
    !0x7F_FFEA,
    0xD_E762,
    !0xD_E762,
    original::MSTATUS_UXL | original::MSTATUS_SXL,
    original::MSTATUS_SD,
    original::MSTATUS_TVM,
    original::MSTATUS_FS,
    0xAAA,
    0x2A,
    0xFFFF_FFFF,
    0xFF,
];

pub fn value(random: &mut Random) -> u64 {
    let bit = 1 << random.below(64);
    match random.below(8) {
        0 => 0,
        1 => u64::MAX,
        2 => bit,
        3 => !bit,
        4 => FIELDS[random.below(FIELDS.len() as u64) as usize],
        5 => random.operand(),
        _ => random.word(),
    }
}

/// A value for a write of this register. In any other words satp's mode is nearly never 8.
pub fn value_for(random: &mut Random, address: u32) -> u64 {
    let value = value(random);
    match random.below(4) {
        0 if address == original::SATP => (8 << 60) | (value >> 4),
        1 if address == original::SATP => value ^ (random.below(16) << 60),
        _ => value,
    }
}

/// A privilege number, mostly one of the four that differ.
pub fn privilege(random: &mut Random) -> u64 {
    match random.below(8) {
        0 => random.word(),
        1 => 4 + random.below(4),
        _ => random.below(4),
    }
}

pub fn any_words(random: &mut Random) -> Words {
    std::array::from_fn(|_| value(random))
}

/// Draws addresses for a sequence of calls.
pub struct Addresses(Vec<u32>);

impl Addresses {
    /// The registers whose words other registers and interrupts look at.
    const SHARED: [u32; 8] = [
        original::MSTATUS,
        original::SSTATUS,
        original::MIDELEG,
        original::MIE,
        original::SIE,
        original::MIP,
        original::SIP,
        original::SATP,
    ];

    pub fn new() -> Self {
        Self(listed())
    }

    pub fn draw(&self, random: &mut Random) -> u32 {
        let listed = self.0[random.below(self.0.len() as u64) as usize];
        match random.below(10) {
            0..=2 => Self::SHARED[random.below(8) as usize],
            3 => listed.wrapping_sub(1),
            4 => listed + 1,
            5 => listed | (1 << (12 + random.below(20))),
            6 => random.word() as u32,
            _ => listed,
        }
    }
}
