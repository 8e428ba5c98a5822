//! csr.rs: every listed address read and written in each mode, the registers with rules of their own
//! bit by bit, interrupt choices, then a history of calls.

use oracle::csr::{self as original, Csr, PrivMode};
use oracle::layout::CSR_WORDS;
use oracle::rules::csr as rules;

use crate::common::Random;
use crate::list::{Change, List, changed, not_zero};

const NEW: u64 = 0x0;
const SET: u64 = 0x1;
const READ: u64 = 0x2;
const WRITE: u64 = 0x3;
const PENDING: u64 = 0x4;
const FROM_BITS: u64 = 0x5;

// Places of words.
const MSTATUS: usize = 0;
const MIDELEG: usize = 3;
const MIE: usize = 4;
const MIP: usize = 12;

const HISTORY: usize = 400;
const CHOICES: usize = 80;

/// The registers of which a word shows or takes only a part, and what they look at.
const PARTIAL: [u32; 12] = [
    original::MSTATUS,
    original::SSTATUS,
    original::MIE,
    original::SIE,
    original::MIP,
    original::SIP,
    original::MEPC,
    original::SEPC,
    original::MCOUNTEREN,
    0x001,
    0x002,
    0x003,
];

pub fn record(list: &mut List, random: &mut Random) {
    list.module(
        "csr",
        'c',
        &format!(
            "the CSR file, as {CSR_WORDS} words in the order of its fields; modes are 0 U, 1 S, 2 and 3 M"
        ),
    );
    list.function(NEW, "new = number ; words");
    list.function(SET, "set = ; words");
    list.function(READ, "read_register address mode = number value");
    list.function(WRITE, "write_register address value mode = number ; words");
    list.function(PENDING, "pending_interrupt mode = found bit");
    list.function(FROM_BITS, "from_bits bits = mode");

    for bits in (0..8).chain([0xFFFF_FFFF_FFFF_FFFC, 0xFFFF_FFFF_FFFF_FFFD, u64::MAX]) {
        list.answer(FROM_BITS, &[bits], &[PrivMode::from_bits(bits) as u64], &[]);
    }

    let mut file = File::new(list);
    addresses(&mut file, random);
    let mut file = File::new(list);
    partial(&mut file, random);
    satp(&mut file);
    let mut file = File::new(list);
    choices(&mut file, random);
    let mut file = File::new(list);
    history(&mut file, random);
}

struct File<'a> {
    list: &'a mut List,
    csr: Csr,
}

impl<'a> File<'a> {
    fn new(list: &'a mut List) -> Self {
        let csr = Csr::new();
        list.answer(NEW, &[], &[0], &not_zero(&csr.oracle_words()));
        Self { list, csr }
    }

    fn set(&mut self, changes: &[Change]) {
        let mut words = self.csr.oracle_words();
        for &(place, value) in changes {
            words[place] = value;
        }
        self.csr = Csr::oracle_from(&words);
        self.list.set(SET, &[], changes);
    }

    fn read(&mut self, address: u32, mode: u64) {
        let answer = match rules::read_register(&self.csr, address, PrivMode::from_bits(mode)) {
            Some(value) => [0, value],
            None => [self.refusal(address, mode), 0],
        };
        self.list
            .answer(READ, &[address.into(), mode], &answer, &[]);
    }

    fn write(&mut self, address: u32, value: u64, mode: u64) {
        let before = self.csr.oracle_words();
        let done = rules::write_register(&mut self.csr, address, value, PrivMode::from_bits(mode));
        let number = match done {
            true => 0,
            false => self.refusal(address, mode),
        };
        let changes = changed(&before, &self.csr.oracle_words());
        let inputs = [address.into(), value, mode];
        self.list.answer(WRITE, &inputs, &[number], &changes);
    }

    fn pending(&mut self, mode: u64) {
        let answer = match self.csr.pending_interrupt(PrivMode::from_bits(mode)) {
            Some(bit) => [1, bit],
            None => [0, 0],
        };
        self.list.answer(PENDING, &[mode], &answer, &[]);
    }

    /// The original says only that it refuses: this is the rule's number.
    fn refusal(&self, address: u32, mode: u64) -> u64 {
        let trapped = address == original::SATP
            && PrivMode::from_bits(mode) == PrivMode::S
            && self.csr.mstatus & original::MSTATUS_TVM != 0;
        if trapped { 3 } else { 2 }
    }
}

/// The addresses that the original lists: in M-mode it refuses no other.
fn listed() -> Vec<u32> {
    let csr = Csr::new();
    let known = |&address: &u32| csr.read_register(address, PrivMode::M).is_some();
    (0..=0xFFF).filter(known).collect()
}

/// Each listed address written with all ones and with another value, and read after each; then
/// addresses beside them, and some that would be listed if their upper bits were lost.
fn addresses(file: &mut File, random: &mut Random) {
    let modes = [0, 1, 3];
    let listed = listed();
    for (i, &address) in listed.iter().enumerate() {
        file.write(address, u64::MAX, modes[i % 3]);
        file.read(address, modes[(i + 1) % 3]);
        file.write(address, random.word(), modes[(i + 2) % 3]);
        file.read(address, 3);
    }

    let beside = listed.iter().flat_map(|address| [address - 1, address + 1]);
    let upper = [0x1000, 0x1001, 0x1180, 0x1300, 0x8000_0300, u32::MAX];
    let mut unlisted: Vec<u32> = beside.filter(|address| !listed.contains(address)).collect();
    unlisted.dedup();
    for (i, address) in unlisted.into_iter().chain(upper).enumerate() {
        file.read(address, modes[i % 3]);
        file.write(address, u64::MAX, modes[(i + 1) % 3]);
    }
}

/// The registers with masks, over several delegations and pending bits; the fields that SD is made of;
/// and of the status words each bit alone and all bits but it.
fn partial(file: &mut File, random: &mut Random) {
    for address in PARTIAL {
        for value in [
            0,
            u64::MAX,
            0xAAAA_AAAA_AAAA_AAAA,
            random.word(),
            random.word(),
        ] {
            let delegated = random.word();
            file.set(&[
                (MIDELEG, delegated),
                (MIP, random.word()),
                (MIE, random.word()),
            ]);
            file.write(address, value, 3);
            file.read(address, 3);
            file.read(original::SSTATUS, 1);
        }
    }
    // SD is set exactly if one of these fields is 3.
    for field in [9, 13, 15] {
        for value in 0..4 {
            file.write(original::MSTATUS, value << field, 3);
            file.read(original::MSTATUS, 3);
            file.read(original::SSTATUS, 1);
        }
    }
    for bit in 0..64 {
        file.write(original::MSTATUS, 1 << bit, 3);
        file.read(original::MSTATUS, 3);
        file.write(original::SSTATUS, !(1 << bit), 1);
        file.read(original::SSTATUS, 1);
    }
}

/// SATP with TVM clear and set, in each mode of the hart; then each mode of its own over the two that it
/// takes, from M-mode and, where TVM closes it, from S-mode.
fn satp(file: &mut File) {
    for status in [0, original::MSTATUS_TVM, u64::MAX] {
        file.write(original::MSTATUS, status, 3);
        for mode in 0..4 {
            file.write(original::SATP, 0x8000_0000_0000_0001 + mode, mode);
            file.read(original::SATP, mode);
        }
    }
    for own in 0..16 {
        for old in rules::SATP_MODES {
            file.write(original::SATP, (old << 60) | (0x123 << 44) | 0x456, 3);
            file.write(original::SATP, (own << 60) | (0x321 << 44) | own, 1);
            file.read(original::SATP, 3);
            file.write(original::SATP, (own << 60) | (0xFEDC << 44) | own, 3);
            file.read(original::SATP, 3);
        }
    }
}

/// Each interrupt that has a place in the order beside the next ones, others, none and all; not
/// delegated, delegated, and in part; with MIE and SIE clear and set; in each mode.
fn choices(file: &mut File, random: &mut Random) {
    let order: [u32; 6] = [11, 3, 7, 9, 1, 5];
    let mut sets: Vec<u64> = vec![
        0,
        u64::MAX,
        1,
        1 << 63,
        (1 << 63) | 1,
        0xFFFF_FFFF_FFFF_F555,
    ];
    for first in 0..6 {
        sets.push(1 << order[first]);
        sets.push(order[first..].iter().map(|bit| 1 << bit).sum());
        sets.push((1 << order[first]) | (1 << 62) | 1);
    }
    for (i, &set) in sets.iter().enumerate() {
        let lowest = set & set.wrapping_neg();
        for (j, delegated) in [0, u64::MAX, lowest, !lowest].into_iter().enumerate() {
            let enable = [0, original::MSTATUS_SIE, original::MSTATUS_MIE, u64::MAX][(i + j) % 4];
            file.set(&[
                (MSTATUS, enable),
                (MIDELEG, delegated),
                (MIE, set),
                (MIP, set),
            ]);
            [0, 1, 3].into_iter().for_each(|mode| file.pending(mode));
        }
    }
    for _ in 0..CHOICES {
        let few = |random: &mut Random| random.word() & random.word() & random.word();
        let words = [few(random) & 0xFFF, few(random), few(random)];
        let places = [MIE, MIP, MIDELEG].into_iter().zip([
            words[0] | words[1],
            words[0] | words[2],
            random.word(),
        ]);
        let changes: Vec<Change> = places.chain([(MSTATUS, random.word())]).collect();
        file.set(&changes);
        file.pending(random.below(4));
    }
}

fn history(file: &mut File, random: &mut Random) {
    let listed = listed();
    for _ in 0..HISTORY {
        let address = match random.below(4) {
            0 => listed[random.below(listed.len() as u64) as usize],
            1 => random.word() as u32 & 0xFFF,
            _ => PARTIAL[random.below(12) as usize],
        };
        let mode = random.below(4);
        match random.below(8) {
            0 => file.pending(mode),
            1..=3 => file.read(address, mode),
            4 => file.write(original::MIDELEG, random.word(), mode),
            _ => file.write(address, random.operand(), mode),
        }
    }
}
