//! system_bus.rs: reads, writes and loads on memories of three lengths, which are the first bytes of
//! one array: the others must stay as they are.

use oracle::system_bus::{FlatMemory, SystemBus};

use crate::common::Random;
use crate::list::{Change, List};

const SET: u64 = 0x0;
const LOAD_AT: u64 = 0x9;

/// Each width, with the numbers of its read and its write.
const WIDTHS: [(usize, u64, u64); 4] = [(1, 0x1, 0x5), (2, 0x2, 0x6), (4, 0x3, 0x7), (8, 0x4, 0x8)];

const LENGTHS: [usize; 3] = [8, 64, 4096];
const HISTORY: usize = 200;

pub fn record(list: &mut List, random: &mut Random) {
    list.module(
        "system_bus",
        'b',
        "the first bytes, as many as length says, of a memory of 4096 bytes, which are the words",
    );
    list.function(SET, "set = ; bytes");
    list.function(0x1, "read_byte length address = number value");
    list.function(0x2, "read_halfword length address = number value");
    list.function(0x3, "read_word length address = number value");
    list.function(0x4, "read_doubleword length address = number value");
    list.function(0x5, "write_byte length address value = number ; bytes");
    list.function(0x6, "write_halfword length address value = number ; bytes");
    list.function(0x7, "write_word length address value = number ; bytes");
    list.function(
        0x8,
        "write_doubleword length address value = number ; bytes",
    );
    list.function(
        LOAD_AT,
        "load_at length offset count bytes = number ; bytes",
    );
    list.remark("The bytes that are loaded, up to 4, are those of a number, the lowest first.");

    let mut memory = Memory::new(list, random);
    for length in LENGTHS {
        edges(&mut memory, random, length);
        loads(&mut memory, random, length);
    }
    for _ in 0..HISTORY {
        let length = LENGTHS[random.below(3) as usize];
        let (width, read, write) = WIDTHS[random.below(4) as usize];
        let place = random.below((length - width) as u64 + 1);
        let address = place + (random.word() & !(length as u64 - 1));
        match random.below(2) {
            0 => memory.read(read, length, address),
            _ => memory.write(write, length, address, random.word()),
        }
    }
}

struct Memory<'a> {
    list: &'a mut List,
    bytes: Vec<u8>,
}

impl<'a> Memory<'a> {
    /// Bytes at both ends that are not 0.
    fn new(list: &'a mut List, random: &mut Random) -> Self {
        let mut bytes = vec![0; 4096];
        let mut changes: Vec<Change> = Vec::new();
        for place in (0..72).chain(4080..4096) {
            bytes[place] = random.word() as u8;
            changes.push((place, bytes[place].into()));
        }
        list.set(SET, &[], &changes);
        Self { list, bytes }
    }

    /// The original's memory of this length.
    fn original(&self, length: usize) -> FlatMemory {
        let mut memory = FlatMemory::new(length);
        memory.load_at(0, &self.bytes[..length]);
        memory
    }

    /// Takes the bytes back after a call, and says which it changed.
    fn changes(&mut self, memory: &FlatMemory) -> Vec<Change> {
        let after = memory.oracle_bytes();
        let differs = |&i: &usize| self.bytes[i] != after[i];
        let places: Vec<usize> = (0..after.len()).filter(differs).collect();
        self.bytes[..after.len()].copy_from_slice(after);
        places.into_iter().map(|i| (i, after[i].into())).collect()
    }

    fn read(&mut self, function: u64, length: usize, address: u64) {
        let mut memory = self.original(length);
        let value = match function {
            0x1 => memory.read_byte(address).into(),
            0x2 => memory.read_halfword(address).into(),
            0x3 => memory.read_word(address).into(),
            _ => memory.read_doubleword(address),
        };
        let changes = self.changes(&memory);
        self.list
            .answer(function, &[length as u64, address], &[0, value], &changes);
    }

    fn write(&mut self, function: u64, length: usize, address: u64, value: u64) {
        let mut memory = self.original(length);
        let value = match function {
            0x5 => value & 0xFF,
            0x6 => value & 0xFFFF,
            0x7 => value & 0xFFFF_FFFF,
            _ => value,
        };
        match function {
            0x5 => memory.write_byte(address, value as u8),
            0x6 => memory.write_halfword(address, value as u16),
            0x7 => memory.write_word(address, value as u32),
            _ => memory.write_doubleword(address, value),
        }
        let changes = self.changes(&memory);
        self.list
            .answer(function, &[length as u64, address, value], &[0], &changes);
    }

    fn load_at(&mut self, length: usize, offset: usize, count: usize, value: u64) {
        let mut memory = self.original(length);
        let bytes = &value.to_le_bytes()[..count];
        memory.load_at(offset, bytes);
        let changes = self.changes(&memory);
        let inputs = [length as u64, offset as u64, count as u64, value];
        self.list.answer(LOAD_AT, &inputs, &[0], &changes);
    }
}

/// Each width at the first and the last place where it fits and at unaligned ones, each in the first
/// copy of the memory in the address space, in the next ones and in the last.
fn edges(memory: &mut Memory, random: &mut Random, length: usize) {
    for (width, read, write) in WIDTHS {
        let last = (length - width) as u64;
        for place in [0, 1.min(last), last / 2, last] {
            for base in [
                0,
                length as u64,
                1 << 32,
                1 << 63,
                (length as u64).wrapping_neg(),
            ] {
                let address = base.wrapping_add(place);
                memory.read(read, length, address);
                if base == 0 || random.below(2) == 0 {
                    memory.write(write, length, address, random.word());
                }
            }
        }
    }
}

/// Loads of nothing, also at the very end, and of up to four bytes.
fn loads(memory: &mut Memory, random: &mut Random, length: usize) {
    for count in [0, 1, 2, 3, 4] {
        for offset in [0, (length - count) / 2, length - count] {
            memory.load_at(length, offset, count, random.word() & 0xFFFF_FFFF);
        }
    }
}
