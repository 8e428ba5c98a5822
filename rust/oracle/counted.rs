//! The original's memory, as a bus that counts. The original does not say how many table entries a
//! walk reads, and it reads doublewords for nothing else.

use crate::system_bus::{FlatMemory, SystemBus};

/// The original's memory. It counts the table entries that a walk reads.
pub struct Counted {
    pub memory: FlatMemory,
    pub reads: u64,
}

impl Counted {
    pub fn new(bytes: &[u8]) -> Self {
        let mut memory = FlatMemory::new(bytes.len());
        memory.load_at(0, bytes);
        Self { memory, reads: 0 }
    }

    pub fn zeroed(length: usize) -> Self {
        let memory = FlatMemory::new(length);
        Self { memory, reads: 0 }
    }
}

impl SystemBus for Counted {
    fn read_byte(&mut self, address: u64) -> u8 {
        self.memory.read_byte(address)
    }

    fn read_halfword(&mut self, address: u64) -> u16 {
        self.memory.read_halfword(address)
    }

    fn read_word(&mut self, address: u64) -> u32 {
        self.memory.read_word(address)
    }

    fn read_doubleword(&mut self, address: u64) -> u64 {
        self.reads += 1;
        self.memory.read_doubleword(address)
    }

    fn write_byte(&mut self, address: u64, val: u8) {
        self.memory.write_byte(address, val)
    }

    fn write_halfword(&mut self, address: u64, val: u16) {
        self.memory.write_halfword(address, val)
    }

    fn write_word(&mut self, address: u64, val: u32) {
        self.memory.write_word(address, val)
    }

    fn write_doubleword(&mut self, address: u64, val: u64) {
        self.memory.write_doubleword(address, val)
    }
}
