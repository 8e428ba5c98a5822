//! Memory: each width, at aligned addresses all over it and beyond.

use leavnnjar::system_bus::FlatMemory;
use original::system_bus::{FlatMemory as Original, SystemBus};

use crate::ways::{scattered, trace};

const LENGTH: usize = 16384;

/// Aligned addresses, and values.
fn places(width: u64) -> Vec<(u64, u64)> {
    trace(|i| (scattered(i) / width * width, i))
}

macro_rules! read {
    ($name:literal, $read:ident, $Value:ty) => {{
        let mut bytes = vec![0; LENGTH];
        ways!(
            $name, places(size_of::<$Value>() as u64), (address, _),
            library: FlatMemory::new(&mut bytes), |memory| memory.$read(address).expect("inside"),
            original: Original::new(LENGTH), fn(memory: &mut Original, address: u64 = address) -> $Value {
                memory.$read(address)
            }
        );
    }};
}

macro_rules! write {
    ($name:literal, $write:ident, $Value:ty) => {{
        let mut bytes = vec![0; LENGTH];
        ways!(
            $name, places(size_of::<$Value>() as u64), (address, val),
            library: FlatMemory::new(&mut bytes), |memory| memory.$write(address, val as $Value).expect("inside"),
            original: Original::new(LENGTH), fn(memory: &mut Original, address: u64 = address, val: $Value = val as $Value) -> () {
                memory.$write(address, val)
            }
        );
    }};
}

pub fn rows() {
    read!("memory read, 1 byte", read_byte, u8);
    read!("memory read, 2 bytes", read_halfword, u16);
    read!("memory read, 4 bytes", read_word, u32);
    read!("memory read, 8 bytes", read_doubleword, u64);
    write!("memory write, 1 byte", write_byte, u8);
    write!("memory write, 2 bytes", write_halfword, u16);
    write!("memory write, 4 bytes", write_word, u32);
    write!("memory write, 8 bytes", write_doubleword, u64);
}
