//! A call on memory, made of the original and by each way to the library.

use std::hint::black_box;

use leavnnjar::Refusal;
use leavnnjar::system_bus::FlatMemory;
use oracle::system_bus::{FlatMemory as Original, SystemBus};

use crate::door;

#[derive(Clone, Debug)]
pub enum Call {
    Read {
        width: usize,
        address: u64,
    },
    /// Of the value as many bytes count as the width says.
    Write {
        width: usize,
        address: u64,
        value: u64,
    },
    LoadAt {
        offset: usize,
        bytes: Vec<u8>,
    },
}

/// What a call gives back: the library's number, and what then stands in `out`. Only a read has one.
#[derive(Clone, Copy, Debug, PartialEq)]
pub struct Answer {
    pub number: u32,
    pub out: u64,
}

impl Call {
    pub fn name(&self) -> &'static str {
        match self {
            Self::Read { width: 1, .. } => "read_byte",
            Self::Read { width: 2, .. } => "read_halfword",
            Self::Read { width: 4, .. } => "read_word",
            Self::Read { .. } => "read_doubleword",
            Self::Write { width: 1, .. } => "write_byte",
            Self::Write { width: 2, .. } => "write_halfword",
            Self::Write { width: 4, .. } => "write_word",
            Self::Write { .. } => "write_doubleword",
            Self::LoadAt { .. } => "load_at",
        }
    }

    /// The number by which the rule refuses this call, if it does.
    pub fn refused(&self, length: usize) -> Option<u32> {
        if !length.is_power_of_two() || !(8..=1 << 30).contains(&length) {
            return Some(4);
        }
        match self {
            Self::Read { width, address } | Self::Write { width, address, .. } => {
                let place = (address % length as u64) as usize;
                (place + width > length).then_some(5)
            }
            Self::LoadAt { offset, bytes } => {
                let end = offset.checked_add(bytes.len());
                end.is_none_or(|end| end > length).then_some(6)
            }
        }
    }

    pub fn original(&self, memory: &mut Original, untouched: u64) -> Answer {
        let mut out = untouched;
        match *self {
            Self::Read { width, address } => {
                out = match width {
                    1 => memory.read_byte(address).into(),
                    2 => memory.read_halfword(address).into(),
                    4 => memory.read_word(address).into(),
                    _ => memory.read_doubleword(address),
                }
            }
            Self::Write {
                width,
                address,
                value,
            } => match width {
                1 => memory.write_byte(address, value as u8),
                2 => memory.write_halfword(address, value as u16),
                4 => memory.write_word(address, value as u32),
                _ => memory.write_doubleword(address, value),
            },
            Self::LoadAt { offset, ref bytes } => memory.load_at(offset, bytes),
        }
        Answer { number: 0, out }
    }
}

/// A way to the library: makes the call on lent memory.
pub type Way = fn(&Call, &mut [u8], u64) -> Answer;

/// The door itself, where all 64 bits of `out` are seen, and after a refusal too.
pub fn door(call: &Call, memory: &mut [u8], untouched: u64) -> Answer {
    let mut out = untouched;
    let number = match *call {
        Call::Read { width, address } => match width {
            1 => door::rv_read_byte(memory, address, &mut out),
            2 => door::rv_read_halfword(memory, address, &mut out),
            4 => door::rv_read_word(memory, address, &mut out),
            _ => door::rv_read_doubleword(memory, address, &mut out),
        },
        Call::Write {
            width,
            address,
            value,
        } => match width {
            1 => door::rv_write_byte(memory, address, value as u8),
            2 => door::rv_write_halfword(memory, address, value as u16),
            4 => door::rv_write_word(memory, address, value as u32),
            _ => door::rv_write_doubleword(memory, address, value),
        },
        Call::LoadAt { offset, ref bytes } => door::rv_load_at(memory, offset, bytes),
    };
    // A read must leave the memory alone. The compiler would believe it: here it may not.
    black_box(memory);
    Answer { number, out }
}

/// The wrapper, which gives no value where it refuses.
pub fn wrapper(call: &Call, memory: &mut [u8], untouched: u64) -> Answer {
    let mut memory = FlatMemory::new(memory);
    let answer = match *call {
        Call::Read { width, address } => match width {
            1 => memory.read_byte(address).map(u64::from),
            2 => memory.read_halfword(address).map(u64::from),
            4 => memory.read_word(address).map(u64::from),
            _ => memory.read_doubleword(address),
        },
        Call::Write {
            width,
            address,
            value,
        } => match width {
            1 => memory.write_byte(address, value as u8),
            2 => memory.write_halfword(address, value as u16),
            4 => memory.write_word(address, value as u32),
            _ => memory.write_doubleword(address, value),
        }
        .map(|()| untouched),
        Call::LoadAt { offset, ref bytes } => memory.load_at(offset, bytes).map(|()| untouched),
    };
    black_box(memory);
    Answer {
        number: answer.map_or_else(Refusal::number, |_| 0),
        out: answer.unwrap_or(untouched),
    }
}
