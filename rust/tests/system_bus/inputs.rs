//! Lengths, addresses, offsets and calls to try memory with.

use super::call::Call;
use crate::common::Random;

/// The lengths that are refused: no power of two, or under 8. Those over 2^30 are tried apart.
pub const REFUSED: [usize; 14] = [0, 1, 2, 3, 4, 5, 6, 7, 9, 12, 24, 1000, 4095, 65537];

/// The lengths that are accepted, up to 2^16. The longer ones are tried apart.
pub fn accepted() -> impl Iterator<Item = usize> {
    (3..=16).map(|power| 1 << power)
}

pub const WIDTHS: [usize; 4] = [1, 2, 4, 8];

pub fn bytes(random: &mut Random, length: usize) -> Vec<u8> {
    (0..length).map(|_| random.word() as u8).collect()
}

/// Addresses around the beginning and the end of the memory, in the address space's first copies of
/// it, in its middle and in its last ones.
pub fn edge_addresses(length: usize) -> Vec<u64> {
    let length = length as u64;
    let turns = [
        0,
        length / 2,
        length,
        length.wrapping_mul(2),
        length.wrapping_mul(0x1234_5678_9ABC),
        1 << 32,
        1 << 63,
    ];
    let mut addresses: Vec<u64> = Vec::new();
    for turn in turns {
        addresses.extend((-9..=9).map(|step| turn.wrapping_add_signed(step)));
    }
    addresses
}

/// Each width at each of these addresses: read, written, and read again.
pub fn edge_accesses(random: &mut Random, length: usize) -> Vec<Call> {
    let mut calls = Vec::new();
    for address in edge_addresses(length) {
        for width in WIDTHS {
            let value = random.word();
            let write = Call::Write {
                width,
                address,
                value,
            };
            let read = Call::Read { width, address };
            calls.extend([read.clone(), write, read]);
        }
    }
    calls
}

/// Loads of nothing, of little and of as much as there is, at the offsets where each just fits and
/// just does not.
pub fn edge_loads(random: &mut Random, length: usize) -> Vec<Call> {
    let mut calls = Vec::new();
    for count in [
        0,
        1,
        2,
        7,
        8,
        9,
        length.saturating_sub(1),
        length,
        length + 1,
    ] {
        let fits = length.wrapping_sub(count);
        let top = usize::MAX - count;
        let near = [fits, 0, length, top].into_iter();
        let steps = near.flat_map(|turn| (-2..=2).map(move |step| turn.wrapping_add_signed(step)));
        for offset in steps.chain([usize::MAX, 1 << 32, 1 << 63]) {
            let bytes = bytes(random, count);
            calls.push(Call::LoadAt { offset, bytes });
        }
    }
    calls
}

pub fn any_call(random: &mut Random, length: usize) -> Call {
    let width = WIDTHS[random.below(4) as usize];
    let address = match random.below(4) {
        0 => random.word(),
        1 => random.operand(),
        2 => (random.word() & !(length as u64).wrapping_sub(1)).wrapping_sub(random.below(9)),
        _ => random.below(length as u64 + 8),
    };
    match random.below(8) {
        0 => {
            let offset = random.below(length as u64 + 2) as usize;
            let room = length.saturating_sub(offset) as u64;
            let count = match random.below(4) {
                0 => random.below(room + 2),
                _ => random.below(room.min(16) + 2),
            };
            Call::LoadAt {
                offset,
                bytes: bytes(random, count as usize),
            }
        }
        1..=3 => Call::Read { width, address },
        _ => Call::Write {
            width,
            address,
            value: random.word(),
        },
    }
}
