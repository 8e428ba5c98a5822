//! For whom a guest's calls are made: the hart's privilege and its mstatus.

use oracle::rules::mmu::call::{MPP_FROM, MPRV, MXR, SUM};

use super::call::{Call, Kind, Mode};
use crate::common::Random;

const MPP: u64 = 3 << MPP_FROM;

/// Whose a guest's pages are, and who asks for them. With pages and calls of one mode the original
/// decides nearly every call; with those of all modes the cache is met under other bits than it was
/// filled under.
#[derive(Clone, Copy, Debug)]
pub enum Whose {
    Supervisor,
    User,
    Anyone,
}

/// What a call is told of the hart.
#[derive(Clone, Copy, Debug)]
pub struct Caller {
    pub privilege: u64,
    pub mstatus: u64,
}

impl Whose {
    pub fn caller(self, random: &mut Random, kind: Kind) -> Caller {
        let own = match self {
            _ if random.below(16) == 0 => any_mode(random),
            Self::Supervisor => 1,
            Self::User => 0,
            Self::Anyone => any_mode(random),
        };
        let seldom = match self {
            Self::Anyone => 2,
            _ => 8,
        };
        let mut bits = 0;
        if random.below(2) == 0 {
            bits |= SUM;
        }
        if random.below(seldom) == 0 {
            bits |= MXR;
        }
        caller(random, kind, own, bits)
    }
}

/// Another caller who is to be answered as this one is: the same effective privilege, which the hart
/// may come to in two ways, the same SUM and MXR, and all else as it may be.
pub fn alike(random: &mut Random, call: Call) -> Caller {
    let own = match call.mode() {
        Mode::U => 0,
        Mode::S => 1,
        Mode::M => 2 + random.below(2),
    };
    caller(random, call.kind, own, call.mstatus & (SUM | MXR))
}

/// Whose effective privilege is `own`, by MPRV and MPP or by the hart's own. What does not count is
/// any: MPP, or the privilege; other bits of mstatus; those of the privilege above the low two.
fn caller(random: &mut Random, kind: Kind, own: u64, bits: u64) -> Caller {
    let other = random.below(4);
    let mprv = random.below(4) == 0;
    let (privilege, mpp) = match mprv && kind != Kind::Fetch {
        true => (other, own),
        false => (own, other),
    };
    let above = match random.below(4) {
        0 => random.word() & !3,
        _ => 0,
    };
    let rest = random.word() & !(MPRV | MPP | SUM | MXR);
    let mprv = if mprv { MPRV } else { 0 };
    Caller {
        privilege: above | privilege,
        mstatus: rest | mprv | (mpp << MPP_FROM) | bits,
    }
}

/// Mostly one that is paged.
fn any_mode(random: &mut Random) -> u64 {
    match random.below(16) {
        0..=6 => 0,
        7..=13 => 1,
        14 => 2,
        _ => 3,
    }
}
