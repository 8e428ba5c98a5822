//! What of this the original still decides, and its answer there.
//!
//! It knows no privilege: it never takes an access for one of M, and a leaf allows a fetch by X, a load
//! by R, a store by W. Nor does it know what the manual refuses: it walks by every mode and for every
//! address, and of an entry it asks nothing but V and permissions, and D in a slot. So it no longer
//! decides a call that is M's where satp pages, nor one by a mode that is none; nor one that comes to a
//! kept leaf which serves it by one rule and not by the other; nor one whose walk finds by one rule and
//! faults by the other, or reads more by one. Nor does it keep a shortcut's leaf entry: of the state,
//! those two words are never its own to decide.

use super::call::{D, R, W, X};
use super::walk::{follow, walk};
use super::{Answer, Call, Kind, Mode, State};
use crate::counted::Counted;
use crate::mmu::{Mmu, MmuFault};

/// Whether the original decides what this call answers in this state, and every word but a
/// shortcut's leaf entry after it. The memory's length is one that is not refused.
pub fn decides(state: &State, call: Call, memory: &[u8]) -> bool {
    if call.satp >> 60 == 0 {
        return true;
    }
    if call.mode() == Mode::M || !call.is_by_sv39() {
        return false;
    }

    // The original's shortcut serves whatever it has.
    if let Some(kept) = state.shortcut(call) {
        return call.is_allowed_by(kept.leaf);
    }
    if let Some(kept) = state.slot(call) {
        let serves = call.is_allowed_by(kept.leaf);
        if serves != served(call.kind, kept.leaf) {
            return false;
        }
        if serves {
            return true;
        }
    }

    // Both find or both fault, by the same entries: where both find, the way down is the same.
    let now = walk(call.address, call.satp, memory);
    let originals = follow(call.address, call.satp, memory, |_| false);
    let finds = now.leaf.is_some_and(|found| call.is_allowed_by(found.leaf));
    let found = originals
        .leaf
        .is_some_and(|found| allowed(call.kind, found.leaf));
    finds == found && now.reads == originals.reads
}

/// Whether the original's walk allows it.
fn allowed(kind: Kind, leaf: u64) -> bool {
    let needed = match kind {
        Kind::Fetch => X,
        Kind::Load | Kind::Readable => R,
        Kind::Store => W,
    };
    leaf & needed != 0
}

/// Whether the original's slot serves it.
fn served(kind: Kind, leaf: u64) -> bool {
    allowed(kind, leaf) && (kind != Kind::Store || leaf & D != 0)
}

/// What the original answers.
pub fn translate(mmu: &mut Mmu, call: Call, bus: &mut Counted) -> Answer {
    let Call {
        kind,
        address,
        satp,
        ..
    } = call;
    bus.reads = 0;
    let answer = match kind {
        Kind::Fetch => mmu.translate_fetch(address, satp, bus),
        Kind::Load => mmu.translate_load(address, satp, bus),
        Kind::Store => mmu.translate_store(address, satp, bus),
        // It gives None alone; by the rule that is a load's fault.
        Kind::Readable => {
            Mmu::translate_readable(address, satp, bus).ok_or(MmuFault::LoadPageFault(address))
        }
    };
    let (number, value) = match answer {
        Ok(found) => (0, found),
        Err(fault) => (fault.mcause() as u32, fault.tval()),
    };
    Answer {
        number,
        values: Some([value, bus.reads]),
    }
}
