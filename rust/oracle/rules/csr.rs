//! csr.rs, but for one read and some writes: sstatus shows SD and UXL, too, and satp takes no mode but
//! the two that a translation knows.

use crate::csr::{Csr, MSTATUS, MSTATUS_SD, MSTATUS_UXL, PrivMode, SATP, SSTATUS};

/// What sstatus shows of mstatus. What a write of it takes is still the original's.
pub const SSTATUS_READ_MASK: u64 = 0x8000_0003_000D_E762;

/// What the original's own mask hides of that.
pub const SSTATUS_HIDDEN: u64 = MSTATUS_SD | MSTATUS_UXL;

/// Whether the rule decides what a read of this address gives, and not the original.
pub fn decides_read(address: u32) -> bool {
    address == SSTATUS
}

/// A read: the original's answer, or by the rule its answer for mstatus under the mask.
pub fn read_register(csr: &Csr, address: u32, mode: PrivMode) -> Option<u64> {
    if !decides_read(address) {
        return csr.read_register(address, mode);
    }
    let mstatus = csr.read_register(MSTATUS, mode)?;
    Some(mstatus & SSTATUS_READ_MASK)
}

/// The modes that a write of satp takes, bits 63 to 60: nothing is paged, and Sv39.
pub const SATP_MODES: [u64; 2] = [0, 8];

/// Whether the rule decides what a write of this value does, and not the original.
pub fn decides_write(address: u32, value: u64) -> bool {
    address == SATP && !SATP_MODES.contains(&(value >> 60))
}

/// A write: the original's, or by the rule one that changes nothing. That one is the original's, too, of
/// the word that is there: so it is refused where any other is.
pub fn write_register(csr: &mut Csr, address: u32, value: u64, mode: PrivMode) -> bool {
    let taken = match decides_write(address, value) {
        true => csr.satp,
        false => value,
    };
    csr.write_register(address, taken, mode)
}
