//! The CSR file and interrupt choice.

use leavnnjar::csr::{Csr, PrivMode};
use original::csr::{Csr as Original, PrivMode as Mode};

use crate::ways::{CALLS, scattered, trace};

/// A mix of addresses, in random order: mscratch, mtvec, mepc, mcause, sscratch,
/// stvec, scause, mstatus, sstatus, sie, pmpaddr5, mcycle, cycle, hpmcounter7, satp, and one that
/// is not listed.
fn addresses() -> Vec<(u32, u64)> {
    const MIX: [u32; 16] = [
        0x340, 0x305, 0x341, 0x342, 0x140, 0x105, 0x142, 0x300, 0x100, 0x104, 0x3B5, 0xB00, 0xC00,
        0xC07, 0x180, 0x7C0,
    ];
    trace(|i| (MIX[(scattered(i) >> 60) as usize], scattered(i)))
}

/// One address again and again.
fn one(address: u32) -> Vec<(u32, u64)> {
    trace(|i| (address, scattered(i)))
}

macro_rules! read {
    ($name:literal, $trace:expr) => {
        ways!(
            $name, $trace, (address, _),
            library: Csr::new(), |csr| csr.read_register(address, PrivMode::M).ok(),
            original: Original::new(), fn(csr: &mut Original, address: u32 = address, mode: Mode = Mode::M) -> Option<u64> {
                csr.read_register(address, mode)
            }
        )
    };
}

macro_rules! write {
    ($name:literal, $trace:expr) => {
        ways!(
            $name, $trace, (address, value),
            library: Csr::new(), |csr| csr.write_register(address, value, PrivMode::M).is_ok(),
            original: Original::new(), fn(csr: &mut Original, address: u32 = address, value: u64 = value, mode: Mode = Mode::M) -> bool {
                csr.write_register(address, value, mode)
            }
        )
    };
}

/// Interrupt choice in S-mode, with these bits raised by devices and enabled.
macro_rules! pending {
    ($name:literal, $bits:expr) => {{
        let mut words = *Csr::new().words();
        words[4] = u64::MAX;
        words[12] = $bits;
        let original = || {
            let mut csr = Original::new();
            csr.mie = u64::MAX;
            csr.mip = $bits;
            csr
        };
        ways!(
            $name, [(); CALLS], (),
            library: Csr::from_words(words), |csr| csr.pending_interrupt(PrivMode::S),
            original: original(), fn(csr: &mut Original, mode: Mode = Mode::S) -> Option<u64> {
                csr.pending_interrupt(mode)
            }
        );
    }};
}

pub fn rows() {
    read!("CSR read, mix", addresses());
    read!("CSR read, mstatus", one(0x300));
    write!("CSR write, mix", addresses());
    write!("CSR write, mscratch", one(0x340));
    pending!("pending, nothing", 0);
    pending!("pending, timer", 1 << 7);
}
