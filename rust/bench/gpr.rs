//! Registers.

use leavnnjar::gpr::Gpr;
use original::gpr::Gpr as Original;

use crate::ways::{scattered, trace};

pub fn rows() {
    // Registers and values. Register 0 is among them.
    let trace = || trace(|i| ((scattered(i) >> 59) as u8, scattered(i)));

    ways!(
        "register read", trace(), (reg, _),
        library: Gpr::new(0), |gpr| gpr.read(reg.into()).expect("a register"),
        original: Original::new(0), fn(gpr: &mut Original, reg: usize = reg.into()) -> u64 {
            gpr.read(reg)
        }
    );
    ways!(
        "register write", trace(), (reg, val),
        library: Gpr::new(0), |gpr| gpr.write(reg.into(), val).expect("a register"),
        original: Original::new(0), fn(gpr: &mut Original, reg: usize = reg.into(), val: u64 = val) -> () {
            gpr.write(reg, val)
        }
    );
    ways!(
        "register read, masked", trace(), (reg, _),
        library: Gpr::new(0), |gpr| gpr.read_masked(reg),
        original: Original::new(0), fn(gpr: &mut Original, reg: u8 = reg) -> u64 {
            gpr.read_masked(reg)
        }
    );
    ways!(
        "register write, masked", trace(), (reg, val),
        library: Gpr::new(0), |gpr| gpr.write_masked(reg, val),
        original: Original::new(0), fn(gpr: &mut Original, reg: u8 = reg, val: u64 = val) -> () {
            gpr.write_masked(reg, val)
        }
    );
}
