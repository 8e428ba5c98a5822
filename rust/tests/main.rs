//! Calls the library and the original on the same inputs and compares what they answer and what
//! they leave behind.
//!
//! `../compare` builds and runs this. One module for each of the original's; the next joins as a
//! `mod` line and a line of `main`.

mod common;
mod csr;
mod decode;
mod extensions;
mod gpr;
mod mmu;
mod system_bus;

// The wrapper hides `out` where a call is refused, so those calls are also made at the door itself.
#[allow(dead_code)]
#[path = "../src/door.rs"]
mod door;

use std::process::ExitCode;

// By this name the door finds it here too.
use leavnnjar::layout;

fn main() -> ExitCode {
    let seed = common::seed();
    common::summary(&[
        decode::compare(seed),
        extensions::compare(seed),
        gpr::compare(seed),
        csr::compare(seed),
        system_bus::compare(seed),
        mmu::compare(seed),
    ])
}
