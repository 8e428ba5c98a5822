//! Holds what S-mode saw of mstatus on the outside processor to what the library shows it.

use std::process::ExitCode;

use leavnnjar::csr::{Csr, MSTATUS, PrivMode, SSTATUS};

use crate::check;
use crate::common::{self, Tally};

/// The ways to set the fields in sstatus.c.
const CHOICES: usize = 512;

/// The answers are pairs: mstatus as M-mode read it, and sstatus as S-mode then did. The library is
/// set by a write of the first.
pub fn compare(answers: &[u64]) -> ExitCode {
    let mut tally = Tally::new("qemu-system-riscv64");
    assert_eq!(answers.len(), 2 * CHOICES, "a pair for each choice");

    for pair in answers.chunks(2) {
        let (mstatus, sstatus) = (pair[0], pair[1]);
        let mut csr = Csr::new();
        csr.write_register(MSTATUS, mstatus, PrivMode::M)
            .expect("mstatus is listed");
        let in_m = csr.read_register(MSTATUS, PrivMode::M);
        let in_s = csr.read_register(SSTATUS, PrivMode::S);
        check(&mut tally, "mstatus", mstatus, in_m, Ok(mstatus));
        check(&mut tally, "sstatus", mstatus, in_s, Ok(sstatus));
    }

    common::summary(&[tally])
}
