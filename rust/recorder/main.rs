//! Asks the original and writes down what it answers: the list that the program `recorded` replays,
//! and what the program must write on it.
//!
//! `../record` builds and runs this, with the folder to write to. One module for each of the
//! original's, and `list.rs` for the text.

#[allow(dead_code)] // The account is the comparison's.
#[path = "../tests/common.rs"]
mod common;
mod csr;
mod decode;
mod extensions;
mod gpr;
mod list;
mod mmu;
mod system_bus;
mod trap;

use std::path::Path;
use std::{env, fs};

use common::Random;
use list::List;

/// Fixed, so that the list is the same wherever it is made.
const SEED: u64 = 0x5EED;

fn main() {
    let mut list = List::new(SEED);
    let modules = [
        trap::record,
        decode::record,
        extensions::record,
        gpr::record,
        csr::record,
        system_bus::record,
        mmu::record,
    ];
    for record in modules {
        record(&mut list, &mut Random::new(SEED));
        list.end();
    }

    let folder = env::args().nth(1).expect("the folder to write to");
    let write = |name: &str, text: &str| {
        fs::write(Path::new(&folder).join(name), text).expect("the folder can be written to");
    };
    write("stdin", list.text());
    write("stdout", &list.account());
}
