//! The original, unchanged: `make_oracle` of `../toolchain.sh` copies its files to target/oracle and
//! appends to the copies the *.append.rs of this folder.
//!
//! mmu.rs and system_bus.rs name `crate::perf` and `crate::syscall_trace`, which have much else in
//! them: small stand-ins are in this folder. So is `counted`, a bus that counts. What is appended gives
//! the words of a state as the wrapper has them, by its `layout`. `rules` has what the original no
//! longer decides.

pub mod counted;
#[path = "../../target/oracle/csr.rs"]
pub mod csr;
#[path = "../../target/oracle/decode.rs"]
pub mod decode;
#[path = "../../target/oracle/extensions.rs"]
pub mod extensions;
#[path = "../../target/oracle/gpr.rs"]
pub mod gpr;
#[path = "../src/layout.rs"]
pub mod layout;
#[path = "../../target/oracle/mmu.rs"]
pub mod mmu;
mod perf;
pub mod rules;
pub mod syscall_trace;
#[path = "../../target/oracle/system_bus.rs"]
pub mod system_bus;
#[path = "../../target/oracle/trap.rs"]
pub mod trap;
