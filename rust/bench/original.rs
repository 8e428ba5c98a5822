//! The original to be timed: its files in target/bench, mmu.rs without its pointer tables.

#[path = "../../target/bench/csr.rs"]
pub mod csr;
#[path = "../../target/bench/extensions.rs"]
pub mod extensions;
#[path = "../../target/bench/gpr.rs"]
pub mod gpr;
#[path = "../../target/bench/mmu.rs"]
pub mod mmu;
#[path = "../oracle/syscall_trace.rs"]
pub mod syscall_trace;
#[path = "../../target/bench/system_bus.rs"]
pub mod system_bus;
