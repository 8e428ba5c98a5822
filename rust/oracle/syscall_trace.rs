//! Stands in for the original's record of a system call, which system_bus.rs hands on unseen.

pub struct SyscallEntry;
