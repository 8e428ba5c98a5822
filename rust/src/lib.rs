//! A safe door to the proved parts of an RV64 hart.
//!
//! The work is done by a static library, `libhost.a`, that is written in Rattle and proved against
//! the RISC-V manuals. This crate declares what it exports and gives it the names and the types of
//! the Rust that it was ported from. A host needs no `unsafe`: every call takes any input, and
//! where the original would panic it gives back a [`Refusal`] and changes nothing.
//!
//! ```
//! use leavnnjar::decode::Instruction;
//! use leavnnjar::extensions;
//! use leavnnjar::gpr::Gpr;
//!
//! // mulhu x3, x1, x2
//! let word = Instruction(0x0220_B1B3);
//! let mut regs = Gpr::new(0x8000_0000);
//! regs.write(1, u64::MAX)?;
//! regs.write(2, u64::MAX)?;
//!
//! let product = extensions::mulhu(regs.read(word.rs1())?, regs.read(word.rs2())?);
//! regs.write(word.rd(), product)?;
//!
//! assert_eq!(regs.read(3), Ok(u64::MAX - 1));
//! # Ok::<(), leavnnjar::Refusal>(())
//! ```

#![warn(missing_docs)]

mod answers;
pub mod csr;
pub mod decode;
mod door;
pub mod extensions;
pub mod gpr;
pub mod layout;
pub mod mmu;
pub mod system_bus;

pub use answers::Refusal;
