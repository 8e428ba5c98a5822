//! The fields and immediates of an instruction.
//!
//! ```
//! use leavnnjar::Refusal;
//! use leavnnjar::decode::{CompressedInstruction, Instruction, sign_extend};
//!
//! // addi x1, x0, -1
//! let word = Instruction(0xFFF0_0093);
//! assert_eq!((word.opcode(), word.rd(), word.rs1(), word.imm_i()), (0x13, 1, 0, -1));
//!
//! // c.mv x10, x11
//! let half = CompressedInstruction(0x852E);
//! assert_eq!((half.quadrant(), half.rd(), half.rs2()), (2, 10, 11));
//!
//! assert_eq!(sign_extend(0xFFF, 12), Ok(-1));
//! assert_eq!(sign_extend(0xFFF, 0), Err(Refusal::ExtensionWidth));
//! ```

use crate::answers::{Refusal, done};
use crate::door;

/// A 32-bit instruction word.
#[derive(Clone, Copy, Debug, PartialEq, Eq)]
pub struct Instruction(pub u32);

impl Instruction {
    /// Bits 6 to 0.
    #[inline]
    pub fn opcode(&self) -> u32 {
        door::rv_opcode(self.0)
    }

    /// The destination register, 0 to 31.
    #[inline]
    pub fn rd(&self) -> usize {
        door::rv_rd(self.0)
    }

    /// The first source register, 0 to 31.
    #[inline]
    pub fn rs1(&self) -> usize {
        door::rv_rs1(self.0)
    }

    /// The second source register, 0 to 31.
    #[inline]
    pub fn rs2(&self) -> usize {
        door::rv_rs2(self.0)
    }

    /// Bits 14 to 12.
    #[inline]
    pub fn funct3(&self) -> u32 {
        door::rv_funct3(self.0)
    }

    /// Bits 31 to 25.
    #[inline]
    pub fn funct7(&self) -> u32 {
        door::rv_funct7(self.0)
    }

    /// The I-type immediate.
    #[inline]
    pub fn imm_i(&self) -> i64 {
        door::rv_imm_i(self.0)
    }

    /// The S-type immediate.
    #[inline]
    pub fn imm_s(&self) -> i64 {
        door::rv_imm_s(self.0)
    }

    /// The B-type immediate.
    #[inline]
    pub fn imm_b(&self) -> i64 {
        door::rv_imm_b(self.0)
    }

    /// The U-type immediate.
    #[inline]
    pub fn imm_u(&self) -> i64 {
        door::rv_imm_u(self.0)
    }

    /// The J-type immediate.
    #[inline]
    pub fn imm_j(&self) -> i64 {
        door::rv_imm_j(self.0)
    }

    /// The CSR address, bits 31 to 20.
    #[inline]
    pub fn csr_addr(&self) -> u32 {
        door::rv_csr_addr(self.0)
    }

    /// The operation of an AMO, bits 31 to 27.
    #[inline]
    pub fn funct5(&self) -> u32 {
        door::rv_funct5(self.0)
    }

    /// Whether an AMO acquires, bit 26.
    #[inline]
    pub fn aq(&self) -> bool {
        door::rv_aq(self.0)
    }

    /// Whether an AMO releases, bit 25.
    #[inline]
    pub fn rl(&self) -> bool {
        door::rv_rl(self.0)
    }
}

/// A 16-bit compressed instruction.
#[derive(Clone, Copy, Debug, PartialEq, Eq)]
pub struct CompressedInstruction(pub u16);

impl CompressedInstruction {
    /// Bits 1 to 0.
    #[inline]
    pub fn quadrant(&self) -> u16 {
        door::rv_c_quadrant(self.0)
    }

    /// Bits 15 to 13.
    #[inline]
    pub fn funct3(&self) -> u16 {
        door::rv_c_funct3(self.0)
    }

    /// rs2' of the CL, CS and CA formats, 8 to 15.
    #[inline]
    pub fn rs2_prime(&self) -> usize {
        door::rv_c_rs2_prime(self.0)
    }

    /// rs1' of the CL, CS and CA formats, 8 to 15.
    #[inline]
    pub fn rs1_prime(&self) -> usize {
        door::rv_c_rs1_prime(self.0)
    }

    /// The whole rd or rs1 field of the CR and CI formats, 0 to 31.
    #[inline]
    pub fn rd(&self) -> usize {
        door::rv_c_rd(self.0)
    }

    /// The whole rs2 field of the CR and CSS formats, 0 to 31.
    #[inline]
    pub fn rs2(&self) -> usize {
        door::rv_c_rs2(self.0)
    }
}

/// The low `bits` bits of `val` as a signed number. From 0 or more than 64 bits it is refused.
#[inline]
pub fn sign_extend(val: i64, bits: u32) -> Result<i64, Refusal> {
    let mut out = 0;
    done(door::rv_sign_extend(val, bits, &mut out))?;
    Ok(out)
}
