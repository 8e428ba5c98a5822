//! The registers: 32 integer registers, pc and 32 float registers.
//!
//! ```
//! use leavnnjar::Refusal;
//! use leavnnjar::gpr::Gpr;
//!
//! let mut regs = Gpr::new(0x8000_0000);
//! regs.write(5, 42)?;
//! regs.write(0, 42)?;
//! assert_eq!((regs.read(5)?, regs.read(0)?), (42, 0));
//!
//! // A number over 31 is refused; the masked calls take it modulo 32.
//! assert_eq!(regs.write(37, 1), Err(Refusal::Register));
//! assert_eq!(regs.read_masked(37), 42);
//!
//! // A 32-bit float is kept under 32 one bits. What lacks them reads as NaN.
//! regs.write_f32(1, 0x3F80_0000)?;
//! assert_eq!(regs.read_f(1)?, 0xFFFF_FFFF_3F80_0000);
//! regs.write_f(1, 0xFFFF_FFFE_3F80_0000)?;
//! assert_eq!(regs.read_f32(1)?, 0x7FC0_0000);
//! # Ok::<(), Refusal>(())
//! ```

use crate::answers::{Refusal, done};
use crate::door;
use crate::layout::GPR_WORDS;

const PC: usize = 32;

/// The register file of one hart.
#[derive(Clone, Debug, PartialEq, Eq)]
pub struct Gpr {
    words: [u64; Self::WORDS],
}

impl Gpr {
    /// How many words the state has.
    pub const WORDS: usize = GPR_WORDS;

    /// The registers at the start: integers 0, floats all ones.
    #[inline]
    pub fn new(pc: u64) -> Self {
        let mut words = [0; Self::WORDS];
        door::rv_gpr_new(&mut words, pc);
        Self { words }
    }

    /// The registers that these words hold: x0 to x31, pc, f0 to f31. Any words will do; x0 reads 0
    /// whatever its word is.
    #[inline]
    pub fn from_words(words: [u64; Self::WORDS]) -> Self {
        Self { words }
    }

    /// The whole state: x0 to x31, pc, f0 to f31.
    #[inline]
    pub fn words(&self) -> &[u64; Self::WORDS] {
        &self.words
    }

    /// The whole state, to be changed. Any words will do; x0 reads 0 whatever its word is.
    ///
    /// ```
    /// use leavnnjar::gpr::Gpr;
    ///
    /// // A saved hart comes back: x1 to x31 and pc, as they were written down.
    /// let saved: [u64; 32] = std::array::from_fn(|i| 100 + i as u64);
    /// let mut regs = Gpr::new(0);
    /// regs.words_mut()[1..33].copy_from_slice(&saved);
    /// assert_eq!((regs.read(1), regs.read(31), regs.pc()), (Ok(100), Ok(130), 131));
    /// ```
    #[inline]
    pub fn words_mut(&mut self) -> &mut [u64; Self::WORDS] {
        &mut self.words
    }

    /// The program counter.
    ///
    /// ```
    /// use leavnnjar::gpr::Gpr;
    ///
    /// let mut regs = Gpr::new(0x8000_0000);
    /// regs.set_pc(regs.pc().wrapping_add(4));
    /// assert_eq!(regs.pc(), 0x8000_0004);
    /// ```
    #[inline]
    pub fn pc(&self) -> u64 {
        self.words[PC]
    }

    /// Sets the program counter.
    #[inline]
    pub fn set_pc(&mut self, pc: u64) {
        self.words[PC] = pc;
    }

    /// An integer register. Register 0 reads 0.
    #[inline]
    pub fn read(&self, reg: usize) -> Result<u64, Refusal> {
        let mut out = 0;
        done(door::rv_gpr_read(&self.words, reg, &mut out))?;
        Ok(out)
    }

    /// An integer register, its number taken modulo 32.
    #[inline]
    pub fn read_masked(&self, reg: u8) -> u64 {
        door::rv_gpr_read_masked(&self.words, reg)
    }

    /// Sets an integer register, its number taken modulo 32.
    #[inline]
    pub fn write_masked(&mut self, reg: u8, val: u64) {
        door::rv_gpr_write_masked(&mut self.words, reg, val)
    }

    /// A float register, all 64 bits.
    #[inline]
    pub fn read_f(&self, reg: usize) -> Result<u64, Refusal> {
        let mut out = 0;
        done(door::rv_gpr_read_f(&self.words, reg, &mut out))?;
        Ok(out)
    }

    /// Sets an integer register. A write to register 0 is ignored.
    #[inline]
    pub fn write(&mut self, reg: usize, val: u64) -> Result<(), Refusal> {
        done(door::rv_gpr_write(&mut self.words, reg, val))
    }

    /// Sets a float register, all 64 bits.
    #[inline]
    pub fn write_f(&mut self, reg: usize, val: u64) -> Result<(), Refusal> {
        done(door::rv_gpr_write_f(&mut self.words, reg, val))
    }

    /// Sets a float register to a 32-bit value, with 32 one bits above it.
    #[inline]
    pub fn write_f32(&mut self, reg: usize, val: u32) -> Result<(), Refusal> {
        done(door::rv_gpr_write_f32(&mut self.words, reg, val))
    }

    /// The 32-bit value of a float register, or 0x7FC00000 where the 32 one bits above it are
    /// missing.
    #[inline]
    pub fn read_f32(&self, reg: usize) -> Result<u32, Refusal> {
        let mut out = 0;
        done(door::rv_gpr_read_f32(&self.words, reg, &mut out))?;
        Ok(out)
    }
}
