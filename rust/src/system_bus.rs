//! Guest memory: bytes that the host lends.
//!
//! An address is taken modulo the length, and values are little-endian. The length must be a power
//! of two from 8 to 2^30: with any other, every call is refused.
//!
//! ```
//! use leavnnjar::Refusal;
//! use leavnnjar::system_bus::FlatMemory;
//!
//! let mut bytes = [0; 16];
//! let mut memory = FlatMemory::new(&mut bytes);
//! memory.write_word(3, 0x0403_0201)?;
//! assert_eq!(memory.read_byte(4)?, 2);
//! assert_eq!(memory.read_halfword(16 + 5)?, 0x0403);
//!
//! // From byte 9 on there are seven bytes, not eight.
//! assert_eq!(memory.read_doubleword(9), Err(Refusal::AccessRange));
//!
//! // Bytes are loaded at a plain offset. At the end there is room for none.
//! memory.load_at(13, &[7, 8, 9])?;
//! assert_eq!(memory.load_at(16, &[]), Ok(()));
//! assert_eq!(memory.load_at(16, &[7]), Err(Refusal::LoadRange));
//! assert_eq!(bytes[12..], [0, 7, 8, 9]);
//!
//! let mut bytes = [0; 12];
//! assert_eq!(FlatMemory::new(&mut bytes).read_byte(0), Err(Refusal::MemoryLength));
//! # Ok::<(), Refusal>(())
//! ```

use crate::answers::{Refusal, done};
use crate::door;

/// Memory that the host owns and has lent.
#[derive(Debug)]
pub struct FlatMemory<'a> {
    data: &'a mut [u8],
}

impl<'a> FlatMemory<'a> {
    /// These bytes as guest memory. A length that does not do is refused by each call.
    #[inline]
    pub fn new(data: &'a mut [u8]) -> Self {
        Self { data }
    }

    /// All bytes, as a translation takes them.
    #[inline]
    pub fn bytes(&self) -> &[u8] {
        self.data
    }

    /// Copies the bytes into the memory from this offset on. The offset is not taken modulo the
    /// length.
    #[inline]
    pub fn load_at(&mut self, offset: usize, bytes: &[u8]) -> Result<(), Refusal> {
        done(door::rv_load_at(self.data, offset, bytes))
    }

    /// The byte at an address.
    #[inline]
    pub fn read_byte(&self, address: u64) -> Result<u8, Refusal> {
        let mut out = 0;
        done(door::rv_read_byte(self.data, address, &mut out))?;
        Ok(out as u8)
    }

    /// The two bytes from an address on.
    #[inline]
    pub fn read_halfword(&self, address: u64) -> Result<u16, Refusal> {
        let mut out = 0;
        done(door::rv_read_halfword(self.data, address, &mut out))?;
        Ok(out as u16)
    }

    /// The four bytes from an address on.
    #[inline]
    pub fn read_word(&self, address: u64) -> Result<u32, Refusal> {
        let mut out = 0;
        done(door::rv_read_word(self.data, address, &mut out))?;
        Ok(out as u32)
    }

    /// The eight bytes from an address on.
    #[inline]
    pub fn read_doubleword(&self, address: u64) -> Result<u64, Refusal> {
        let mut out = 0;
        done(door::rv_read_doubleword(self.data, address, &mut out))?;
        Ok(out)
    }

    /// Sets the byte at an address.
    #[inline]
    pub fn write_byte(&mut self, address: u64, val: u8) -> Result<(), Refusal> {
        done(door::rv_write_byte(self.data, address, val))
    }

    /// Sets the two bytes from an address on.
    #[inline]
    pub fn write_halfword(&mut self, address: u64, val: u16) -> Result<(), Refusal> {
        done(door::rv_write_halfword(self.data, address, val))
    }

    /// Sets the four bytes from an address on.
    #[inline]
    pub fn write_word(&mut self, address: u64, val: u32) -> Result<(), Refusal> {
        done(door::rv_write_word(self.data, address, val))
    }

    /// Sets the eight bytes from an address on.
    #[inline]
    pub fn write_doubleword(&mut self, address: u64, val: u64) -> Result<(), Refusal> {
        done(door::rv_write_doubleword(self.data, address, val))
    }
}
