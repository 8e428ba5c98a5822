//! The numbers that the library answers with.

use std::fmt;

/// Why a call was refused. A refused call gives no value and changes nothing.
///
/// The original panics in most of these cases.
///
/// ```
/// use leavnnjar::Refusal;
/// use leavnnjar::gpr::Gpr;
///
/// let refusal = Gpr::new(0).read(32).unwrap_err();
/// assert_eq!(refusal, Refusal::Register);
/// assert_eq!(refusal.number(), 1);
/// assert_eq!(refusal.to_string(), "register number over 31");
/// ```
#[derive(Clone, Copy, Debug, PartialEq, Eq)]
#[repr(u32)]
pub enum Refusal {
    /// A register number over 31. The masked calls take it modulo 32 and are never refused.
    Register = 1,
    /// A CSR address that the CSR file does not list.
    CsrAddress = 2,
    /// SATP from S-mode while mstatus.TVM is set.
    SatpTrapped = 3,
    /// A memory whose length is no power of two, or under 8, or over 2^30.
    MemoryLength = 4,
    /// An access that begins in the memory and ends outside it.
    AccessRange = 5,
    /// A load of bytes that does not fit into the memory.
    LoadRange = 6,
    /// Sign extension from 0 or from more than 64 bits.
    ExtensionWidth = 7,
}

impl Refusal {
    const ALL: [Self; 7] = [
        Self::Register,
        Self::CsrAddress,
        Self::SatpTrapped,
        Self::MemoryLength,
        Self::AccessRange,
        Self::LoadRange,
        Self::ExtensionWidth,
    ];

    /// The number by which the library gives this refusal.
    pub fn number(self) -> u32 {
        self as u32
    }
}

impl fmt::Display for Refusal {
    fn fmt(&self, f: &mut fmt::Formatter<'_>) -> fmt::Result {
        f.write_str(match self {
            Self::Register => "register number over 31",
            Self::CsrAddress => "no such CSR address",
            Self::SatpTrapped => "SATP is closed to S-mode by TVM",
            Self::MemoryLength => "memory length is no power of two from 8 to 2^30",
            Self::AccessRange => "access runs over the end of the memory",
            Self::LoadRange => "load range exceeds the memory",
            Self::ExtensionWidth => "sign extension from 0 or over 64 bits",
        })
    }
}

impl std::error::Error for Refusal {}

/// What the library's answer says: done, or refused.
#[inline]
pub(crate) fn done(answer: u32) -> Result<(), Refusal> {
    match answer {
        0 => Ok(()),
        _ => Err(refusal(answer)),
    }
}

/// The refusal of this number. Apart from `done`, so that what is done costs a host one test.
#[cold]
pub(crate) fn refusal(answer: u32) -> Refusal {
    let refusal = Refusal::ALL.into_iter().find(|r| r.number() == answer);
    refusal.unwrap_or_else(|| panic!("the library never answers {answer} here"))
}
