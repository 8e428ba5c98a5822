//! Translation of addresses: the Sv39 walk, the slots of its cache, and a shortcut each for loads
//! and stores; for whom a page is there is asked at every call.
//!
//! ```
//! use leavnnjar::Refusal;
//! use leavnnjar::csr::PrivMode::S;
//! use leavnnjar::mmu::{Mmu, MmuFault, Translation, TranslationError};
//! use leavnnjar::system_bus::FlatMemory;
//!
//! // Three tables, at 0x1000, 0x2000 and 0x3000. The last maps page 0 to page 5.
//! let satp = 0x8000_0000_0000_0001;
//! let mut bytes = [0; 16384];
//! let mut memory = FlatMemory::new(&mut bytes);
//! memory.write_doubleword(0x1000, 0x801)?;
//! memory.write_doubleword(0x2000, 0xC01)?;
//! memory.write_doubleword(0x3000, 0x14CF)?;
//!
//! // The hart is in S-mode, and its mstatus is 0.
//! let mut mmu = Mmu::new();
//! let walked = mmu.translate_load(0x123, satp, S, 0, memory.bytes())?;
//! assert_eq!(walked, Translation { address: 0x5123, reads: 3 });
//!
//! // Asked again, the tables are not read. So a change to them is not seen before a flush.
//! memory.write_doubleword(0x3000, 0)?;
//! let cached = mmu.translate_load(0x456, satp, S, 0, memory.bytes())?;
//! assert_eq!(cached, Translation { address: 0x5456, reads: 0 });
//! mmu.flush();
//! let gone = mmu.translate_load(0x456, satp, S, 0, memory.bytes());
//! let fault = MmuFault::LoadPageFault(0x456);
//! assert_eq!(gone, Err(TranslationError::Fault { fault, reads: 3 }));
//!
//! // The length of the memory is looked at first, even where satp says that nothing is paged.
//! let refused = mmu.translate_load(0x123, 0, S, 0, &[0; 12]);
//! assert_eq!(refused, Err(TranslationError::Refused(Refusal::MemoryLength)));
//! # Ok::<(), TranslationError>(())
//! ```
//!
//! A page has U set, and is user mode's, or not, and is the supervisor's. A page that is kept is
//! asked again at each call, so that a host need not flush where the hart's privilege or its mstatus
//! changes:
//!
//! ```
//! use leavnnjar::csr::PrivMode::{M, S, U};
//! use leavnnjar::csr::{MSTATUS_MPRV, MSTATUS_MXR, MSTATUS_SUM};
//! use leavnnjar::mmu::{Mmu, TranslationError};
//!
//! // Page 0 is the supervisor's, page 1 is user mode's, and of page 2 its code.
//! let satp = 0x8000_0000_0000_0001;
//! let mut memory = [0; 16384];
//! let entries = [
//!     (0x1000, 0x801),
//!     (0x2000, 0xC01),
//!     (0x3000, 0x14CF),
//!     (0x3008, 0x18DF),
//!     (0x3010, 0x1CD9),
//! ];
//! for (place, entry) in entries {
//!     memory[place..place + 8].copy_from_slice(&u64::to_le_bytes(entry));
//! }
//! let mut mmu = Mmu::new();
//!
//! // User mode reads its own page, and no supervisor's.
//! assert_eq!(mmu.translate_load(0x1000, satp, U, 0, &memory)?.address, 0x6000);
//! assert!(mmu.translate_load(0x0, satp, U, 0, &memory).is_err());
//!
//! // The supervisor reads the user's page while SUM is set. It never executes it.
//! assert!(mmu.translate_load(0x1000, satp, S, 0, &memory).is_err());
//! assert_eq!(mmu.translate_load(0x1000, satp, S, MSTATUS_SUM, &memory)?.address, 0x6000);
//! assert!(mmu.translate_load(0x1000, satp, S, 0, &memory).is_err());
//! assert!(mmu.translate_fetch(0x1000, satp, S, MSTATUS_SUM, &memory).is_err());
//!
//! // Code is read while MXR is set.
//! assert!(mmu.translate_load(0x2000, satp, U, 0, &memory).is_err());
//! assert_eq!(mmu.translate_load(0x2000, satp, U, MSTATUS_MXR, &memory)?.address, 0x7000);
//!
//! // In M-mode nothing is paged; but with MPRV loads and stores are as in the mode of MPP, here U.
//! assert_eq!(mmu.translate_load(0x1000, satp, M, 0, &memory)?.address, 0x1000);
//! assert_eq!(mmu.translate_load(0x1000, satp, M, MSTATUS_MPRV, &memory)?.address, 0x6000);
//! assert_eq!(mmu.translate_fetch(0x1000, satp, M, MSTATUS_MPRV, &memory)?.address, 0x1000);
//! # Ok::<(), TranslationError>(())
//! ```
//!
//! The manual refuses these, and each is a page fault. Neither A nor D is ever set here: a guest's kernel does it,
//! where a page without them faults.
//!
//! ```
//! use leavnnjar::csr::PrivMode::S;
//! use leavnnjar::mmu::{Mmu, MmuFault, TranslationError};
//!
//! let satp = 0x8000_0000_0000_0001;
//! let mut memory = [0; 16384];
//! let mut load = |address, satp, entry: u64| {
//!     memory[0x1000..0x1008].copy_from_slice(&entry.to_le_bytes());
//!     Mmu::new().translate_load(address, satp, S, 0, &memory)
//! };
//! let fault = |address, reads| {
//!     let fault = MmuFault::LoadPageFault(address);
//!     Err(TranslationError::Fault { fault, reads })
//! };
//! assert_eq!(load(0x123, satp, 0xCF)?.address, 0x123);
//!
//! // Bits 63 to 39 are no copies of bit 38. No entry is read.
//! assert_eq!(load(1 << 39 | 0x123, satp, 0xCF), fault(1 << 39 | 0x123, 0));
//!
//! // A leaf without A; W without R; bit 54 of an entry, or one above it, set.
//! for entry in [0x8F, 0xCD, 1 << 54 | 0xCF] {
//!     assert_eq!(load(0x123, satp, entry), fault(0x123, 1));
//! }
//!
//! // satp's modes are 0, where nothing is paged, and 8.
//! assert_eq!(load(0x123, satp | 1 << 60, 0xCF), fault(0x123, 0));
//! # Ok::<(), TranslationError>(())
//! ```
//!
//! A leaf further up maps a superpage, and must be aligned to it:
//!
//! ```
//! use leavnnjar::csr::PrivMode::S;
//! use leavnnjar::mmu::{Mmu, MmuFault, Translation, TranslationError};
//!
//! let satp = 0x8000_0000_0000_0001;
//! let mut memory = [0; 16384];
//! memory[0x1000] = 0xCF;
//! let mut mmu = Mmu::new();
//! let last = mmu.translate_load(0x3FFF_FFFF, satp, S, 0, &memory)?;
//! assert_eq!(last, Translation { address: 0x3FFF_FFFF, reads: 1 });
//! let fault = MmuFault::LoadPageFault(0x4000_0000);
//! let beyond = mmu.translate_load(0x4000_0000, satp, S, 0, &memory);
//! assert_eq!(beyond, Err(TranslationError::Fault { fault, reads: 1 }));
//!
//! // Page 1 is no multiple of 2^18. And 0x401 is a pointer to its own table, three times.
//! for (entry, reads) in [(0x4CF_u16, 1), (0x401, 3)] {
//!     memory[0x1000..0x1002].copy_from_slice(&entry.to_le_bytes());
//!     let fault = MmuFault::LoadPageFault(0);
//!     let answer = Mmu::new().translate_load(0, satp, S, 0, &memory);
//!     assert_eq!(answer, Err(TranslationError::Fault { fault, reads }));
//! }
//! # Ok::<(), TranslationError>(())
//! ```

use std::fmt;

use crate::answers::{Refusal, refusal};
use crate::csr::PrivMode;
use crate::door;
use crate::layout::MMU_WORDS;

/// A translation that succeeded.
#[derive(Clone, Copy, Debug, PartialEq, Eq)]
pub struct Translation {
    /// The address in memory, not yet taken modulo its length.
    pub address: u64,
    /// How many table entries were read: 0 from the cache or where nothing is paged, else 1 to 3.
    pub reads: u64,
}

/// A page fault, with the address that was asked for.
#[derive(Clone, Copy, Debug, PartialEq, Eq)]
pub enum MmuFault {
    /// A load has no page that it may read.
    LoadPageFault(u64),
    /// A store has no page that it may write.
    StorePageFault(u64),
    /// A fetch has no page that it may execute.
    InstructionPageFault(u64),
}

impl MmuFault {
    /// The code of the trap.
    #[inline]
    pub fn mcause(&self) -> u64 {
        match self {
            Self::InstructionPageFault(_) => 12,
            Self::LoadPageFault(_) => 13,
            Self::StorePageFault(_) => 15,
        }
    }

    /// The value of the trap: the address that was asked for.
    #[inline]
    pub fn tval(&self) -> u64 {
        match self {
            Self::LoadPageFault(address)
            | Self::StorePageFault(address)
            | Self::InstructionPageFault(address) => *address,
        }
    }
}

/// Why there is no translation. Neither changes the state.
#[derive(Clone, Copy, Debug, PartialEq, Eq)]
pub enum TranslationError {
    /// The call was refused: the length of the memory does not do.
    Refused(Refusal),
    /// The tables do not allow the access, or satp and the address lead to none.
    Fault {
        /// The kind of fault, and the address that was asked for.
        fault: MmuFault,
        /// How many table entries were read, the one that it faulted on included: 0 where satp's mode
        /// or the address is refused, else 1 to 3.
        reads: u64,
    },
}

impl From<Refusal> for TranslationError {
    fn from(refusal: Refusal) -> Self {
        Self::Refused(refusal)
    }
}

impl fmt::Display for TranslationError {
    fn fmt(&self, f: &mut fmt::Formatter<'_>) -> fmt::Result {
        let (kind, address, reads) = match self {
            Self::Refused(refusal) => return refusal.fmt(f),
            Self::Fault { fault, reads } => match fault {
                MmuFault::LoadPageFault(address) => ("load", address, reads),
                MmuFault::StorePageFault(address) => ("store", address, reads),
                MmuFault::InstructionPageFault(address) => ("instruction", address, reads),
            },
        };
        write!(f, "{kind} page fault at {address:#x} after {reads} reads")
    }
}

impl std::error::Error for TranslationError {}

/// The translation state of one hart: an epoch, two shortcuts and [`SLOTS`](crate::layout::SLOTS)
/// slots.
///
/// The state knows nothing of the memory that it was filled from. A host that changes the tables,
/// satp or the length of the memory calls [`Mmu::flush`]. It need not where the hart's privilege or
/// its mstatus changes: a call is told both, and a page that is kept serves it only if it may use it.
///
/// Loads and stores, [`Mmu::translate_readable`] too, go by the mode of MPP while MPRV is set, else
/// by the hart's own, and a fetch always by the hart's own. In M-mode nothing is paged, nor where satp's
/// mode is 0. By any mode but 0 and 8 everything else faults, also where a page is kept.
#[derive(Clone, Debug, PartialEq, Eq)]
pub struct Mmu {
    words: Box<[u64; Self::WORDS]>,
}

impl Default for Mmu {
    fn default() -> Self {
        Self::new()
    }
}

impl Mmu {
    /// How many words the state has.
    pub const WORDS: usize = MMU_WORDS;

    /// The state at the start: epoch 1, nothing kept.
    #[inline]
    pub fn new() -> Self {
        let mut words = Box::new([0; Self::WORDS]);
        door::rv_mmu_new(&mut words);
        Self { words }
    }

    /// The state that these words hold, in the order of [`Mmu::words`]. Any words will do.
    #[inline]
    pub fn from_words(words: [u64; Self::WORDS]) -> Self {
        Self {
            words: Box::new(words),
        }
    }

    /// The whole state: the epoch; page, result page, satp and leaf entry of the load shortcut; the
    /// same of the store shortcut; then the slots, each of tag, result page, leaf entry and epoch.
    /// [`layout`](crate::layout) has their places.
    #[inline]
    pub fn words(&self) -> &[u64; Self::WORDS] {
        &self.words
    }

    /// The whole state, to be changed. Any words will do.
    #[inline]
    pub fn words_mut(&mut self) -> &mut [u64; Self::WORDS] {
        &mut self.words
    }

    /// Forgets all that is kept.
    ///
    /// The slots stay, but their epoch is over. 2^32 - 1 flushes later it comes round.
    #[inline]
    pub fn flush(&mut self) {
        door::rv_flush(&mut self.words);
    }

    /// Where an instruction at this address is fetched from.
    #[inline]
    pub fn translate_fetch(
        &mut self,
        address: u64,
        satp: u64,
        priv_mode: PrivMode,
        mstatus: u64,
        memory: &[u8],
    ) -> Result<Translation, TranslationError> {
        let privilege = priv_mode as u64;
        let mut out = [0; 2];
        let answer = door::rv_translate_fetch(
            &mut self.words,
            memory,
            address,
            satp,
            privilege,
            mstatus,
            &mut out,
        );
        translated(answer, out)
    }

    /// Where a load from this address goes, by a walk that neither uses nor changes a state.
    #[inline]
    pub fn translate_readable(
        address: u64,
        satp: u64,
        priv_mode: PrivMode,
        mstatus: u64,
        memory: &[u8],
    ) -> Result<Translation, TranslationError> {
        let privilege = priv_mode as u64;
        let mut out = [0; 2];
        let answer =
            door::rv_translate_readable(memory, address, satp, privilege, mstatus, &mut out);
        translated(answer, out)
    }

    /// Where a load from this address goes.
    #[inline]
    pub fn translate_load(
        &mut self,
        address: u64,
        satp: u64,
        priv_mode: PrivMode,
        mstatus: u64,
        memory: &[u8],
    ) -> Result<Translation, TranslationError> {
        let privilege = priv_mode as u64;
        let mut out = [0; 2];
        let answer = door::rv_translate_load(
            &mut self.words,
            memory,
            address,
            satp,
            privilege,
            mstatus,
            &mut out,
        );
        translated(answer, out)
    }

    /// Where a store to this address goes.
    ///
    /// The leaf entry must have D, and none is set here. A page that a load or a fetch found without D
    /// is kept, but serves no store: the tables are asked, and no flush is needed once D is set there.
    ///
    /// ```
    /// use leavnnjar::csr::PrivMode::S;
    /// use leavnnjar::mmu::{Mmu, MmuFault, TranslationError};
    ///
    /// // Page 0 is mapped to page 5, without D.
    /// let satp = 0x8000_0000_0000_0001;
    /// let mut memory = [0; 16384];
    /// for (place, entry) in [(0x1000, 0x801), (0x2000, 0xC01), (0x3000, 0x144F)] {
    ///     memory[place..place + 8].copy_from_slice(&u64::to_le_bytes(entry));
    /// }
    ///
    /// let mut mmu = Mmu::new();
    /// assert_eq!(mmu.translate_load(0x123, satp, S, 0, &memory)?.reads, 3);
    /// let fault = MmuFault::StorePageFault(0x123);
    /// let answer = mmu.translate_store(0x123, satp, S, 0, &memory);
    /// assert_eq!(answer, Err(TranslationError::Fault { fault, reads: 3 }));
    ///
    /// // The guest sets D.
    /// memory[0x3000] |= 0x80;
    /// assert_eq!(mmu.translate_store(0x123, satp, S, 0, &memory)?.reads, 3);
    /// assert_eq!(mmu.translate_store(0x123, satp, S, 0, &memory)?.reads, 0);
    /// # Ok::<(), TranslationError>(())
    /// ```
    #[inline]
    pub fn translate_store(
        &mut self,
        address: u64,
        satp: u64,
        priv_mode: PrivMode,
        mstatus: u64,
        memory: &[u8],
    ) -> Result<Translation, TranslationError> {
        let privilege = priv_mode as u64;
        let mut out = [0; 2];
        let answer = door::rv_translate_store(
            &mut self.words,
            memory,
            address,
            satp,
            privilege,
            mstatus,
            &mut out,
        );
        translated(answer, out)
    }
}

/// What the library's answer to a translation says. On a fault `out` has the address asked for.
#[inline]
fn translated(answer: u32, out: [u64; 2]) -> Result<Translation, TranslationError> {
    let [address, reads] = out;
    let fault = match answer {
        0 => return Ok(Translation { address, reads }),
        12 => MmuFault::InstructionPageFault(address),
        13 => MmuFault::LoadPageFault(address),
        15 => MmuFault::StorePageFault(address),
        _ => return Err(refusal(answer).into()),
    };
    Err(TranslationError::Fault { fault, reads })
}
