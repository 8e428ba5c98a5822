//! The CSR file and the choice of an interrupt.
//!
//! ```
//! use leavnnjar::Refusal;
//! use leavnnjar::csr::{Csr, MIDELEG, MIE, MIP, MSTATUS, PrivMode, SATP, SSTATUS};
//!
//! let mut csr = Csr::new();
//! csr.write_register(MSTATUS, u64::MAX, PrivMode::M)?;
//! assert_eq!(csr.read_register(MSTATUS, PrivMode::M)?, 0x8000_000A_007F_FFEA);
//! assert_eq!(csr.read_register(SSTATUS, PrivMode::S)?, 0x8000_0002_000D_E762);
//!
//! // SATP takes modes 0 and 8, its bits 63 to 60. Any other is accepted, and changes nothing.
//! csr.write_register(SATP, 0x8000_0000_0000_0001, PrivMode::M)?;
//! csr.write_register(SATP, 0x9000_0000_0000_0002, PrivMode::M)?;
//! assert_eq!(csr.read_register(SATP, PrivMode::M)?, 0x8000_0000_0000_0001);
//!
//! // There is no CSR 0x7FF. And now TVM is set, which closes SATP to S-mode.
//! assert_eq!(csr.read_register(0x7FF, PrivMode::M), Err(Refusal::CsrAddress));
//! assert_eq!(csr.write_register(SATP, 1, PrivMode::S), Err(Refusal::SatpTrapped));
//!
//! // Bits 1 and 5 are pending and enabled. Both are left to M-mode: 1 comes first.
//! csr.write_register(MIP, 0x22, PrivMode::M)?;
//! csr.write_register(MIE, 0x22, PrivMode::M)?;
//! assert_eq!(csr.pending_interrupt(PrivMode::U), Some(1));
//!
//! // Delegated to S-mode, they wait while the hart is in M-mode.
//! csr.write_register(MIDELEG, 0x22, PrivMode::M)?;
//! assert_eq!(csr.pending_interrupt(PrivMode::M), None);
//! assert_eq!(csr.pending_interrupt(PrivMode::U), Some(1));
//! # Ok::<(), Refusal>(())
//! ```
//!
//! What no CSR write reaches is the host's to set: the interrupts that devices raise, the counters
//! and the number of the hart.
//!
//! ```
//! use leavnnjar::Refusal;
//! use leavnnjar::csr::{Csr, MHARTID, MIE, MIP_MEIP, MIP_MTIP, MSTATUS, MSTATUS_MIE, PrivMode, TIME};
//!
//! let mut csr = Csr::new();
//! csr.set_hart_id(1);
//! assert_eq!(csr.read_register(MHARTID, PrivMode::M)?, 1);
//!
//! // The guest enables the timer's interrupt, and another device's.
//! csr.write_register(MIE, MIP_MTIP | MIP_MEIP, PrivMode::M)?;
//! csr.write_register(MSTATUS, MSTATUS_MIE, PrivMode::M)?;
//!
//! // The board's clock goes on. From 10 on its line is up.
//! let deadline = 10;
//! while csr.pending_interrupt(PrivMode::M).is_none() {
//!     csr.set_cycle(csr.cycle().wrapping_add(100));
//!     csr.set_time(csr.time().wrapping_add(1));
//!     if csr.time() >= deadline {
//!         csr.raise_interrupt(MIP_MTIP);
//!     }
//! }
//! assert_eq!(csr.pending_interrupt(PrivMode::M), Some(7));
//! assert_eq!((csr.read_register(TIME, PrivMode::U)?, csr.cycle()), (10, 1000));
//!
//! // The other device's interrupt comes before the timer's.
//! csr.raise_interrupt(MIP_MEIP);
//! assert_eq!(csr.pending_interrupt(PrivMode::M), Some(11));
//! csr.clear_interrupt(MIP_MTIP | MIP_MEIP);
//! assert_eq!((csr.mip(), csr.pending_interrupt(PrivMode::M)), (0, None));
//! # Ok::<(), Refusal>(())
//! ```

mod fields;

use crate::answers::{Refusal, done};
use crate::door;
use crate::layout::CSR_WORDS;

// Addresses: M-mode.
/// The status of the hart.
pub const MSTATUS: u32 = 0x300;
/// The extensions of the hart; a write is ignored.
pub const MISA: u32 = 0x301;
/// The exceptions that S-mode handles.
pub const MEDELEG: u32 = 0x302;
/// The interrupts that S-mode handles.
pub const MIDELEG: u32 = 0x303;
/// The interrupts enabled.
pub const MIE: u32 = 0x304;
/// The trap handler of M-mode.
pub const MTVEC: u32 = 0x305;
/// The counters that S-mode may read.
pub const MCOUNTEREN: u32 = 0x306;
/// The counters that stand still.
pub const MCOUNTINHIBIT: u32 = 0x320;
/// A word for M-mode's handler.
pub const MSCRATCH: u32 = 0x340;
/// Where M-mode's trap came from.
pub const MEPC: u32 = 0x341;
/// The cause of M-mode's trap.
pub const MCAUSE: u32 = 0x342;
/// The value of M-mode's trap.
pub const MTVAL: u32 = 0x343;
/// The interrupts pending.
pub const MIP: u32 = 0x344;
/// The environment of S- and U-mode.
pub const MENVCFG: u32 = 0x30A;
/// The configuration structure: reads 0.
pub const MCONFIGPTR: u32 = 0xF15;

// Addresses: S-mode.
/// What S-mode sees of the status.
pub const SSTATUS: u32 = 0x100;
/// What S-mode sees of the interrupts enabled: those delegated.
pub const SIE: u32 = 0x104;
/// The trap handler of S-mode.
pub const STVEC: u32 = 0x105;
/// The counters that U-mode may read.
pub const SCOUNTEREN: u32 = 0x106;
/// The environment of U-mode.
pub const SENVCFG: u32 = 0x10A;
/// A word for S-mode's handler.
pub const SSCRATCH: u32 = 0x140;
/// Where S-mode's trap came from.
pub const SEPC: u32 = 0x141;
/// The cause of S-mode's trap.
pub const SCAUSE: u32 = 0x142;
/// The value of S-mode's trap.
pub const STVAL: u32 = 0x143;
/// What S-mode sees of the interrupts pending: those delegated.
pub const SIP: u32 = 0x144;
/// The translation of addresses. A write with a mode other than 0 and 8 is ignored.
pub const SATP: u32 = 0x180;

// Addresses: counters.
/// Cycles, read-only.
pub const CYCLE: u32 = 0xC00;
/// Time, read-only.
pub const TIME: u32 = 0xC01;
/// Instructions retired, read-only.
pub const INSTRET: u32 = 0xC02;
/// Cycles.
pub const MCYCLE: u32 = 0xB00;
/// Instructions retired.
pub const MINSTRET: u32 = 0xB02;

// Addresses: machine information.
/// The vendor: reads 0.
pub const MVENDORID: u32 = 0xF11;
/// The architecture: reads 0.
pub const MARCHID: u32 = 0xF12;
/// The implementation: reads 0.
pub const MIMPID: u32 = 0xF13;
/// The number of the hart.
pub const MHARTID: u32 = 0xF14;

// The fields of mstatus.
/// Interrupts enabled in S-mode.
pub const MSTATUS_SIE: u64 = 1 << 1;
/// Interrupts enabled in M-mode.
pub const MSTATUS_MIE: u64 = 1 << 3;
/// SIE before the trap.
pub const MSTATUS_SPIE: u64 = 1 << 5;
/// U-mode is big-endian.
pub const MSTATUS_UBE: u64 = 1 << 6;
/// MIE before the trap.
pub const MSTATUS_MPIE: u64 = 1 << 7;
/// The mode before the trap into S-mode.
pub const MSTATUS_SPP: u64 = 1 << 8;
/// The state of the vector registers; 3 is dirty.
pub const MSTATUS_VS: u64 = 3 << 9;
/// The mode before the trap into M-mode.
pub const MSTATUS_MPP: u64 = 3 << 11;
/// The state of the float registers; 3 is dirty.
pub const MSTATUS_FS: u64 = 3 << 13;
/// The state of other extensions; 3 is dirty.
pub const MSTATUS_XS: u64 = 3 << 15;
/// Loads and stores as in the mode of MPP.
pub const MSTATUS_MPRV: u64 = 1 << 17;
/// S-mode may use the pages of U-mode.
pub const MSTATUS_SUM: u64 = 1 << 18;
/// Executable pages may be read.
pub const MSTATUS_MXR: u64 = 1 << 19;
/// SATP is closed to S-mode.
pub const MSTATUS_TVM: u64 = 1 << 20;
/// WFI traps below M-mode.
pub const MSTATUS_TW: u64 = 1 << 21;
/// SRET traps in S-mode.
pub const MSTATUS_TSR: u64 = 1 << 22;
/// The width of U-mode; 2 is 64 bits.
pub const MSTATUS_UXL: u64 = 3 << 32;
/// The width of S-mode; 2 is 64 bits.
pub const MSTATUS_SXL: u64 = 3 << 34;
/// S-mode is big-endian.
pub const MSTATUS_SBE: u64 = 1 << 36;
/// M-mode is big-endian.
pub const MSTATUS_MBE: u64 = 1 << 37;
/// FS, XS or VS is dirty; made when it is read.
pub const MSTATUS_SD: u64 = 1 << 63;

// The bits of mip and mie.
/// The software interrupt of S-mode.
pub const MIP_SSIP: u64 = 1 << 1;
/// The software interrupt of M-mode.
pub const MIP_MSIP: u64 = 1 << 3;
/// The timer interrupt of S-mode.
pub const MIP_STIP: u64 = 1 << 5;
/// The timer interrupt of M-mode.
pub const MIP_MTIP: u64 = 1 << 7;
/// The external interrupt of S-mode.
pub const MIP_SEIP: u64 = 1 << 9;
/// The external interrupt of M-mode.
pub const MIP_MEIP: u64 = 1 << 11;

/// The privilege of the hart.
#[derive(Clone, Copy, Debug, PartialEq, Eq)]
pub enum PrivMode {
    /// User.
    U = 0,
    /// Supervisor.
    S = 1,
    /// Machine.
    M = 3,
}

impl PrivMode {
    /// The privilege that the low two bits name. 2 means M.
    #[inline]
    pub fn from_bits(bits: u64) -> Self {
        match bits & 3 {
            0 => PrivMode::U,
            1 => PrivMode::S,
            _ => PrivMode::M,
        }
    }
}

/// The CSR file of one hart.
#[derive(Clone, Debug, PartialEq, Eq)]
pub struct Csr {
    words: [u64; Self::WORDS],
}

impl Default for Csr {
    fn default() -> Self {
        Self::new()
    }
}

impl Csr {
    /// How many words the state has.
    pub const WORDS: usize = CSR_WORDS;

    /// The CSR file at the start: misa 0x800000000014112D, mstatus 0xA00000000, all else 0.
    #[inline]
    pub fn new() -> Self {
        let mut words = [0; Self::WORDS];
        door::rv_csr_new(&mut words);
        Self { words }
    }

    /// The CSR file that these words hold, in the order of [`Csr::words`]. Any words will do.
    #[inline]
    pub fn from_words(words: [u64; Self::WORDS]) -> Self {
        Self { words }
    }

    /// The whole state: mstatus, misa, medeleg, mideleg, mie, mtvec, mcounteren, mcountinhibit,
    /// mscratch, mepc, mcause, mtval, mip, menvcfg, stvec, scounteren, senvcfg, sscratch, sepc,
    /// scause, stval, satp, hart_id, pmpcfg (16), pmpaddr (64), cycle, instret, time, fcsr and
    /// mhpmevent (29).
    #[inline]
    pub fn words(&self) -> &[u64; Self::WORDS] {
        &self.words
    }

    /// The whole state, to be changed. Any words will do.
    ///
    /// Those that are one word of their own have a name beside: see [`Csr::set_mip`] and the like.
    ///
    /// ```
    /// use leavnnjar::csr::{Csr, PrivMode};
    ///
    /// // pmpaddr begins with word 39. Its CSRs begin with 0x3B0.
    /// let mut csr = Csr::new();
    /// csr.words_mut()[39..103].fill(7);
    /// assert_eq!(csr.read_register(0x3EF, PrivMode::M), Ok(7));
    /// ```
    #[inline]
    pub fn words_mut(&mut self) -> &mut [u64; Self::WORDS] {
        &mut self.words
    }

    /// A CSR. Refused are an address that is not listed, and SATP from S-mode while TVM is set; no
    /// other privilege is looked at.
    #[inline]
    pub fn read_register(&self, address: u32, priv_mode: PrivMode) -> Result<u64, Refusal> {
        let mut out = 0;
        let privilege = priv_mode as u64;
        done(door::rv_csr_read(&self.words, address, privilege, &mut out))?;
        Ok(out)
    }

    /// Sets of a CSR what may be written. Refused as the read is. A write to a CSR that is listed
    /// but not kept is ignored, and so is one of SATP with a mode other than 0 and 8.
    #[inline]
    pub fn write_register(
        &mut self,
        address: u32,
        value: u64,
        priv_mode: PrivMode,
    ) -> Result<(), Refusal> {
        let privilege = priv_mode as u64;
        done(door::rv_csr_write(
            &mut self.words,
            address,
            value,
            privilege,
        ))
    }

    /// The number of the interrupt that is taken in this mode, if one is.
    #[inline]
    pub fn pending_interrupt(&self, priv_mode: PrivMode) -> Option<u64> {
        let mut out = 0;
        door::rv_csr_pending(&self.words, priv_mode as u64, &mut out).then_some(out)
    }
}
