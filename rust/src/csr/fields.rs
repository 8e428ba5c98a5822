//! The words of the CSR file by name: what a board sets from outside, and what the hart's own
//! instructions set past the masks of a CSR write.

use super::Csr;

/// For each field of the original that is one word: its place in [`Csr::words`], the names by which
/// it is read and set, and what it is.
macro_rules! fields {
    ($($place:literal $name:ident $set:ident $what:literal)*) => {
        /// The words by the names of the original's fields. They are read and set whole: no mask, no
        /// rule and no privilege is looked at.
        impl Csr {
            $(
                #[doc = $what]
                #[inline]
                pub fn $name(&self) -> u64 {
                    self.words[$place]
                }

                #[doc = concat!("Sets [`", stringify!($name), "`](Csr::", stringify!($name), ").")]
                #[inline]
                pub fn $set(&mut self, value: u64) {
                    self.words[$place] = value;
                }
            )*
        }
    };
}

fields! {
    0 mstatus set_mstatus "The status. Bit 63 is made when MSTATUS is read: here it is as it was set."
    1 misa set_misa "The extensions of the hart. A write to MISA does not change them."
    2 medeleg set_medeleg "The exceptions that S-mode handles."
    3 mideleg set_mideleg "The interrupts that S-mode handles."
    4 mie set_mie "The interrupts enabled."
    5 mtvec set_mtvec "The trap handler of M-mode."
    6 mcounteren set_mcounteren "The counters that S-mode may read."
    7 mcountinhibit set_mcountinhibit "The counters that stand still. It is for the host to heed."
    8 mscratch set_mscratch "A word for M-mode's handler."
    9 mepc set_mepc "Where M-mode's trap came from."
    10 mcause set_mcause "The cause of M-mode's trap."
    11 mtval set_mtval "The value of M-mode's trap."
    12 mip set_mip "The interrupts pending. Of MIP only SSIP, MSIP and STIP can be written."
    13 menvcfg set_menvcfg "The environment of S- and U-mode."
    14 stvec set_stvec "The trap handler of S-mode."
    15 scounteren set_scounteren "The counters that U-mode may read."
    16 senvcfg set_senvcfg "The environment of U-mode."
    17 sscratch set_sscratch "A word for S-mode's handler."
    18 sepc set_sepc "Where S-mode's trap came from."
    19 scause set_scause "The cause of S-mode's trap."
    20 stval set_stval "The value of S-mode's trap."
    21 satp set_satp "The translation of addresses, as a translation takes it. TVM and mode are not looked at."
    22 hart_id set_hart_id "The number of the hart. A write to MHARTID does not change it."
    103 cycle set_cycle "Cycles, which the host counts."
    104 instret set_instret "Instructions retired, which the host counts."
    105 time set_time "Time, which the host counts. No CSR write changes it."
    106 fcsr set_fcsr "The rounding mode and the flags of float instructions."
}

/// The lines by which devices interrupt the hart.
impl Csr {
    /// Sets bits of mip, any of them, and leaves the others: a device asks for an interrupt.
    ///
    /// ```
    /// use leavnnjar::Refusal;
    /// use leavnnjar::csr::{Csr, MIE, MIP, MIP_MTIP, PrivMode};
    ///
    /// let mut csr = Csr::new();
    /// csr.write_register(MIE, MIP_MTIP, PrivMode::M)?;
    ///
    /// // The timer's bit is the device's: no CSR write raises it.
    /// csr.write_register(MIP, MIP_MTIP, PrivMode::M)?;
    /// assert_eq!(csr.pending_interrupt(PrivMode::U), None);
    /// csr.raise_interrupt(MIP_MTIP);
    /// assert_eq!(csr.pending_interrupt(PrivMode::U), Some(7));
    /// csr.clear_interrupt(MIP_MTIP);
    /// assert_eq!(csr.pending_interrupt(PrivMode::U), None);
    /// # Ok::<(), Refusal>(())
    /// ```
    #[inline]
    pub fn raise_interrupt(&mut self, bits: u64) {
        self.set_mip(self.mip() | bits);
    }

    /// Clears bits of mip, any of them, and leaves the others: a device no longer asks.
    #[inline]
    pub fn clear_interrupt(&mut self, bits: u64) {
        self.set_mip(self.mip() & !bits);
    }
}
