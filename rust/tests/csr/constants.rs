//! The wrapper's constants are the original's: the same names with the same values, and no others.

use leavnnjar::csr as ours;
use oracle::csr as original;

use crate::common::Tally;

/// The two files that declare them.
const OURS: &str = include_str!("../../src/csr.rs");
const ORIGINAL: &str = include_str!("../../../target/oracle/csr.rs");

type Row = (&'static str, u64, u64);

/// The values by this name, of one type: the wrapper's, and the original's.
fn row<T: Into<u64>>(name: &'static str, ours: T, original: T) -> Row {
    (name, ours.into(), original.into())
}

macro_rules! rows {
    ($($name:ident)*) => {
        [$(row(stringify!($name), ours::$name, original::$name)),*]
    };
}

/// Each constant's values. That no name is missing here is seen in the two files.
pub fn compare(tally: &mut Tally) {
    let rows = rows! {
        MSTATUS MISA MEDELEG MIDELEG MIE MTVEC MCOUNTEREN MCOUNTINHIBIT MSCRATCH MEPC MCAUSE MTVAL MIP
        MENVCFG MCONFIGPTR
        SSTATUS SIE STVEC SCOUNTEREN SENVCFG SSCRATCH SEPC SCAUSE STVAL SIP SATP
        CYCLE TIME INSTRET MCYCLE MINSTRET
        MVENDORID MARCHID MIMPID MHARTID
        MSTATUS_SIE MSTATUS_MIE MSTATUS_SPIE MSTATUS_UBE MSTATUS_MPIE MSTATUS_SPP MSTATUS_VS
        MSTATUS_MPP MSTATUS_FS MSTATUS_XS MSTATUS_MPRV MSTATUS_SUM MSTATUS_MXR MSTATUS_TVM MSTATUS_TW
        MSTATUS_TSR MSTATUS_UXL MSTATUS_SXL MSTATUS_SBE MSTATUS_MBE MSTATUS_SD
        MIP_SSIP MIP_MSIP MIP_STIP MIP_MTIP MIP_SEIP MIP_MEIP
    };

    for (name, answer, expected) in rows {
        tally.calls("constant", 1);
        if answer != expected {
            tally.differ("constant", name, answer, "original", expected);
        }
    }

    let compared = rows.map(|(name, ..)| name);
    let (mut ours, original) = (declared(OURS), declared(ORIGINAL));
    // `Csr::WORDS` is the wrapper's own.
    ours.retain(|&name| name != "WORDS");
    for name in [&compared[..], &ours, &original].concat() {
        let seen = [&compared[..], &ours, &original].map(|names| names.contains(&name));
        if seen != [true; 3] {
            let [compared, ours, original] =
                seen.map(|is| if is { "has it" } else { "has it not" });
            tally.differ(
                "constant",
                (name, "the comparison", compared),
                ours,
                "original",
                original,
            );
        }
    }
}

/// The names of a file's public constants.
fn declared(text: &'static str) -> Vec<&'static str> {
    let lines = text.lines().map(str::trim_start);
    let constants = lines.filter_map(|line| line.strip_prefix("pub const "));
    constants
        .filter_map(|rest| rest.split(':').next())
        .collect()
}
