//! A call and for whom it is made: the effective privilege, whether satp pages it, and what a leaf entry
//! allows it (Volume II, "Virtual Address Translation Process" and "Memory Privilege in mstatus
//! Register"). Neither A nor D is ever set here: where one is missing the access is not allowed.

/// What an address is translated for. `translate_readable` is a load that uses no state.
#[derive(Clone, Copy, Debug, PartialEq, Eq)]
pub enum Kind {
    Fetch,
    Load,
    Store,
    Readable,
}

/// The privileges. 2, which is no mode, means M.
#[derive(Clone, Copy, Debug, PartialEq, Eq)]
pub enum Mode {
    U,
    S,
    M,
}

impl Mode {
    pub fn of(bits: u64) -> Self {
        match bits % 4 {
            0 => Self::U,
            1 => Self::S,
            _ => Self::M,
        }
    }
}

// Bits of mstatus. MPP has two, from this on.
pub const MPP_FROM: u32 = 11;
pub const MPRV: u64 = 1 << 17;
pub const SUM: u64 = 1 << 18;
pub const MXR: u64 = 1 << 19;

// Bits of a table entry.
pub const V: u64 = 1 << 0;
pub const R: u64 = 1 << 1;
pub const W: u64 = 1 << 2;
pub const X: u64 = 1 << 3;
pub const U: u64 = 1 << 4;
pub const A: u64 = 1 << 6;
pub const D: u64 = 1 << 7;

// Modes of satp, its bits 63 to 60. There are no others.
pub const BARE: u64 = 0;
pub const SV39: u64 = 8;

/// All that is asked of a translation, but for the state and the memory.
#[derive(Clone, Copy, Debug)]
pub struct Call {
    pub kind: Kind,
    pub address: u64,
    pub satp: u64,
    /// The hart's.
    pub privilege: u64,
    pub mstatus: u64,
}

impl Call {
    /// The privilege that counts: that of MPP while MPRV is set, unless this is a fetch.
    pub fn mode(self) -> Mode {
        let by_mpp = self.mstatus & MPRV != 0 && self.kind != Kind::Fetch;
        match by_mpp {
            true => Mode::of(self.mstatus >> MPP_FROM),
            false => Mode::of(self.privilege),
        }
    }

    pub fn is_paged(self) -> bool {
        self.mode() != Mode::M && self.satp >> 60 != BARE
    }

    /// Whether a paged call has tables to go by: satp's mode is one that there is.
    pub fn is_by_sv39(self) -> bool {
        self.satp >> 60 == SV39
    }

    /// The virtual page.
    pub fn page(self) -> u64 {
        self.address >> 12
    }

    /// Whether a leaf entry allows the access, by the bits in force now. It is asked alike of a leaf that
    /// a walk comes to and of one that is kept. M comes to none.
    pub fn is_allowed_by(self, leaf: u64) -> bool {
        let has = |bit: u64| leaf & bit != 0;
        let is_set = |bit: u64| self.mstatus & bit != 0;

        let for_mode = match self.mode() {
            Mode::U => has(U),
            Mode::S => !has(U) || (is_set(SUM) && self.kind != Kind::Fetch),
            Mode::M => false,
        };
        let for_kind = match self.kind {
            Kind::Fetch => has(X),
            Kind::Load | Kind::Readable => has(R) || (is_set(MXR) && has(X)),
            Kind::Store => has(W) && has(D),
        };
        for_mode && for_kind && has(A)
    }
}
