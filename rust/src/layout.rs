//! How many words each state has, and where the parts of the translation state stand in it.
//!
//! ```
//! use leavnnjar::csr::PrivMode;
//! use leavnnjar::layout::{EPOCH_AT, SLOT_WORDS, SLOTS_AT};
//! use leavnnjar::mmu::{Mmu, TranslationError};
//!
//! // A slot counts while its epoch, the fourth of its words, is the state's.
//! let live = |mmu: &Mmu| {
//!     let slots = mmu.words()[SLOTS_AT..].chunks_exact(SLOT_WORDS);
//!     slots.filter(|slot| slot[3] == mmu.words()[EPOCH_AT]).count()
//! };
//!
//! let mut memory = [0; 16384];
//! memory[0x1000] = 0xCF;
//! let mut mmu = Mmu::new();
//! assert_eq!(live(&mmu), 0);
//! mmu.translate_load(0x123, 0x8000_0000_0000_0001, PrivMode::S, 0, &memory)?;
//! assert_eq!(live(&mmu), 1);
//! mmu.flush();
//! assert_eq!(live(&mmu), 0);
//! # Ok::<(), TranslationError>(())
//! ```

/// The registers: x0 to x31, pc, f0 to f31.
pub const GPR_WORDS: usize = 65;

/// The CSR file: the original's fields in their order.
pub const CSR_WORDS: usize = 136;

/// The translation state: the epoch, the load shortcut, the store shortcut, the slots.
pub const MMU_WORDS: usize = SLOTS_AT + SLOTS * SLOT_WORDS;

/// The place of the epoch.
pub const EPOCH_AT: usize = 0;

/// Where the load shortcut begins.
pub const LOAD_AT: usize = 1;

/// Where the store shortcut begins.
pub const STORE_AT: usize = LOAD_AT + SHORTCUT_WORDS;

/// Where the slots begin.
pub const SLOTS_AT: usize = STORE_AT + SHORTCUT_WORDS;

/// A shortcut: page, result page, satp, leaf entry.
pub const SHORTCUT_WORDS: usize = 4;

/// A slot: tag, result page, leaf entry, epoch.
pub const SLOT_WORDS: usize = 4;

/// How many slots there are. That of a page is its number modulo this.
pub const SLOTS: usize = 512;
