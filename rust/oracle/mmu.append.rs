// The state is private. The comparison reads and sets it whole: epoch, load shortcut, store
// shortcut, then the slots. The original keeps no leaf entry in a shortcut: these two words are
// always as in the words beside it. The pointer tables are left out. Each field is named here, so
// that one that the original gains does not go unseen.
use crate::layout::{EPOCH_AT, LOAD_AT, MMU_WORDS, SLOT_WORDS, SLOTS, SLOTS_AT, STORE_AT};

// No slot is left over where the two are gone through together.
const _: () = assert!(TLB_SIZE == SLOTS);

/// The place of a shortcut's leaf entry in it.
const LEAF: usize = 3;

fn oracle_epoch(word: u64) -> u32 {
    u32::try_from(word).expect("an epoch of 32 bits")
}

/// The number of a page's slot, and its words.
fn oracle_slot(words: &[u64; MMU_WORDS], page: u64) -> (usize, &[u64]) {
    let slot = (page % SLOTS as u64) as usize;
    (slot, &words[SLOTS_AT + SLOT_WORDS * slot..][..SLOT_WORDS])
}

impl TlbEntry {
    fn oracle_words(&self) -> [u64; SLOT_WORDS] {
        let Self {
            virt_page_num,
            phys_page_num,
            flags,
            epoch,
        } = *self;
        [virt_page_num, phys_page_num, flags, epoch.into()]
    }

    fn oracle_from(words: &[u64]) -> Self {
        Self {
            virt_page_num: words[0],
            phys_page_num: words[1],
            flags: words[2],
            epoch: oracle_epoch(words[3]),
        }
    }
}

impl Mmu {
    fn oracle_front(&self, beside: &[u64; MMU_WORDS]) -> [u64; SLOTS_AT] {
        let Self {
            tlb: _,
            load_fast: _,
            store_fast: _,
            epoch,
            load_vpage,
            load_ppage,
            load_satp,
            store_vpage,
            store_ppage,
            store_satp,
        } = *self;
        [
            epoch.into(),
            load_vpage,
            load_ppage,
            load_satp,
            beside[LOAD_AT + LEAF],
            store_vpage,
            store_ppage,
            store_satp,
            beside[STORE_AT + LEAF],
        ]
    }

    pub fn oracle_words(&self, beside: &[u64; MMU_WORDS]) -> [u64; MMU_WORDS] {
        let mut words = [0; MMU_WORDS];
        words[..SLOTS_AT].copy_from_slice(&self.oracle_front(beside));
        let slots = words[SLOTS_AT..].chunks_exact_mut(SLOT_WORDS);
        for (slot, its) in self.tlb.iter().zip(slots) {
            its.copy_from_slice(&slot.oracle_words());
        }
        words
    }

    /// Whether these are its words. They are not copied first, and the slots are looked at without a
    /// branch for each.
    pub fn oracle_is(&self, words: &[u64; MMU_WORDS]) -> bool {
        let mut differ = 0;
        let slots = words[SLOTS_AT..].chunks_exact(SLOT_WORDS);
        for (slot, its) in self.tlb.iter().zip(slots) {
            for (word, its) in slot.oracle_words().iter().zip(its) {
                differ |= word ^ its;
            }
        }
        differ == 0 && self.oracle_front(words) == words[..SLOTS_AT]
    }

    /// Whether these are its words where a call on this page may have changed them: all but the other
    /// slots.
    pub fn oracle_is_at(&self, words: &[u64; MMU_WORDS], page: u64) -> bool {
        let (slot, its) = oracle_slot(words, page);
        self.tlb[slot].oracle_words() == *its && self.oracle_front(words) == words[..SLOTS_AT]
    }

    /// The pointer tables are empty.
    pub fn oracle_from(words: &[u64; MMU_WORDS]) -> Self {
        let mut mmu = Self::new();
        mmu.oracle_take_front(words);
        let slots = words[SLOTS_AT..].chunks_exact(SLOT_WORDS);
        for (slot, its) in mmu.tlb.iter_mut().zip(slots) {
            *slot = TlbEntry::oracle_from(its);
        }
        mmu
    }

    /// Takes over what a call on this page may have changed: all but the other slots.
    pub fn oracle_take(&mut self, words: &[u64; MMU_WORDS], page: u64) {
        self.oracle_take_front(words);
        let (slot, its) = oracle_slot(words, page);
        self.tlb[slot] = TlbEntry::oracle_from(its);
    }

    fn oracle_take_front(&mut self, words: &[u64; MMU_WORDS]) {
        self.epoch = oracle_epoch(words[EPOCH_AT]);
        self.load_vpage = words[LOAD_AT];
        self.load_ppage = words[LOAD_AT + 1];
        self.load_satp = words[LOAD_AT + 2];
        self.store_vpage = words[STORE_AT];
        self.store_ppage = words[STORE_AT + 1];
        self.store_satp = words[STORE_AT + 2];
    }
}
