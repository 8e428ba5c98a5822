//! A translation state whose calls are recorded.

use oracle::counted::Counted;
use oracle::layout::{EPOCH_AT, SHORTCUT_WORDS, SLOT_WORDS, SLOTS, SLOTS_AT};
use oracle::mmu::Mmu;
use oracle::rules::mmu::{Call, Kind, State, original};

use super::{CALLER, FETCH, FLUSH, LENGTH, LOAD, NEW, SET, STORE, STORE_ENTRY};
use crate::list::{Change, List, changed, not_zero};

pub struct Cache<'a> {
    list: &'a mut List,
    rule: State,
    original: Box<Mmu>,
    pub memory: Vec<u8>,
    privilege: u64,
    mstatus: u64,
    /// The translations that the original no longer decides.
    pub by_rule: usize,
}

impl<'a> Cache<'a> {
    /// A new state, over a memory of zeros. Calls are made in S with mstatus 0, until it is said
    /// otherwise.
    pub fn new(list: &'a mut List) -> Self {
        let cache = Self {
            list,
            rule: State::new(),
            original: Box::new(Mmu::new()),
            memory: vec![0; LENGTH],
            privilege: 1,
            mstatus: 0,
            by_rule: 0,
        };
        cache.assert_alike();
        cache
            .list
            .answer(NEW, &[], &[0], &not_zero(&*cache.rule.words));
        cache
            .list
            .set(CALLER, &[cache.privilege, cache.mstatus], &[]);
        cache
    }

    /// From here on calls are made so.
    pub fn caller(&mut self, privilege: u64, mstatus: u64) {
        if (privilege, mstatus) != (self.privilege, self.mstatus) {
            (self.privilege, self.mstatus) = (privilege, mstatus);
            self.list.set(CALLER, &[privilege, mstatus], &[]);
        }
    }

    pub fn set(&mut self, changes: &[Change]) {
        for &(place, value) in changes {
            self.rule.words[place] = value;
        }
        *self.original = Mmu::oracle_from(&self.rule.words);
        self.list.set(SET, &[], changes);
    }

    /// The page's slot, live, as no walk filled it.
    pub fn set_slot(&mut self, page: u64, frame: u64, leaf: u64) {
        let at = SLOTS_AT + SLOT_WORDS * (page as usize % SLOTS);
        let epoch = self.rule.words[EPOCH_AT];
        self.set_from(at, [page, frame, leaf, epoch]);
    }

    /// A shortcut as no call set it: page, result page, satp, leaf entry.
    pub fn set_shortcut(&mut self, at: usize, words: [u64; SHORTCUT_WORDS]) {
        self.set_from(at, words);
    }

    fn set_from<const N: usize>(&mut self, at: usize, words: [u64; N]) {
        let changes: Vec<Change> = (at..).zip(words).collect();
        self.set(&changes);
    }

    pub fn entry(&mut self, address: usize, entry: u64) {
        self.memory[address..address + 8].copy_from_slice(&entry.to_le_bytes());
        self.list.set(STORE_ENTRY, &[address as u64, entry], &[]);
    }

    pub fn flush(&mut self) {
        let before = self.rule.words.clone();
        self.rule.flush();
        self.original.flush();
        self.assert_alike();
        let changes = changed(&*before, &*self.rule.words);
        self.list.answer(FLUSH, &[], &[0], &changes);
    }

    pub fn ask(&mut self, kind: u64, address: u64, satp: u64) {
        self.ask_of(LENGTH, kind, address, satp);
    }

    pub fn ask_of(&mut self, length: usize, kind: u64, address: u64, satp: u64) {
        let memory = &self.memory[..length];
        let call = Call {
            kind: match kind {
                FETCH => Kind::Fetch,
                LOAD => Kind::Load,
                STORE => Kind::Store,
                _ => Kind::Readable,
            },
            address,
            satp,
            privilege: self.privilege,
            mstatus: self.mstatus,
        };
        let decided = original::decides(&self.rule, call, memory);
        let before = self.rule.words.clone();
        let answer = self.rule.translate(call, memory);
        if decided {
            let by_original =
                original::translate(&mut self.original, call, &mut Counted::new(memory));
            assert_eq!(by_original, answer, "{call:x?}");
            self.assert_alike();
        } else {
            self.original.oracle_take(&self.rule.words, call.page());
            self.by_rule += 1;
        }

        let [value, reads] = answer.values.expect("the length is not refused");
        let inputs = [length as u64, address, satp];
        let changes = changed(&*before, &*self.rule.words);
        let answers = [answer.number.into(), value, reads];
        self.list.answer(kind, &inputs, &answers, &changes);
    }

    /// The state is the original's in every word that it keeps.
    fn assert_alike(&self) {
        assert!(self.original.oracle_is(&self.rule.words));
    }
}
