//! mmu.rs: walks to leaves and faults of each kind at each level, the cache and its shortcuts, stores
//! to table entries between calls, epochs at their end; each flag for each caller; what the manual
//! refuses; then random guests.
//!
//! A call is asked of the original where it still decides, and there the second reading of the rules
//! must give the same. Elsewhere that alone is asked.

mod cache;
mod callers;
mod refusals;

use oracle::layout::{EPOCH_AT, LOAD_AT, MMU_WORDS, SLOTS, STORE_AT};

use crate::common::Random;
use crate::list::List;
use cache::Cache;

const NEW: u64 = 0x0;
const SET: u64 = 0x1;
const STORE_ENTRY: u64 = 0x2;
const FLUSH: u64 = 0x3;
const FETCH: u64 = 0x4;
const LOAD: u64 = 0x5;
const STORE: u64 = 0x6;
const READABLE: u64 = 0x7;
const CALLER: u64 = 0x8;

const KINDS: [u64; 4] = [FETCH, LOAD, STORE, READABLE];

/// Eight pages.
const LENGTH: usize = 0x8000;

/// The root table stands at page 1.
const SATP: u64 = (8 << 60) | 1;

const GUESTS: usize = 3;
const EVENTS: usize = 120;

pub fn record(list: &mut List, random: &mut Random) {
    list.module(
        "mmu",
        'm',
        &format!(
            "the translation state, as {MMU_WORDS} words: epoch; page, result page, satp and leaf entry of \
             the load shortcut, and of the store shortcut; {SLOTS} slots of tag, result page, leaf entry, \
             epoch"
        ),
    );
    list.function(
        NEW,
        "new = number ; words, over a memory of 8000 bytes that are 0",
    );
    list.function(SET, "set = ; words");
    list.function(STORE_ENTRY, "(a table entry is stored) address entry =");
    list.function(FLUSH, "flush = number ; words");
    list.function(
        FETCH,
        "translate_fetch length address satp = number value reads ; words",
    );
    list.function(
        LOAD,
        "translate_load length address satp = number value reads ; words",
    );
    list.function(
        STORE,
        "translate_store length address satp = number value reads ; words",
    );
    list.function(
        READABLE,
        "translate_readable length address satp = number value reads",
    );
    list.function(
        CALLER,
        "(from here on calls are made so) privilege mstatus =",
    );
    list.remark("A call is made with the first bytes of the memory, as many as length says. The value is the");
    list.remark("address found, or where the call faults the address asked for; where translate_readable gives");
    list.remark(
        "None the number is a load's. Reads are the table entries read, counted by the memory.",
    );

    let mut by_rule = edges(Cache::new(list));
    by_rule += callers::record(Cache::new(list));
    by_rule += refusals::record(Cache::new(list));
    for _ in 0..GUESTS {
        by_rule += guest(Cache::new(list), random, &[(1, 0)]);
        by_rule += guest(Cache::new(list), random, &callers::CALLERS);
    }
    list.remark(&format!(
        "Of these translations {by_rule:x} are answered by the rule, all others by the original, too."
    ));
}

/// In S with SUM and MXR clear. As all groups do, it gives how many answers are the rule's alone.
fn edges(mut cache: Cache) -> usize {
    walks(&mut cache);
    slots(&mut cache);
    stale(&mut cache);
    satps(&mut cache);
    epochs(&mut cache);
    held(&mut cache);
    lengths(&mut cache);
    cache.by_rule
}

/// A table entry.
fn entry(page: u64, flags: u64) -> u64 {
    (page << 10) | flags
}

/// Flags of an entry: all, all but D, R, X, R and W, R and X, these with A; V and W alone, with which the
/// original goes on to the next level; two with V clear; and every bit but U.
const FLAGS: [u64; 10] = [0xCF, 0x4F, 0x43, 0x49, 0xC7, 0x4B, 0x5, 0xCE, 0x0, 0x3EF];

/// The address with these low 39 bits, the highest of which all others copy.
fn canonical(address: u64) -> u64 {
    let signed = (address << 25).cast_signed() >> 25;
    signed.cast_unsigned()
}

/// One entry of each kind at each level: the tables stand at pages 1, 2 and 3.
fn walks(cache: &mut Cache) {
    cache.entry(0x1000, entry(2, 1));
    cache.entry(0x2000, entry(3, 1));
    for (i, flags) in (1..).zip(FLAGS) {
        let page = 0x100 + i as u64;
        cache.entry(0x1000 + 8 * i, entry(page << 18, flags));
        cache.entry(0x2000 + 8 * i, entry(page << 9, flags));
        cache.entry(0x3000 + 8 * i, entry(page, flags));
    }
    // Not aligned, by the lowest bit and by the highest; a pointer to its own table; the last pages.
    cache.entry(0x1000 + 8 * 0x20, entry(1, 0xCF));
    cache.entry(0x1000 + 8 * 0x21, entry(1 << 17, 0xCF));
    cache.entry(0x1000 + 8 * 0x22, entry(1, 1));
    cache.entry(0x1000 + 8 * 0x23, entry((1 << 44) - (1 << 18), 0xCF));
    cache.entry(0x2000 + 8 * 0x20, entry(1, 0xCF));
    cache.entry(0x2000 + 8 * 0x21, entry(1 << 8, 0xCF));
    cache.entry(0x2000 + 8 * 0x22, entry(2, 1));
    cache.entry(0x3000 + 8 * 0x20, entry((1 << 44) - 1, 0x3EF));
    cache.entry(0x3000 + 8 * 0x21, entry(3, 1));
    cache.entry(0x3000 + 8 * 0x1FF, entry((1 << 44) - 1, 0xCF));

    let indexes = (1..=10).chain(0x20..=0x23).chain([0x1FF]);
    let addresses: Vec<u64> = indexes
        .flat_map(|i| [i << 30 | 0x1234_5678, i << 21 | 0x12345, i << 12 | 0x123])
        .map(canonical)
        .collect();
    for kind in KINDS {
        for &address in &addresses {
            cache.ask(kind, address, SATP);
        }
        cache.flush();
    }
}

/// The same page again and its neighbours, each kind after each other; addresses that share a slot, as
/// many pages apart as there are slots, or so far that no walk finds the second.
fn slots(cache: &mut Cache) {
    cache.flush();
    for first in [LOAD, STORE, FETCH] {
        for then in KINDS {
            for page in [1, 2, 3, 4, 5, 6] {
                cache.ask(first, page << 12 | 0xFFF, SATP);
                cache.ask(then, page << 12, SATP);
            }
        }
        cache.flush();
    }
    for apart in [(SLOTS as u64) << 12, 1 << 39, 1 << 63] {
        for kind in [LOAD, STORE, FETCH, LOAD, STORE] {
            cache.ask(kind, 0x1008, SATP);
            cache.ask(kind, 0x1008 + apart, SATP);
            cache.ask(kind, 0x1FF8, SATP);
        }
    }
    cache.flush();
}

/// Entries stored to after they were read: the cache goes by what it holds, until it is emptied.
fn stale(cache: &mut Cache) {
    for flags in FLAGS {
        cache.entry(0x3008, entry(0x111, 0xCF));
        cache.flush();
        for kind in [LOAD, STORE, FETCH] {
            cache.ask(kind, 0x1000, SATP);
        }
        cache.entry(0x3008, entry(0x222, flags));
        for kind in KINDS {
            cache.ask(kind, 0x1010, SATP);
        }
        cache.flush();
        for kind in KINDS {
            cache.ask(kind, 0x1020, SATP);
        }
    }
    cache.entry(0x3008, entry(0x101, 0xCF));
    cache.flush();
}

/// Other roots, address spaces and modes; unpaged ones. A shortcut goes by satp, a slot does not.
fn satps(cache: &mut Cache) {
    cache.entry(0x4000, entry(5, 1));
    cache.entry(0x5000, entry(6, 1));
    cache.entry(0x6008, entry(0x333, 0xCF));
    let satps = [
        0,
        1,
        SATP & (u64::MAX >> 4),
        (8 << 60) | 4,
        (1 << 60) | 1,
        (9 << 60) | 1,
        (15 << 60) | 4,
        SATP | (0xFFFF << 44),
        SATP | (1 << 43),
        SATP + 8,
        u64::MAX,
    ];
    for satp in satps {
        for kind in KINDS {
            cache.ask(kind, 0x1018, SATP);
            cache.ask(kind, 0x1018, satp);
            cache.ask(kind, u64::MAX, satp);
        }
        cache.flush();
        for kind in KINDS {
            cache.ask(kind, 0x1018, satp);
        }
    }
}

/// The last epochs before they come round, after which a slot of an old epoch counts again; and 0,
/// which no flush gives.
fn epochs(cache: &mut Cache) {
    cache.set(&[(EPOCH_AT, 1)]);
    cache.ask(LOAD, 0x1000, SATP);
    cache.ask(STORE, 0x1000, SATP);
    for epoch in [0xFFFF_FFFD, 0xFFFF_FFFF, 0, 0x7FFF_FFFF] {
        cache.set(&[(EPOCH_AT, epoch)]);
        for _ in 0..3 {
            cache.flush();
            cache.ask(LOAD, 0x1008, SATP);
            cache.ask(STORE, 0x1008, SATP);
        }
    }
    cache.flush();
}

/// Slots and shortcuts that no walk filled: result pages of more than 52 bits lose the others, and a
/// page that no address has is no one's. Where the shortcut's leaf entry denies, the slot is asked. All
/// have A; of those for a store some have no D.
fn held(cache: &mut Cache) {
    cache.set(&[(EPOCH_AT, 9)]);
    for (frame, leaf, shortcut) in [
        (5, 0xCF, 0xCF),
        (u64::MAX, 0x47, 0xC7),
        (1 << 52, 0xCF, 0x46),
        (0x123, 0xC7, 0xDF),
        (0x321, 0xC4, 0xC9),
        (0x456, 0xCF, 0xDF),
        (0x654, 0xC7, 0),
    ] {
        cache.set_slot(3, frame ^ 2, leaf);
        cache.set_slot(4, frame ^ 2, leaf);
        cache.set_shortcut(LOAD_AT, [4, frame, SATP, shortcut]);
        cache.set_shortcut(STORE_AT, [4, frame ^ 1, SATP, shortcut]);
        for kind in KINDS {
            cache.ask(kind, 0x4321, SATP);
            cache.ask(kind, 0x3321, SATP);
            cache.ask(kind, u64::MAX, SATP);
        }
    }
    cache.set(&[(LOAD_AT, u64::MAX), (STORE_AT, u64::MAX)]);
    cache.flush();
}

/// The same calls with shorter memories, in which the tables lie elsewhere.
fn lengths(cache: &mut Cache) {
    for length in [8, 64, 0x1000, 0x2000, 0x4000] {
        for first in [0, entry(0, 1), entry(1 << 18, 0xCF)] {
            cache.entry(0, first);
            cache.flush();
            for kind in KINDS {
                cache.ask_of(length, kind, 0x1018, SATP);
                cache.ask_of(length, kind, 0x4000_0000, SATP);
            }
        }
    }
    cache.ask_of(8, LOAD, 0x8000_0000, SATP & (u64::MAX >> 4));
}

/// A memory with tables of random entries, few pages, satps and callers; calls, stores to entries and
/// flushes in any order. Of the pages one, and of the satps one, is none that a walk finds.
fn guest(mut cache: Cache, random: &mut Random, callers: &[(u64, u64)]) -> usize {
    let root = 1 + random.below(3);
    let first = canonical(random.word()) >> 12;
    let page = |random: &mut Random| match random.below(6) {
        0 => first ^ 1,
        1 => first ^ SLOTS as u64,
        2 => first ^ (1 << 18),
        3 => first ^ (1 << 27),
        _ => first,
    };
    let satps = [
        (8 << 60) | root,
        (8 << 60) | (5 << 44) | root,
        (8 << 60) | (root + 1),
        (9 << 60) | root,
        root,
    ];

    for _ in 0..EVENTS {
        let satp = satps[(random.below(12) as usize).saturating_sub(7)];
        match random.below(12) {
            0 => cache.flush(),
            1..=4 => {
                let address = page(random) << 12;
                let place = place(&cache.memory, random, address, satps[0]);
                cache.entry(place, any_entry(random));
            }
            _ => {
                let kind = KINDS[random.below(4) as usize];
                let (privilege, mstatus) = callers[random.below(callers.len() as u64) as usize];
                cache.caller(privilege, mstatus);
                cache.ask(kind, page(random) << 12 | random.below(0x1000), satp);
            }
        }
    }
    cache.by_rule
}

/// The place of an entry that a walk for this address reads: of the last one, most often.
fn place(memory: &[u8], random: &mut Random, address: u64, satp: u64) -> usize {
    let mut table = satp & ((1 << 44) - 1);
    let mut place = 0;
    for level in [2, 1, 0] {
        let index = (address >> (12 + 9 * level)) & 0x1FF;
        place = ((table * 0x1000 + index * 8) % memory.len() as u64) as usize;
        let bytes = memory[place..place + 8].try_into().expect("eight bytes");
        let entry = u64::from_le_bytes(bytes);
        let pointer = entry & 0b1011 == 1;
        if !pointer || random.below(8) == 0 {
            break;
        }
        table = (entry >> 10) & ((1 << 44) - 1);
    }
    place
}

/// Mostly pointers, so that walks go deep; leaves that are aligned for a level, and of any flags.
fn any_entry(random: &mut Random) -> u64 {
    let page = random.word() >> 20;
    match random.below(16) {
        0..=7 => entry(1 + random.below(7), 1),
        8..=9 => entry(page >> 18 << 18, 0xCF),
        10..=11 => entry(page >> 9 << 9, random.word() & 0x3FF | 0x43),
        12..=13 => entry(page, 0xCF),
        14 => entry(page, random.word() & 0x3FF),
        _ => random.word(),
    }
}
