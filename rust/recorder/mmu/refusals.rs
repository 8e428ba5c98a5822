//! What the manual refuses: satp's other modes, addresses that no hart takes, entries whose form is none,
//! leaves without A and stores to leaves without D. Each by a walk, and beside a cache that has the page.

use oracle::layout::{LOAD_AT, STORE_AT};

use super::cache::Cache;
use super::{FETCH, KINDS, LOAD, SATP, STORE, entry};

/// The tables stand at pages 1, 2 and 3. One at page 4, for the pointers of `forms`, begins with a
/// leaf that is aligned for level 1.
pub fn record(mut cache: Cache) -> usize {
    cache.entry(0x1000, entry(2, 1));
    cache.entry(0x2000, entry(3, 1));
    cache.entry(0x3000, entry(0x100, 0xCF));
    cache.entry(0x4000, entry(0x200 << 9, 0xCF));
    addresses(&mut cache);
    forms(&mut cache);
    marks(&mut cache);
    modes(&mut cache);
    kept(&mut cache);
    cache.by_rule
}

fn ask_each(cache: &mut Cache, address: u64, satp: u64) {
    for kind in KINDS {
        cache.ask(kind, address, satp);
    }
}

/// The ends of both halves and what lies beyond them, by leaves of the root; then of an address of
/// each half each of bits 63 to 39, alone no copy of bit 38.
fn addresses(cache: &mut Cache) {
    for index in [0xFF, 0x100, 0x1FF] {
        cache.entry(0x1000 + 8 * index, entry((index as u64) << 18, 0xCF));
    }
    for kind in KINDS {
        for end in [1 << 38, u64::MAX << 38] {
            cache.ask(kind, end - 1, SATP);
            cache.ask(kind, end, SATP);
        }
    }
    for half in [0x123, u64::MAX << 12 | 0x456] {
        for bit in 39..64 {
            cache.ask([LOAD, STORE, FETCH][bit % 3], half ^ (1 << bit), SATP);
        }
    }
    cache.flush();
}

/// At each level: W alone and W with X, for each kind; a pointer and a leaf with each of bits 63 to
/// 54, and what is no form of its own: a pointer with U, G, A or D, and the bits that are left to
/// software.
fn forms(cache: &mut Cache) {
    let pointer = entry(4, 1);
    for (table, shift, leaf) in [
        (0x1000, 30, entry(5 << 18, 0xCF)),
        (0x2000, 21, entry(5 << 9, 0xCF)),
        (0x3000, 12, entry(5, 0xCF)),
    ] {
        let place = table + 8;
        let address = 1 << shift;
        for w_without_r in [pointer | 0x4, pointer | 0xC4, leaf & !0x2] {
            cache.entry(place, w_without_r);
            ask_each(cache, address, SATP);
        }
        for bit in 54..64 {
            for form in [pointer, leaf] {
                cache.entry(place, form | (1 << bit));
                cache.ask([LOAD, STORE, FETCH][bit % 3], address, SATP);
            }
        }
        for flags in [0x10, 0x20, 0x40, 0x80, 0x100, 0x200] {
            cache.entry(place, pointer | flags);
            cache.ask(LOAD, address, SATP);
            cache.flush();
        }
        cache.entry(place, leaf | 0x320);
        ask_each(cache, address, SATP);
        cache.entry(place, 0);
        cache.flush();
    }
}

/// Leaves without A, without D and without both, at each level, for each kind. Then pages without D:
/// a load fills the slot, which serves no store; once D is set a store finds it by the tables, with
/// no flush.
fn marks(cache: &mut Cache) {
    for (table, shift, page) in [(0x1000, 30, 6 << 18), (0x2000, 21, 6 << 9), (0x3000, 12, 6)] {
        for flags in [0x8F, 0x4F, 0x0F] {
            cache.entry(table + 16, entry(page, flags));
            ask_each(cache, 2 << shift, SATP);
            cache.flush();
        }
        cache.entry(table + 16, 0);
    }

    cache.entry(0x3000, entry(5, 0x4F));
    cache.entry(0x3008, entry(6, 0x4F));
    for address in [0x123, 0x123, 0x1000, 0x123] {
        cache.ask(STORE, address, SATP);
    }
    for first in [LOAD, FETCH] {
        cache.entry(0x3000, entry(5, 0x4F));
        cache.flush();
        cache.ask(first, 0x123, SATP);
        cache.ask(STORE, 0x123, SATP);
        cache.entry(0x3000, entry(5, 0xCF));
        cache.ask(STORE, 0x456, SATP);
        cache.ask(STORE, 0x789, SATP);
        cache.ask(first, 0x456, SATP);
    }
    cache.flush();
}

/// Each mode, with the tables and without a slot of the page and with one; and by a hart in M-mode,
/// which is not paged.
fn modes(cache: &mut Cache) {
    for mode in 1..16 {
        let satp = (mode << 60) | 1;
        ask_each(cache, 0x123, satp);
        cache.ask(FETCH, 0x123, SATP);
        ask_each(cache, 0x456, satp);
        cache.caller(3, 0);
        cache.ask(LOAD, 0x456, satp);
        cache.caller(1, 0);
        cache.flush();
    }
}

/// Slots and shortcuts that no walk filled. A and D are asked of their leaves as of any other; not so
/// V, W without R, bits 63 to 54, and whether a walk finds the page.
fn kept(cache: &mut Cache) {
    const UPPER: [u64; 2] = [0xCF | 1 << 54, 0xCF | 1 << 63];
    let leaves = [0xCF, 0x8F, 0x4F, 0xCE, 0xCD, 0xC4]
        .into_iter()
        .chain(UPPER);
    let in_neither_half = 1 << 27;
    for leaf in leaves {
        for page in [0, in_neither_half] {
            for (in_slot, in_shortcuts) in [(leaf, 0), (0, leaf)] {
                cache.set_slot(page, 7, in_slot);
                cache.set_shortcut(LOAD_AT, [page, 8, SATP, in_shortcuts]);
                cache.set_shortcut(STORE_AT, [page, 9, SATP, in_shortcuts]);
                for kind in [FETCH, LOAD, STORE] {
                    cache.ask(kind, page << 12 | 0x321, SATP);
                }
            }
        }
    }

    // Shortcuts by a mode that is none.
    let satp = (9 << 60) | 1;
    cache.set_shortcut(LOAD_AT, [0, 8, satp, 0xCF]);
    cache.set_shortcut(STORE_AT, [0, 9, satp, 0xCF]);
    ask_each(cache, 0x321, satp);
    cache.flush();
}
