//! For whom a page is there: each of U, X, W and R for each caller, and a cache that is met by other
//! callers than it was filled by.

use oracle::rules::mmu::call::{MPP_FROM, MPRV, MXR, SUM};

use super::cache::Cache;
use super::{FETCH, KINDS, LOAD, SATP, STORE, entry};

const fn mpp(mode: u64) -> u64 {
    mode << MPP_FROM
}

/// Privilege and mstatus: U, S and M with SUM and MXR; then privilege 2, and each mode through MPRV.
pub const CALLERS: [(u64, u64); 14] = [
    (0, 0),
    (0, SUM),
    (0, MXR),
    (1, 0),
    (1, SUM),
    (1, MXR),
    (1, SUM | MXR),
    (3, 0),
    (2, SUM | MXR),
    (3, MPRV),
    (3, MPRV | mpp(1)),
    (3, MPRV | mpp(1) | SUM | MXR),
    (0, MPRV | mpp(3)),
    (1, MPRV | mpp(2) | SUM),
];

/// Pages with R, W and X: of the supervisor and of user mode.
const SUPERVISORS: u64 = 0b0111;
const USERS: u64 = 0b1111;

/// A page for each of U, X, W and R, set and clear: its number has their bits. V, A and D are set.
pub fn record(mut cache: Cache) -> usize {
    cache.entry(0x1000, entry(2, 1));
    cache.entry(0x2000, entry(3, 1));
    for page in 0..16 {
        let leaf = entry(0x100 + page, 0xC1 | page << 1);
        cache.entry(0x3000 + 8 * page as usize, leaf);
    }
    walks(&mut cache);
    modes(&mut cache);
    met(&mut cache);
    superpages(&mut cache);
    cache.by_rule
}

/// Each page for each kind, in each mode and with SUM and MXR, by a walk.
fn walks(cache: &mut Cache) {
    for (privilege, mstatus) in CALLERS.into_iter().take(8) {
        cache.caller(privilege, mstatus);
        for kind in KINDS {
            for page in 0..16 {
                cache.ask(kind, page << 12 | 0x123, SATP);
            }
            cache.flush();
        }
    }
}

/// Each privilege beside each MPP, with MPRV clear and set; then with every bit that does not count.
fn modes(cache: &mut Cache) {
    let others = !(MPRV | mpp(3) | SUM | MXR);
    for mprv in [0, MPRV] {
        for privilege in 0..4 {
            for mode in 0..4 {
                cache.caller(privilege, mprv | mpp(mode));
                for kind in KINDS {
                    cache.ask(kind, SUPERVISORS << 12, SATP);
                    cache.ask(kind, USERS << 12, SATP);
                }
            }
            cache.caller(privilege | (u64::MAX << 2), others | mprv);
            for kind in KINDS {
                cache.ask(kind, USERS << 12, SATP);
                cache.ask(kind, u64::MAX, SATP);
            }
        }
        cache.flush();
    }
}

/// A page in the cache, met by each caller: after a load and a store by the shortcuts, after a fetch by
/// the slot. With D and without, and with X alone, which fills them by MXR.
fn met(cache: &mut Cache) {
    let page = 0x10;
    for flags in [0xCF, 0xDF, 0x5F, 0xC9, 0xD9, 0xC7] {
        cache.entry(0x3000 + 8 * page as usize, entry(0x200, flags));
        for first in [[LOAD, STORE], [FETCH, FETCH]] {
            cache.flush();
            let own = if flags & 0x10 == 0 { 1 } else { 0 };
            cache.caller(own, MXR);
            for kind in first {
                cache.ask(kind, page << 12, SATP);
            }
            for (privilege, mstatus) in CALLERS {
                cache.caller(privilege, mstatus);
                for kind in [LOAD, STORE, FETCH] {
                    cache.ask(kind, page << 12 | 0x456, SATP);
                }
            }
        }
    }
    cache.flush();
}

/// Two pages of one superpage of user mode's: each has a slot of its own.
fn superpages(cache: &mut Cache) {
    cache.entry(0x1000 + 8 * 5, entry(7 << 18, 0xDF));
    for (privilege, mstatus) in CALLERS {
        cache.caller(privilege, mstatus);
        for kind in [LOAD, FETCH] {
            cache.ask(kind, 5 << 30 | 0x1234_5678, SATP);
            cache.ask(kind, 5 << 30 | 0x0765_4321, SATP);
        }
    }
    cache.flush();
}
