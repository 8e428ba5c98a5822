//! Translations that the cache answers, translations that walk, and flushes.

use leavnnjar::csr::PrivMode;
use leavnnjar::mmu::Mmu;
use original::mmu::{Mmu as Original, MmuFault};
use original::system_bus::FlatMemory;

use crate::ways::{CALLS, scattered, trace};

const SATP: u64 = 0x8000_0000_0000_0001;

/// As at reset: SUM, MXR and MPRV are clear.
const MSTATUS: u64 = 0xA_0000_0000;

/// Two pages: one beside the other, or so far apart that they have one slot.
const BESIDE: u64 = 0x1000;
const ONE_SLOT: u64 = 512 * 0x1000;

/// Addresses in this many pages, in turn.
fn addresses(pages: u64, apart: u64) -> Vec<u64> {
    trace(|i| (i % pages * apart) | scattered(i) >> 52)
}

/// Three tables: pages 0, 1 and 512 are mapped, with every permission, A and D.
fn tables() -> Vec<u8> {
    let mut memory = vec![0; 16384];
    let entries = [
        (0x1000, 0x801),
        (0x2000, 0xC01),
        (0x2008, 0xC01),
        (0x3000, 0x14CF),
        (0x3008, 0x18CF),
    ];
    for (place, entry) in entries {
        let entry: u64 = entry;
        memory[place..place + 8].copy_from_slice(&entry.to_le_bytes());
    }
    memory
}

/// The original, with the tables in its memory.
struct Guest {
    mmu: Box<Original>,
    bus: FlatMemory,
}

impl Guest {
    fn new() -> Self {
        let tables = tables();
        let mut bus = FlatMemory::new(tables.len());
        bus.load_at(0, &tables);
        let mmu = Box::new(Original::new());
        Self { mmu, bus }
    }
}

/// Each state was asked for its pages before it is timed, so that they are in the cache, unless they
/// have one slot: then each call walks. The library is told the privilege and mstatus, too, which the
/// original does not take.
macro_rules! translations {
    ($name:literal, $translate:ident, $pages:literal, $apart:ident, $reads:literal) => {{
        let (satp, mode, mstatus) = std::hint::black_box((SATP, PrivMode::S, MSTATUS));
        let memory = tables();
        let mut port = Mmu::new();
        for address in [0, $apart, 0, $apart] {
            port.$translate(address, satp, mode, mstatus, &memory).expect("mapped");
        }
        let again = port.$translate(0, satp, mode, mstatus, &memory).expect("mapped");
        assert_eq!(again.reads, $reads);
        ways!(
            $name, addresses($pages, $apart), address,
            library: port, |mmu| mmu.$translate(address, satp, mode, mstatus, &memory).expect("mapped").address,
            original: Guest::new(), fn(guest: &mut Guest, address: u64 = address, satp: u64 = satp) -> Result<u64, MmuFault> {
                guest.mmu.$translate(address, satp, &mut guest.bus)
            },
            seen: |answer| answer.expect("mapped")
        );
    }};
}

pub fn rows() {
    translations!("load, by shortcut", translate_load, 1, BESIDE, 0);
    translations!("load, by slot", translate_load, 2, BESIDE, 0);
    translations!("store, by shortcut", translate_store, 1, BESIDE, 0);
    translations!("store, by slot", translate_store, 2, BESIDE, 0);
    translations!("fetch, by slot", translate_fetch, 2, BESIDE, 0);
    translations!("load, by walk", translate_load, 2, ONE_SLOT, 3);
    translations!("store, by walk", translate_store, 2, ONE_SLOT, 3);
    translations!("fetch, by walk", translate_fetch, 2, ONE_SLOT, 3);
    ways!(
        "flush", [(); CALLS], (),
        library: Mmu::new(), |mmu| mmu.flush(),
        original: Box::new(Original::new()), fn(mmu: &mut Original) -> () { mmu.flush() }
    );
}
