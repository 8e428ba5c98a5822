//! Stands in for the original's counters. Those that mmu.rs notes count nothing unless a feature
//! asks for it.

#[inline(always)]
pub fn note_bare_translate() {}

#[inline(always)]
pub fn note_tlb_hit() {}

#[inline(always)]
pub fn note_tlb_walk() {}
