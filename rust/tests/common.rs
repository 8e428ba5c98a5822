//! What every comparison shares: the inputs that it tries and the account that it gives.

use std::collections::BTreeMap;
use std::env;
use std::fmt::Debug;
use std::process::ExitCode;

/// Numbers that look random and are the same in every run with one seed (splitmix64).
pub struct Random(u64);

impl Random {
    pub fn new(seed: u64) -> Self {
        Self(seed)
    }

    pub fn word(&mut self) -> u64 {
        self.0 = self.0.wrapping_add(0x9E37_79B9_7F4A_7C15);
        let mut z = self.0;
        z = (z ^ (z >> 30)).wrapping_mul(0xBF58_476D_1CE4_E5B9);
        z = (z ^ (z >> 27)).wrapping_mul(0x94D0_49BB_1331_11EB);
        z ^ (z >> 31)
    }

    pub fn below(&mut self, bound: u64) -> u64 {
        self.word() % bound
    }

    /// A word of any length and sign. Even odds for each bit would make nearly every quotient 0 or
    /// 1 and nearly no operand short.
    pub fn operand(&mut self) -> u64 {
        let short = self.word() >> self.below(64);
        match self.below(3) {
            0 => self.word(),
            1 => short,
            _ => short.wrapping_neg(),
        }
    }
}

/// The seed: `SEED`, decimal or 0x and hexadecimal, else a fixed one. It is printed, so that a run
/// can be repeated.
pub fn seed() -> u64 {
    let seed = match env::var("SEED") {
        Err(_) => 0x5EED,
        Ok(text) => match text.strip_prefix("0x") {
            Some(digits) => u64::from_str_radix(digits, 16).expect("SEED is a number"),
            None => text.parse().expect("SEED is a number"),
        },
    };
    println!("seed {seed:#x}");
    seed
}

/// Words at which arithmetic turns: 0, the least and greatest of each width and sign, their
/// neighbours, and mixed patterns.
pub fn boundaries() -> Vec<u64> {
    let turns = [
        0,
        1 << 31,
        1 << 32,
        1 << 63,
        0x1_8000_0000,
        0xFFFF_FFFF_8000_0000,
        0xFFFF_FFFF_0000_0000,
    ];
    let mut words: Vec<u64> = Vec::new();
    for turn in turns {
        for step in -2..=2 {
            words.push(u64::wrapping_add_signed(turn, step));
        }
    }
    words.extend([3, 7, 10, 0xFF, 0x100, 0x7FFF, 0x8000, 0xFFFF, 0x1_0000]);
    words.extend([0x5555_5555_5555_5555, 0xAAAA_AAAA_AAAA_AAAA]);
    words.extend([
        0x5555_5555,
        0xAAAA_AAAA,
        0x0123_4567_89AB_CDEF,
        0xFEDC_BA98_7654_3210,
    ]);
    words.extend([
        0x8000_0000_8000_0000,
        0x7FFF_FFFF_7FFF_FFFF,
        0x7FFF_FFFF_FFFF_0000,
    ]);
    words.sort_unstable();
    words.dedup();
    words
}

/// Each element of the first list with each of the second.
pub fn product<A: Copy, B: Copy>(left: &[A], right: &[B]) -> Vec<(A, B)> {
    let row = |&a| right.iter().map(move |&b| (a, b));
    left.iter().flat_map(row).collect()
}

/// Operand pairs: each boundary value with each, random pairs, and random values beside themselves,
/// since two that are drawn alone almost never meet.
pub fn operand_pairs(random: &mut Random, count: usize) -> Vec<(u64, u64)> {
    let mut pairs = product(&boundaries(), &boundaries());
    for _ in 0..count / 8 {
        let value = random.operand();
        let beside = value.wrapping_add(random.below(3)).wrapping_sub(1);
        pairs.push((value, beside));
    }
    pairs.extend((pairs.len()..count).map(|_| (random.operand(), random.operand())));
    pairs
}

#[derive(Default)]
struct Count {
    calls: u64,
    differ: u64,
}

/// The account of one module: the calls made of each function, and how many of them differ.
pub struct Tally {
    module: &'static str,
    functions: BTreeMap<&'static str, Count>,
}

impl Tally {
    pub fn new(module: &'static str) -> Self {
        Self {
            module,
            functions: BTreeMap::new(),
        }
    }

    pub fn calls(&mut self, function: &'static str, calls: usize) {
        self.functions.entry(function).or_default().calls += calls as u64;
    }

    /// Notes a difference and prints the first few of each function, all numbers in hexadecimal.
    pub fn differ(
        &mut self,
        function: &'static str,
        inputs: impl Debug,
        ours: impl Debug,
        judge: &str,
        theirs: impl Debug,
    ) {
        let count = self.functions.entry(function).or_default();
        count.differ += 1;
        if count.differ <= 4 {
            let module = self.module;
            println!("DIFFERS {module}::{function}: library {ours:x?}, {judge} {theirs:x?}");
            println!("    on {inputs:x?}");
        }
    }

    fn total(&self) -> Count {
        let mut total = Count::default();
        for count in self.functions.values() {
            total.calls += count.calls;
            total.differ += count.differ;
        }
        total
    }
}

/// Prints each function's account, then each module's and the total. Fails if anything differs.
pub fn summary(tallies: &[Tally]) -> ExitCode {
    let line = |name: &str, count: &Count| {
        println!(
            "{name:30} {:>12} calls, {} differ",
            count.calls, count.differ
        );
    };

    for tally in tallies {
        for (function, count) in &tally.functions {
            line(&format!("{}::{function}", tally.module), count);
        }
    }

    let mut all = Count::default();
    for tally in tallies {
        let total = tally.total();
        line(tally.module, &total);
        all.calls += total.calls;
        all.differ += total.differ;
    }
    line("total", &all);

    if all.differ == 0 {
        ExitCode::SUCCESS
    } else {
        ExitCode::FAILURE
    }
}
