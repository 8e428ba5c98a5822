//! gpr.rs: long sequences of calls, the whole state compared after each one.

use leavnnjar::Refusal;
use leavnnjar::gpr::Gpr;
use oracle::gpr::Gpr as Original;

use crate::common::{Random, Tally};
use crate::door;

type Words = [u64; Gpr::WORDS];

/// What a call gives back: a write gives no value.
type Answer = Result<Option<u64>, Refusal>;

#[derive(Clone, Copy, Debug)]
enum Call {
    Read(usize),
    ReadMasked(u8),
    WriteMasked(u8, u64),
    ReadF(usize),
    Write(usize, u64),
    WriteF(usize, u64),
    WriteF32(usize, u32),
    ReadF32(usize),
    Pc,
    SetPc(u64),
}

impl Call {
    fn random(random: &mut Random) -> Self {
        let reg = register(random);
        let masked = random.word() as u8;
        let val = value(random);
        match random.below(10) {
            0 => Self::Read(reg),
            1 => Self::ReadMasked(masked),
            2 => Self::WriteMasked(masked, val),
            3 => Self::ReadF(reg),
            4 => Self::Write(reg, val),
            5 => Self::WriteF(reg, val),
            6 => Self::WriteF32(reg, val as u32),
            7 => Self::ReadF32(reg),
            8 => Self::Pc,
            _ => Self::SetPc(val),
        }
    }

    fn name(self) -> &'static str {
        match self {
            Self::Read(_) => "read",
            Self::ReadMasked(_) => "read_masked",
            Self::WriteMasked(..) => "write_masked",
            Self::ReadF(_) => "read_f",
            Self::Write(..) => "write",
            Self::WriteF(..) => "write_f",
            Self::WriteF32(..) => "write_f32",
            Self::ReadF32(_) => "read_f32",
            Self::Pc => "pc",
            Self::SetPc(_) => "set_pc",
        }
    }

    fn ours(self, gpr: &mut Gpr) -> Answer {
        match self {
            Self::Read(reg) => gpr.read(reg).map(Some),
            Self::ReadMasked(reg) => Ok(Some(gpr.read_masked(reg))),
            Self::WriteMasked(reg, val) => {
                gpr.write_masked(reg, val);
                Ok(None)
            }
            Self::ReadF(reg) => gpr.read_f(reg).map(Some),
            Self::Write(reg, val) => gpr.write(reg, val).map(|()| None),
            Self::WriteF(reg, val) => gpr.write_f(reg, val).map(|()| None),
            Self::WriteF32(reg, val) => gpr.write_f32(reg, val).map(|()| None),
            Self::ReadF32(reg) => gpr.read_f32(reg).map(|val| Some(val.into())),
            Self::Pc => Ok(Some(gpr.pc())),
            Self::SetPc(pc) => {
                gpr.set_pc(pc);
                Ok(None)
            }
        }
    }

    fn original(self, gpr: &mut Original) -> Option<u64> {
        match self {
            Self::Read(reg) => return Some(gpr.read(reg)),
            Self::ReadMasked(reg) => return Some(gpr.read_masked(reg)),
            Self::WriteMasked(reg, val) => gpr.write_masked(reg, val),
            Self::ReadF(reg) => return Some(gpr.read_f(reg)),
            Self::Write(reg, val) => gpr.write(reg, val),
            Self::WriteF(reg, val) => gpr.write_f(reg, val),
            Self::WriteF32(reg, val) => gpr.write_f32(reg, val),
            Self::ReadF32(reg) => return Some(gpr.read_f32(reg).into()),
            Self::Pc => return Some(gpr.pc),
            Self::SetPc(pc) => gpr.pc = pc,
        }
        None
    }

    fn refused(self) -> bool {
        match self {
            Self::Read(reg) | Self::ReadF(reg) | Self::ReadF32(reg) => reg > 31,
            Self::Write(reg, _) | Self::WriteF(reg, _) | Self::WriteF32(reg, _) => reg > 31,
            Self::ReadMasked(_) | Self::WriteMasked(..) | Self::Pc | Self::SetPc(_) => false,
        }
    }

    /// Who says what the answer must be, and the answer. The original makes the call, unless it
    /// would panic.
    fn expected(self, gpr: &mut Original) -> (&'static str, Answer) {
        match self {
            _ if self.refused() => ("rule", Err(Refusal::Register)),
            // No call writes an x0 other than 0, but a host may lend one. The original would hand
            // it out here; ours reads 0.
            Self::ReadMasked(reg) if reg % 32 == 0 && gpr.oracle_words()[0] != 0 => {
                ("rule", Ok(Some(0)))
            }
            _ => ("original", Ok(self.original(gpr))),
        }
    }
}

fn register(random: &mut Random) -> usize {
    match random.below(4) {
        0 => refused(random),
        _ => random.below(32) as usize,
    }
}

/// A register number over 31: just over it, one that would pass if its upper bits were lost, or one
/// so near the top that adding to it runs over.
fn refused(random: &mut Random) -> usize {
    let number = match random.below(3) {
        0 => 32 + random.below(9),
        1 => (1 << (5 + random.below(59))) + random.below(32),
        _ => u64::MAX - random.below(66),
    };
    number as usize
}

/// A value, often a 32-bit float under its one bits or under almost all of them.
fn value(random: &mut Random) -> u64 {
    match random.below(4) {
        0 => random.word() | 0xFFFF_FFFF_0000_0000,
        1 => random.word() | (0xFFFF_FFFF_0000_0000 ^ (1 << (32 + random.below(32)))),
        _ => random.operand(),
    }
}

fn any_words(random: &mut Random) -> Words {
    std::array::from_fn(|_| value(random))
}

const LONG_RUNS: usize = 1_000;
const LONG: usize = 2_000;
const SHORT_RUNS: usize = 100_000;
const SHORT: usize = 10;

pub fn compare(seed: u64) -> Tally {
    let mut tally = Tally::new("gpr");
    let mut random = Random::new(seed);

    for _ in 0..LONG_RUNS {
        let start = new(&mut tally, random.operand());
        run(&mut tally, start, every_register(value(&mut random)));
        run(&mut tally, start, any_calls(&mut random, LONG));

        let mut start = any_words(&mut random);
        start[0] = 0;
        run(&mut tally, start, any_calls(&mut random, LONG));
    }

    // Any words, x0 not 0 among them. Short, since the first masked write sets x0 to 0.
    for _ in 0..SHORT_RUNS {
        let start = any_words(&mut random);
        run(&mut tally, start, reads_of_x0());
        run(&mut tally, start, any_calls(&mut random, SHORT));
        refusals(&mut tally, &mut random, start);
    }

    tally
}

fn any_calls(random: &mut Random, count: usize) -> impl Iterator<Item = Call> {
    (0..count).map(|_| Call::random(random))
}

/// Each call on each register number that it may take, and on some that it refuses.
fn every_register(val: u64) -> impl Iterator<Item = Call> {
    let plain = (0..=40).chain([1 << 32, usize::MAX]).flat_map(move |reg| {
        [
            Call::Write(reg, val),
            Call::Read(reg),
            Call::WriteF(reg, val),
            Call::ReadF(reg),
            Call::ReadF32(reg),
            Call::WriteF32(reg, val as u32),
            Call::ReadF32(reg),
        ]
    });
    let masked =
        (0..=u8::MAX).flat_map(move |reg| [Call::WriteMasked(reg, val), Call::ReadMasked(reg)]);
    plain.chain(masked)
}

fn reads_of_x0() -> impl Iterator<Item = Call> {
    let masked = (0..=u8::MAX).step_by(32).map(Call::ReadMasked);
    masked.chain([Call::Read(0)])
}

fn new(tally: &mut Tally, pc: u64) -> Words {
    tally.calls("new", 1);
    let expected = Original::new(pc).oracle_words();
    let gpr = Gpr::new(pc);
    if *gpr.words() != expected {
        tally.differ("new", pc, gpr.words(), "original", expected);
    }
    expected
}

fn run(tally: &mut Tally, start: Words, calls: impl Iterator<Item = Call>) {
    let mut gpr = Gpr::from_words(start);
    let mut original = Original::oracle_from(start);

    for call in calls {
        let before = original.oracle_words();
        let (judge, expected) = call.expected(&mut original);
        let after = original.oracle_words();

        tally.calls(call.name(), 1);
        let answer = call.ours(&mut gpr);
        if answer != expected || *gpr.words() != after {
            let ours = (answer, changed(&before, gpr.words()));
            let theirs = (expected, changed(&before, &after));
            tally.differ(call.name(), (call, before), ours, judge, theirs);
            // From the same state on, so that one fault is not counted again and again.
            gpr = Gpr::from_words(after);
        }
    }
}

/// The words that a call changed, each with its place.
fn changed(before: &Words, after: &Words) -> Vec<(usize, u64)> {
    let differs = |&i: &usize| before[i] != after[i];
    let places = (0..Gpr::WORDS).filter(differs);
    places.map(|i| (i, after[i])).collect()
}

/// At the door itself: a refused read leaves `out` as it was. That the words stay is seen in `run`.
fn refusals(tally: &mut Tally, random: &mut Random, words: Words) {
    let reg = refused(random);
    let untouched = random.word();
    let expected = (Refusal::Register.number(), untouched);

    type Door = extern "C" fn(&Words, usize, &mut u64) -> u32;
    let reads: [(&'static str, Door); 2] =
        [("read", door::rv_gpr_read), ("read_f", door::rv_gpr_read_f)];
    for (name, read) in reads {
        let mut out = untouched;
        tally.calls(name, 1);
        let answer = read(&words, reg, &mut out);
        if (answer, out) != expected {
            tally.differ(name, (reg, words), (answer, out), "rule", expected);
        }
    }

    let mut out = untouched as u32;
    let expected = (Refusal::Register.number(), out);
    tally.calls("read_f32", 1);
    let answer = door::rv_gpr_read_f32(&words, reg, &mut out);
    if (answer, out) != expected {
        tally.differ("read_f32", (reg, words), (answer, out), "rule", expected);
    }
}
