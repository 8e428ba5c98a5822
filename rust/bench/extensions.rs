//! Products and quotients.
//!
//! Each has two rows. In the first a call's operands are at hand, so that calls overlap, and the
//! time is what the machine spends on one. In the second each call waits for the answer before it,
//! and the time is what a call takes from end to end.

use std::hint::black_box;

use leavnnjar::extensions::{
    div, divu, divuw, divw, mul, mulh, mulhsu, mulhu, mulw, rem, remu, remuw, remw,
};
use original::extensions as original;

use crate::ways::{CALLS, row, scattered, trace};

/// The rounds take other operands in turn: where the same come again in each, a branch on a sign
/// is soon foreseen.
const SETS: u64 = 8;

type Operands = Vec<(u64, u64)>;

fn apart(operands: &Operands, call: impl Fn(u64, u64) -> u64) {
    for &(lhs, rhs) in operands {
        black_box(call(lhs, rhs));
    }
}

/// The answer before is mixed into both operands, which are random by themselves: high products of
/// high products are soon 0 or -1.
fn chain(operands: &Operands, call: impl Fn(u64, u64) -> u64) {
    let mut last = 0;
    for &(lhs, rhs) in operands {
        last = call(lhs ^ last, rhs ^ last);
    }
    black_box(last);
}

macro_rules! both {
    ($sets:ident, $($name:ident)*) => {$({
        #[inline(never)]
        fn called(lhs: u64, rhs: u64) -> u64 {
            original::$name(lhs, rhs)
        }
        // Through a pointer that the compiler knows nothing of, as in the other rows.
        let called: fn(u64, u64) -> u64 = black_box(called);
        let name = stringify!($name);

        one!($sets, name, apart, $name, called);
        one!($sets, &format!("{name}, in a chain"), chain, $name, called);
    })*};
}

macro_rules! one {
    ($sets:ident, $row:expr, $round:ident, $name:ident, $called:ident) => {{
        let [mut ours, mut behind, mut inlined] = [(); 3].map(|()| $sets.iter().cycle());
        row(
            $row,
            || $round(ours.next().unwrap(), $name),
            || $round(behind.next().unwrap(), $called),
            || $round(inlined.next().unwrap(), original::$name),
        );
    }};
}

pub fn rows() {
    let sets: Vec<Operands> = (0..SETS)
        .map(|set| {
            trace(|i| {
                let at = 2 * (set * CALLS as u64 + i);
                (scattered(at), scattered(at + 1))
            })
        })
        .collect();
    both!(sets, mul mulh mulhu mulhsu mulw);
    both!(sets, div divu rem remu divw divuw remw remuw);
}
