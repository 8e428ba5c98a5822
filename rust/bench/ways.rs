//! The three ways to make a call, and the row that tells their times.

use std::env::consts::ARCH;
use std::time::Instant;

const ROUNDS: usize = 2_000;
pub const CALLS: usize = 4_096;

pub fn head() {
    println!("{ARCH}, best of {ROUNDS} rounds of {CALLS} calls, nanoseconds a call");
    println!(
        "{:26} {:>8} {:>16} {:>6} {:>18} {:>6}",
        "", "library", "original called", "ratio", "original inlined", "ratio"
    );
}

/// One round of each way in turn, so that what else the machine does meets all three.
pub fn row(
    name: &str,
    mut library: impl FnMut(),
    mut called: impl FnMut(),
    mut inlined: impl FnMut(),
) {
    let mut best = [f64::INFINITY; 3];
    for _ in 0..ROUNDS {
        let times = [time(&mut library), time(&mut called), time(&mut inlined)];
        for (best, time) in best.iter_mut().zip(times) {
            *best = best.min(time);
        }
    }
    let [library, called, inlined] = best;
    println!(
        "{name:26} {library:8.2} {called:16.2} {:6.2} {inlined:18.2} {:6.2}",
        library / called,
        library / inlined
    );
}

fn time(round: &mut impl FnMut()) -> f64 {
    let start = Instant::now();
    round();
    start.elapsed().as_nanos() as f64 / CALLS as f64
}

/// Numbers that look random and are the same in each run.
pub fn scattered(i: u64) -> u64 {
    let mixed = i.wrapping_add(1).wrapping_mul(0x9E37_79B9_7F4A_7C15);
    (mixed ^ (mixed >> 32)).wrapping_mul(0xD6E8_FEB8_6659_FD93)
}

/// As many inputs as a round makes calls.
pub fn trace<T>(input: impl Fn(u64) -> T) -> Vec<T> {
    (0..CALLS as u64).map(input).collect()
}

/// Times a call along a trace: what the library does on its state, and what the original does on
/// its own, as a function of the call's inputs. `seen` is what a host looks at of the original's
/// answer: an answer that is larger than two registers is not to be copied only to be timed.
macro_rules! ways {
    (
        $name:expr, $trace:expr, $input:pat_param,
        library: $port:expr, |$library:ident| $port_call:expr,
        original: $new:expr, fn($own:ident: $Own:ty $(, $arg:ident: $Arg:ty = $value:expr)*) -> $Answer:ty { $call:expr }
    ) => {
        ways!(
            $name, $trace, $input,
            library: $port, |$library| $port_call,
            original: $new, fn($own: $Own $(, $arg: $Arg = $value)*) -> $Answer { $call },
            seen: |answer| answer
        )
    };
    (
        $name:expr, $trace:expr, $input:pat_param,
        library: $port:expr, |$library:ident| $port_call:expr,
        original: $new:expr, fn($own:ident: $Own:ty $(, $arg:ident: $Arg:ty = $value:expr)*) -> $Answer:ty { $call:expr },
        seen: |$answer:ident| $seen:expr
    ) => {{
        use std::hint::black_box;

        #[inline(never)]
        fn called($own: $Own $(, $arg: $Arg)*) -> $Answer {
            $call
        }
        // Through a pointer that the compiler knows nothing of, or it would fit the function to
        // this one caller.
        let called: fn($Own $(, $Arg)*) -> $Answer = black_box(called);

        let trace = $trace;
        let mut port = $port;
        let (mut first, mut second) = ($new, $new);
        $crate::ways::row(
            $name,
            || {
                for &$input in &trace {
                    let $library = black_box(&mut port);
                    black_box($port_call);
                }
            },
            || {
                for &$input in &trace {
                    let $answer = called(black_box(&mut first) $(, $value)*);
                    black_box($seen);
                }
            },
            || {
                for &$input in &trace {
                    let $own = black_box(&mut second);
                    $(let $arg: $Arg = $value;)*
                    let $answer = $call;
                    black_box($seen);
                }
            },
        );
    }};
}
