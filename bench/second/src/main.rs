//! Times the second program on the inputs in the folders named: a line a call with its nanoseconds,
//! its answer and a sum over its output, a sweep's number lines behind it, as bench/engine.c does.

use second::calls::{self, Reply};
use second::rules::Rules;
use second::stream::{Call, Case};
use std::hint::black_box;
use std::path::Path;
use std::time::{Duration, Instant};

const CALLS: [(&str, Call); 3] =
    [("show", Call::Show), ("putback", Call::PutBack), ("sweep", Call::Sweep)];
const ROUNDS: u32 = 7;
const ROUND: Duration = Duration::from_millis(40);
const BETWEEN_LOOKS: u32 = 8;

/// The best of some rounds: what disturbs a round only makes it slower.
fn nanoseconds(call: impl Fn() -> Reply) -> u128 {
    let round = || {
        let (begun, mut calls) = (Instant::now(), 0);
        while begun.elapsed() < ROUND {
            (0..BETWEEN_LOOKS).for_each(|_| drop(black_box(call())));
            calls += BETWEEN_LOOKS;
        }
        begun.elapsed().as_nanos() / u128::from(calls)
    };
    (0..ROUNDS).map(|_| round()).min().expect("there are rounds")
}

fn packed(reply: &Reply) -> u64 {
    (u64::from(reply.number) << 32) + ((reply.place as u64) << 16) + reply.output.len() as u64
}

fn sum(reply: &Reply) -> u32 {
    let bytes = reply.output.iter().chain(&reply.numbers);
    bytes.fold(0, |sum: u32, &byte| sum.wrapping_mul(31).wrapping_add(u32::from(byte)))
}

fn main() -> std::io::Result<()> {
    let rules = Rules::document();
    for folder in std::env::args().skip(1) {
        let file = |name: &str| std::fs::read(Path::new(&folder).join(name));
        for (name, call) in CALLS {
            let (master, program) = (file("master.hex")?, file("program.hex")?);
            let case = Case::with_least_rooms(call, master, program, file("view.hex")?);
            let reply = calls::answer(&case, &rules);
            let time = nanoseconds(|| calls::answer(black_box(&case), &rules));
            println!("{folder} {name} {time} {} {}", packed(&reply), sum(&reply));
        }
    }
    Ok(())
}
