//! Compares the library with the twin, call by call: `second [rounds] [seed] [trace]`.
//!
//! Without a seed it takes a fixed one and then a fresh one, as many rounds each. With `trace` each call is shown
//! before it is made, to find one that crashes.

mod call;
mod calls;
mod compare;
mod compare_calls;
mod describe;
mod dice;
mod evolution;
mod fields;
mod fixed;
mod join_calls;
mod layout_calls;
mod layouts;
mod library;
mod limits;
mod lossless;
mod mean;
mod mean_calls;
mod nearest;
mod packer;
mod perl;
mod perl_calls;
mod plan_calls;
mod promises;
mod promises_calls;
mod reader;
mod real_calls;
mod reals;
mod rescue;
mod rescue_calls;
mod row_calls;
mod rows;
mod sheet;
mod sheet_calls;
mod slots;
mod tally;
mod values;
mod walk;

use calls::Scratch;
use dice::Dice;
use std::process::exit;
use tally::Tally;

const ROUNDS: u64 = 250;

/// Random calls of every sort, from a seed.
fn roll(seed: u64, rounds: u64, tally: &mut Tally) {
    println!("seed {}, {} rounds", seed, rounds);
    let mut dice = Dice::new(seed);
    let mut scratch = Scratch::new();
    for _ in 0..rounds {
        calls::round(&mut dice, &mut scratch, tally);
        sheet_calls::round(&mut dice, tally);
        rescue_calls::round(&mut dice, tally);
        compare_calls::round(&mut dice, &mut scratch, tally);
        mean_calls::round(&mut dice, tally);
        perl_calls::round(&mut dice, tally);
        layout_calls::round(&mut dice, &mut scratch, tally);
        promises_calls::round(&mut dice, tally);
        row_calls::round(&mut dice, &mut scratch, tally);
        plan_calls::round(&mut dice, &mut scratch, tally);
        lossless::round(&mut dice, tally);
        join_calls::round(&mut dice, tally);
        real_calls::round(&mut dice, tally);
    }
}

fn main() {
    let rounds = std::env::args().nth(1).map_or(ROUNDS, |text| {
        text.parse().unwrap_or_else(|_| {
            eprintln!("usage: second [rounds] [seed] [trace]");
            exit(2)
        })
    });
    let trace = std::env::args()
        .nth(3)
        .map_or(false, |word| word == "trace");
    let mut tally = Tally {
        trace,
        ..Tally::default()
    };
    fixed::run(&mut tally);
    sheet_calls::run(&mut tally);
    rescue_calls::run(&mut tally);
    compare_calls::run(&mut tally);
    mean_calls::run(&mut tally);
    perl_calls::run(&mut tally);
    layout_calls::run(&mut tally);
    promises_calls::run(&mut tally);
    row_calls::run(&mut tally);
    lossless::run(&mut tally);
    join_calls::run(&mut tally);
    real_calls::run(&mut tally);
    println!(
        "fixed calls: {} passed, {} failed",
        tally.passed, tally.failed
    );
    for seed in dice::seeds(std::env::args().nth(2)) {
        roll(seed, rounds, &mut tally);
    }
    tally.print();
    exit((tally.failed > 0) as i32);
}
