//! Times the proved archive beside the independent implementation, and prints a table.
//!
//! The sides take turns, and each figure is the median of many rounds, so that what else runs on
//! the machine falls on both alike.

mod rows;
mod workload;

use rows::{rows, Row};
use std::hint::black_box;
use std::time::{Duration, Instant};

const ROUNDS: usize = 41;
/// About as long runs a side in one round.
const SLICE: Duration = Duration::from_millis(2);

fn main() {
    println!("| call | archive, ns | independent, ns | independent / archive | copy, ns | archive / copy |");
    println!("|---|---:|---:|---:|---:|---:|");
    for mut row in rows() {
        println!("{}", line(&mut row));
    }
    println!();
    println!("Medians of {ROUNDS} rounds in which the sides take turns.");
    println!("Copy: one memcpy of the bytes that the call reads and writes.");
}

fn line(row: &mut Row) -> String {
    let written = agreed_length(row);
    let Row {
        name,
        room,
        archive,
        independent,
        copied,
    } = row;
    let (mut first, mut second) = (vec![0; *room], vec![0; *room]);
    let mut archive = || archive(black_box(&mut first));
    let mut independent = || independent(black_box(&mut second));
    let Some(inputs) = copied else {
        let [archive, independent] = medians([&mut archive, &mut independent]);
        let ratio = independent / archive;
        return format!("| {name} | {archive:.0} | {independent:.0} | {ratio:.2} | | |");
    };
    let bytes = vec![1; inputs.len() + written];
    let mut target = bytes.clone();
    let mut copy = || {
        black_box(&mut target[..]).copy_from_slice(black_box(&bytes));
        bytes.len()
    };
    let [archive, independent, copy] = medians([&mut archive, &mut independent, &mut copy]);
    let (ratio, to_copy) = (independent / archive, archive / copy);
    format!("| {name} | {archive:.0} | {independent:.0} | {ratio:.2} | {copy:.0} | {to_copy:.0} |")
}

/// The length that both sides write. They have to write the same bytes, or the times say nothing.
fn agreed_length(row: &mut Row) -> usize {
    let (mut first, mut second) = (vec![0; row.room], vec![0; row.room]);
    let length = (row.archive)(&mut first);
    assert_eq!(length, (row.independent)(&mut second), "{}", row.name);
    assert_eq!(first, second, "{}", row.name);
    length
}

/// The median time of each call, in nanoseconds.
fn medians<const N: usize>(mut calls: [&mut dyn FnMut() -> usize; N]) -> [f64; N] {
    let times = calls.each_mut().map(|call| times_in_a_slice(*call));
    let mut samples = [(); N].map(|()| Vec::with_capacity(ROUNDS));
    for _ in 0..ROUNDS {
        for side in 0..N {
            let spent = time(calls[side], times[side]);
            samples[side].push(spent.as_nanos() as f64 / times[side] as f64);
        }
    }
    samples.map(|mut each| {
        each.sort_by(f64::total_cmp);
        each[ROUNDS / 2]
    })
}

/// How often the call runs in a slice; finding out also warms it up.
fn times_in_a_slice(call: &mut dyn FnMut() -> usize) -> usize {
    let mut times = 1;
    while time(call, times) < SLICE {
        times *= 2;
    }
    times
}

fn time(call: &mut dyn FnMut() -> usize, times: usize) -> Duration {
    let start = Instant::now();
    for _ in 0..times {
        black_box(call());
    }
    start.elapsed()
}
