//! The time of one square root: the proved one beside Rust's, in one run, as ratios.
//!
//! Each slice runs all sides over the same inputs; the least time of many slices counts.

use std::hint::black_box;
use std::time::Instant;

use maps::Seed;

use crate::proved::Leaves;

const INPUTS: usize = 4096;
const SLICES: usize = 3000;

#[inline(never)]
extern "C" fn rust_root(x: f32) -> f32 {
    x.sqrt()
}

/// Calls that do not wait for each other.
#[inline(always)]
fn independent(inputs: &[f32], root: impl Fn(f32) -> f32) -> f64 {
    let start = Instant::now();
    let mut sum = 0u32;
    for &x in inputs {
        sum = sum.wrapping_add(root(black_box(x)).to_bits());
    }
    black_box(sum);
    start.elapsed().as_nanos() as f64 / inputs.len() as f64
}

/// Each input waits for the answer before it.
#[inline(always)]
fn dependent(inputs: &[f32], root: impl Fn(f32) -> f32) -> f64 {
    let start = Instant::now();
    let mut last = 0u32;
    for &x in inputs {
        last = root(f32::from_bits(x.to_bits() ^ (last & 1))).to_bits();
    }
    black_box(last);
    start.elapsed().as_nanos() as f64 / inputs.len() as f64
}

pub fn run() -> bool {
    let mut seed = Seed::named(1, "root-time");
    let mut from = |least: u32, most: u32| -> Vec<f32> {
        (0..INPUTS)
            .map(|_| f32::from_bits(least + seed.below((most - least) as u64) as u32))
            .collect()
    };
    let kinds = [
        ("any normal", from(0x0080_0000, 0x7f80_0000)),
        ("near 1", from(0x3f7f_fff0, 0x3f80_0010)),
        ("1 to 2^24", from(0x3f80_0000, 0x4b80_0000)),
        ("subnormal", from(1, 0x0080_0000)),
    ];
    let proved = black_box(Leaves::linked().sqrt);
    let called = black_box(rust_root as extern "C" fn(f32) -> f32);
    println!("ns a root, least of {SLICES} slices of {INPUTS}; ratio: proved / Rust");
    println!(
        "{:<12} {:<12} {:>8} {:>12} {:>12} {:>14} {:>14}",
        "inputs", "calls", "proved", "Rust inline", "Rust called", "ratio inline", "ratio called"
    );
    for (name, inputs) in &kinds {
        let least = least(inputs, proved, called);
        for (way, calls) in ["independent", "dependent"].iter().enumerate() {
            let [p, inline, called] = least[way];
            println!(
                "{name:<12} {calls:<12} {p:>8.2} {inline:>12.2} {called:>12.2} {:>14.2} {:>14.2}",
                p / inline,
                p / called
            );
        }
    }
    true
}

/// The least times of all slices: calls of both kinds, of the proved root, of Rust's inlined and called.
fn least(
    inputs: &[f32],
    proved: unsafe extern "C" fn(f32) -> f32,
    called: extern "C" fn(f32) -> f32,
) -> [[f64; 3]; 2] {
    let mut least = [[f64::MAX; 3]; 2];
    for _ in 0..SLICES {
        let slice = [
            [
                independent(inputs, |x| unsafe { proved(x) }),
                independent(inputs, |x| x.sqrt()),
                independent(inputs, |x| called(x)),
            ],
            [
                dependent(inputs, |x| unsafe { proved(x) }),
                dependent(inputs, |x| x.sqrt()),
                dependent(inputs, |x| called(x)),
            ],
        ];
        for (least, times) in least.as_flattened_mut().iter_mut().zip(slice.as_flattened()) {
            *least = least.min(*times);
        }
    }
    least
}
