//! The best time of many calls over lent buffers, wiping, checks and log included; buffers are made and cleared before the clock starts.
use accudrina::{prove_into, rooms, verify_into, Mode, Rooms, Sum, Version, PRIME};
use std::{hint::black_box, time::Instant};

/// Microseconds of the fastest of many calls.
fn best(calls: usize, mut call: impl FnMut()) -> f64 {
    let time = |call: &mut dyn FnMut()| {
        let start = Instant::now();
        call();
        start.elapsed().as_secs_f64() * 1e6
    };
    (0..calls).map(|_| time(&mut call)).fold(f64::INFINITY, f64::min)
}

/// Words below the prime, from a seed.
fn words(mut seed: u64, count: usize) -> Vec<u32> {
    let mut next = || {
        seed = seed.wrapping_mul(6364136223846793005).wrapping_add(1442695040888963407);
        ((seed >> 33) % u64::from(PRIME)) as u32
    };
    (0..count).map(|_| next()).collect()
}

/// Rows whose sum is zero: each of the second half is the negative of one of the first.
fn zero_sum(rounds: usize) -> Vec<u32> {
    let first = words(rounds as u64, 4 << rounds);
    let negative = |row: &[u32]| row.iter().enumerate().map(|(i, &w)| if i < 4 { (PRIME - w) % PRIME } else { w }).collect::<Vec<_>>();
    let second = first.chunks(8).flat_map(negative).collect();
    [first, second].concat()
}

fn main() {
    println!("rounds  prove µs  verify µs");
    for n in [1, 2, 4, 6, 8, 10] {
        let (rows, challenges) = (zero_sum(n), words(99, rooms::challenge_words(n)));
        let mut proof = vec![0; rooms::proof_bytes(n)];
        let (mut point, mut log) = (vec![0; rooms::point_words(n)], vec![0; rooms::log_words(n, Sum::AssertZero, Version::One)]);
        let mut work = vec![0; rooms::workspace_words(n)];
        let proving = best(2000, || {
            let lent = Rooms { proof: &mut proof, point: &mut point, log: &mut log, work: &mut work };
            black_box(prove_into(black_box(&rows), Mode::Live, Sum::AssertZero, &challenges, lent)).expect("proved");
        });
        let verifying = best(2000, || {
            black_box(verify_into(black_box(&proof), n, Mode::Live, &challenges, &mut point, &mut log)).expect("accepted");
        });
        println!("{n:6}  {proving:8.1}  {verifying:9.1}");
    }
}
