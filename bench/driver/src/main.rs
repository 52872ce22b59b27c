//! Ours beside the unchanged Rust on the same inputs: the best of many short runs of each, in turn, and the ratio of the two.
//! Built twice, without and with the Rust's feature `parallel`; ours is the same in both. `bench drawn`: with drawn challenges.
#[allow(dead_code)]
#[path = "../../../oracle/rust/oracle/src/drawn.rs"]
mod drawn;
mod ours;
#[path = "../../../oracle/rust/oracle/src/stored.rs"]
mod stored;
mod theirs;
#[path = "../../../oracle/rust/oracle/src/transcript.rs"]
mod transcript;

use ours::{Layer, Rooms};
use p3_field::P;
use std::{hint::black_box, time::Instant};

/// Words below the prime, from a seed.
fn words(mut seed: u64, count: usize) -> Vec<u32> {
    let mut next = || {
        seed = seed.wrapping_mul(6364136223846793005).wrapping_add(1442695040888963407);
        ((seed >> 33) % u64::from(P)) as u32
    };
    (0..count).map(|_| next()).collect()
}

/// Rows whose sum is zero: each of the second half is the negative of one of the first.
fn zero_sum(n: usize) -> Vec<u32> {
    let first = words(n as u64, 4 << n);
    let second = first.iter().enumerate().map(|(i, &w)| if i % 8 < 4 { (P - w) % P } else { w }).collect();
    [first, second].concat()
}

fn timed<T>(call: impl FnOnce() -> T) -> (f64, T) {
    let start = Instant::now();
    let answer = black_box(call());
    (start.elapsed().as_secs_f64() * 1e6, answer)
}

/// Runs both in turn; each gives its microseconds and what it answers, which must be the same.
fn compare<T: PartialEq>(name: &str, runs: usize, mut ours: impl FnMut() -> (f64, T), mut theirs: impl FnMut() -> (f64, T)) {
    let (mut a, mut b) = (f64::INFINITY, f64::INFINITY);
    for _ in 0..runs {
        let ((t, x), (u, y)) = (ours(), theirs());
        assert!(x == y, "{name}: the two disagree");
        (a, b) = (a.min(t), b.min(u));
    }
    println!("{name:32} {a:10.2} {b:10.2} {:8.3}", a / b);
}

/// The challenges of a run of n rounds.
fn challenges(n: usize) -> Vec<u32> {
    words(99, 4 * (2 * n - 1 + n * (n - 1) / 2))
}

/// With the challenges given, or drawn by each of the two.
fn prover(n: usize, challenges: Option<&[u32]>) {
    let rows = zero_sum(n);
    let fractions = theirs::fractions(&rows);
    let proved = || {
        let mut rooms = Rooms::cleared(n);
        let (t, number) = timed(|| ours::prove(&rows, challenges, &mut rooms));
        assert!(number == 0 && rooms.work.iter().all(|&w| w == 0));
        (t, (rooms.proof, rooms.point, rooms.log))
    };
    compare(&format!("prover, n = {n}"), 1000, proved, || theirs::prove(&fractions, challenges));
}

fn verifier(n: usize, challenges: Option<&[u32]>) {
    let (_, (proof, ..)) = theirs::prove(&theirs::fractions(&zero_sum(n)), challenges);
    let (_, parsed) = stored::load(&proof).ok().expect("a stored proof");
    let verified = || {
        let mut rooms = Rooms::cleared(n);
        let (t, number) = timed(|| ours::verify(&proof, n, challenges, &mut rooms));
        assert!(number == 0);
        (t, (rooms.point, rooms.log))
    };
    compare(&format!("verifier, n = {n}"), 2000, verified, || theirs::verify(&parsed, n, challenges));
}

fn layer() {
    let begun = words(9, 8).try_into().expect("two elements");
    let l = Layer { work: words(7, 32 << 10), at: 4096, pq: 1024, half: 256, begun };
    let x = words(8, 4);
    let (sums, fold) = (ours::round_sums(&l), ours::fold(&l, &x));
    let copied = || Layer { work: l.work.clone(), ..l };
    let summed = || {
        let mut m = copied();
        timed(|| sums(&mut m))
    };
    compare("round sums, 512 entries", 1000, summed, || theirs::round_sums(&l, &[0; 4]));
    let folded = || {
        let mut m = copied();
        sums(&mut m);
        let (t, ()) = timed(|| fold(&mut m, &x));
        (t, theirs::columns(&m, m.half))
    };
    compare("fold, 4 columns of 512 entries", 1000, folded, || theirs::fold(&l, &x));
}

fn products() {
    let n = 10_000;
    let (a, b) = (1234567890, 987654321);
    let (x, y) = (theirs::ext(&[a, b, a, b]), theirs::ext(&[b, a, b, a]));
    compare("product, one chain of 10,000", 400, || timed(|| ours::chain(black_box(a), black_box(b), n)), || timed(|| theirs::chain(black_box(x), black_box(y), n)));
    let starts = [[a, b, a, b], [b, a, a, b], [a, a, b, b], [b, b, a, a]].map(|w| theirs::ext(&w));
    compare("products, four chains of 10,000", 400, || timed(|| ours::chains(black_box(a), black_box(b), n)), || timed(|| theirs::chains(black_box(starts), black_box(y), n)));
}

fn main() {
    let kind = if cfg!(feature = "parallel") { "two cores" } else { "serial" };
    let drawn = std::env::args().nth(1).as_deref() == Some("drawn");
    let kind = if drawn { "serial, drawn" } else { kind };
    println!("{:32} {:>10} {:>10} {:>8}", format!("µs, the Rust {kind}"), "ours", "the Rust", "ratio");
    if drawn {
        (1..=10).for_each(|n| prover(n, None));
        (1..=10).for_each(|n| verifier(n, None));
        return;
    }
    for n in 1..=10 {
        prover(n, Some(&challenges(n)));
    }
    for n in [4, 10] {
        verifier(n, Some(&challenges(n)));
    }
    layer();
    products();
}
