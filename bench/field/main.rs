// Times the extension's products in the proved crate and in plain Rust, and prints the ratio.
use std::hint::black_box;
use std::time::Instant;

extern "C" {
    fn field_bench_chain(a: u32, b: u32, n: usize) -> u32;
    fn field_bench_chains(a: u32, b: u32, n: usize) -> u32;
}

const P: u64 = 2013265921;

#[derive(Clone, Copy)]
struct Ext([u32; 4]);

// The same arithmetic: x⁴ = 11 taken into the second factor, four products reduced once.
fn times(a: Ext, b: Ext) -> Ext {
    let [b0, b1, b2, b3] = b.0;
    let eleven = |w: u32| (11 * w as u64 % P) as u32;
    let (e1, e2, e3) = (eleven(b1), eleven(b2), eleven(b3));
    let dot = |w: [u32; 4]| ((0..4).map(|k| a.0[k] as u64 * w[k] as u64).sum::<u64>() % P) as u32;
    Ext([dot([b0, e3, e2, e1]), dot([b1, b0, e3, e2]), dot([b2, b1, b0, e3]), dot([b3, b2, b1, b0])])
}

fn plus(a: Ext, b: Ext) -> Ext {
    Ext([0, 1, 2, 3].map(|k| ((a.0[k] as u64 + b.0[k] as u64) % P) as u32))
}

#[inline(never)]
fn chain(a: u32, b: u32, n: usize) -> u32 {
    let y = Ext([b, a, b, a]);
    let mut x = Ext([a, b, a, b]);
    for _ in 0..n {
        x = times(x, y);
    }
    x.0[0]
}

#[inline(never)]
fn chains(a: u32, b: u32, n: usize) -> u32 {
    let y = Ext([b, a, b, a]);
    let mut x = [Ext([a, b, a, b]), Ext([b, a, a, b]), Ext([a, a, b, b]), Ext([b, b, a, a])];
    for _ in 0..n {
        x = x.map(|x| times(x, y));
    }
    plus(plus(x[0], x[1]), plus(x[2], x[3])).0[0]
}

type Loop = fn(u32, u32, usize) -> u32;

// Nanoseconds of one run, and its answer.
fn timed(f: Loop, n: usize) -> (f64, u32) {
    let start = Instant::now();
    let word = f(black_box(1234567890), black_box(987654321), n);
    (start.elapsed().as_secs_f64() * 1e9, word)
}

// The best of many short runs of each, in turn, so that a busy machine disturbs both alike.
fn compare(name: &str, products: usize, n: usize, proved: Loop, plain: Loop) {
    let (mut a, mut b) = (f64::MAX, f64::MAX);
    for _ in 0..400 {
        let ((t, word), (u, other)) = (timed(proved, n), timed(plain, n));
        assert_eq!(word, other, "the two disagree");
        a = a.min(t / products as f64);
        b = b.min(u / products as f64);
    }
    println!("{name}: proved {a:.2} ns a product, {:.0} million a second; Rust {b:.2} ns; ratio {:.2}", 1e3 / a, a / b);
}

fn main() {
    let n = 20_000;
    compare("one chain", n, n, |a, b, n| unsafe { field_bench_chain(a, b, n) }, chain);
    compare("four chains", 4 * n, n, |a, b, n| unsafe { field_bench_chains(a, b, n) }, chains);
}
