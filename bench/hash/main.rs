//! The proved permutation and hash beside plain Rust ones, in turn, the best of many short runs of each: nanoseconds.
use std::hint::black_box;
use std::time::Instant;

const CONSTANTS: [u64; 24] = [
    0x0000000000000001, 0x0000000000008082, 0x800000000000808a, 0x8000000080008000, 0x000000000000808b, 0x0000000080000001,
    0x8000000080008081, 0x8000000000008009, 0x000000000000008a, 0x0000000000000088, 0x0000000080008009, 0x000000008000000a,
    0x000000008000808b, 0x800000000000008b, 0x8000000000008089, 0x8000000000008003, 0x8000000000008002, 0x8000000000000080,
    0x000000000000800a, 0x800000008000000a, 0x8000000080008081, 0x8000000000008080, 0x0000000080000001, 0x8000000080008008,
];
const OFFSETS: [u32; 24] = [1, 3, 6, 10, 15, 21, 28, 36, 45, 55, 2, 14, 27, 41, 56, 8, 25, 43, 62, 18, 39, 61, 20, 44];
const PLACES: [usize; 24] = [10, 7, 11, 17, 18, 3, 5, 16, 8, 21, 24, 4, 15, 23, 19, 13, 12, 2, 20, 14, 22, 9, 6, 1];

extern "C" {
    fn keccak_bench_permute(a: u64, n: usize) -> u64;
    fn keccak_bench_draws(label: *const u8, label_len: usize, words: *const u32, words_len: usize) -> u32;
    fn keccak_bench_hash(label: *const u8, label_len: usize, words: *const u32, words_len: usize, out: *mut u8, out_len: usize);
}

/// The compact loop that most plain implementations have; the compiler unrolls it.
#[inline(never)]
fn plain(s: &mut [u64; 25]) {
    let mut b = [0u64; 5];
    for k in 0..24 {
        for i in 0..5 {
            b[i] = s[i] ^ s[i + 5] ^ s[i + 10] ^ s[i + 15] ^ s[i + 20];
        }
        for i in 0..5 {
            let t = b[(i + 4) % 5] ^ b[(i + 1) % 5].rotate_left(1);
            for j in 0..5 {
                s[5 * j + i] ^= t;
            }
        }
        let mut t = s[1];
        for i in 0..24 {
            let u = s[PLACES[i]];
            s[PLACES[i]] = t.rotate_left(OFFSETS[i]);
            t = u;
        }
        for j in 0..5 {
            b.copy_from_slice(&s[5 * j..5 * j + 5]);
            for i in 0..5 {
                s[5 * j + i] ^= !b[(i + 1) % 5] & b[(i + 2) % 5];
            }
        }
        s[0] ^= CONSTANTS[k];
    }
}

#[inline(never)]
fn plain_times(a: u64, n: usize) -> u64 {
    let mut s = [0; 25];
    s[0] = a;
    for _ in 0..n {
        plain(&mut s);
    }
    s[0]
}

/// SHAKE128 of a label and words, highest byte first.
#[inline(never)]
fn plain_hash(label: &[u8], words: &[u32], out: &mut [u8]) {
    let mut m = label.to_vec();
    for w in words {
        m.extend_from_slice(&w.to_be_bytes());
    }
    m.push(31);
    m.resize(m.len().next_multiple_of(168), 0);
    *m.last_mut().unwrap() += 128;
    let mut s = [0u64; 25];
    for block in m.chunks_exact(168) {
        xor_block(&mut s, block);
        plain(&mut s);
    }
    for (i, b) in out.iter_mut().enumerate() {
        if i > 0 && i % 168 == 0 {
            plain(&mut s);
        }
        *b = (s[i % 168 / 8] >> (8 * (i % 8))) as u8;
    }
}

fn xor_block(s: &mut [u64; 25], block: &[u8]) {
    for (lane, bytes) in s.iter_mut().zip(block.chunks_exact(8)) {
        *lane ^= u64::from_le_bytes(bytes.try_into().unwrap());
    }
}

/// The sum of the words drawn from a label and the first 0, 1, .. of the words: the state is carried, with a block that is filled.
#[inline(never)]
fn plain_draws(label: &[u8], words: &[u32]) -> u32 {
    let (mut s, mut block, mut filled, mut sum) = ([0u64; 25], [0u8; 168], label.len(), 0);
    block[..filled].copy_from_slice(label);
    for w in words {
        let (mut t, mut last) = (s, block);
        last[filled..].fill(0);
        last[filled] = 31;
        last[167] |= 128;
        xor_block(&mut t, &last);
        plain(&mut t);
        sum = (sum + t[0].swap_bytes() % 2013265921) % 2013265921;
        for b in w.to_be_bytes() {
            block[filled] = b;
            filled += 1;
            if filled == 168 {
                xor_block(&mut s, &block);
                plain(&mut s);
                filled = 0;
            }
        }
    }
    sum as u32
}

fn draws(label: &[u8], words: &[u32]) -> u32 {
    unsafe { keccak_bench_draws(label.as_ptr(), label.len(), words.as_ptr(), words.len()) }
}

fn hash(label: &[u8], words: &[u32], out: &mut [u8]) {
    unsafe { keccak_bench_hash(label.as_ptr(), label.len(), words.as_ptr(), words.len(), out.as_mut_ptr(), out.len()) }
}

/// The best of each, in turn, so that a busy machine disturbs both alike; they must give the same.
fn compare<T: PartialEq>(name: &str, runs: usize, each: usize, mut ours: impl FnMut() -> T, mut theirs: impl FnMut() -> T) {
    let mut best = [f64::MAX; 2];
    for _ in 0..runs {
        let start = Instant::now();
        let a = black_box(ours());
        let middle = Instant::now();
        let b = black_box(theirs());
        let end = Instant::now();
        assert!(a == b, "{name}: the two disagree");
        best = [best[0].min((middle - start).as_nanos() as f64), best[1].min((end - middle).as_nanos() as f64)];
    }
    let [o, r] = best.map(|t| t / each as f64);
    println!("{name:44} {o:8.0} {r:8.0} {:6.2}", o / r);
}

fn main() {
    let runs = std::env::args().nth(1).map_or(5000, |n| n.parse().expect("a number of runs"));
    println!("{:44} {:>8} {:>8} {:>6}", "ns, the best of many", "ours", "Rust", "ratio");
    let n = 20;
    compare("permutation", runs, n, || unsafe { keccak_bench_permute(black_box(7), n) }, || plain_times(black_box(7), n));
    for count in [40, 1000] {
        let words: Vec<u32> = (0..count).map(|i: u32| i.wrapping_mul(0x9e37_79b9) ^ i << 7).collect();
        let name = format!("a draw, of {count} over a log that grows");
        compare(&name, runs / 10, count as usize, || draws(b"frac-gkr/1", &words), || plain_draws(b"frac-gkr/1", &words));
    }
    for (words, length) in [(0, 32), (0, 8), (64, 8), (2048, 8), (0, 1680)] {
        let label = b"frac-gkr/1";
        let words: Vec<u32> = (0..words).map(|i: u32| i.wrapping_mul(0x9e37_79b9) ^ i << 7).collect();
        let (mut x, mut y) = (vec![0; length], vec![0; length]);
        let blocks = (label.len() + 4 * words.len()) / 168 + 1 + (length - 1) / 168;
        let name = format!("{} words to {length} bytes, {blocks} permutations", words.len());
        compare(&name, runs, 1, || { hash(label, &words, &mut x); x.clone() }, || { plain_hash(label, &words, &mut y); y.clone() });
    }
}
