//! The proved functions, by their C names: a slice is a pointer and a length.
#[link(name = "accudrina")]
extern "C" {
    fn accudrina_prove(
        rows: *const u32, rows_len: usize, modes: u32, challenges: *const u32, challenges_len: usize,
        proof: *mut u8, proof_len: usize, point: *mut u32, point_len: usize, log: *mut u32, log_len: usize,
        work: *mut u32, work_len: usize, answer: *mut u32,
    ) -> u32;
    fn accudrina_verify(
        proof: *const u8, proof_len: usize, rounds: usize, modes: u32, challenges: *const u32, challenges_len: usize,
        point: *mut u32, point_len: usize, log: *mut u32, log_len: usize, answer: *mut u32,
    ) -> u32;
}

extern "C" {
    fn field_bench_chain(a: u32, b: u32, n: usize) -> u32;
    fn field_bench_chains(a: u32, b: u32, n: usize) -> u32;
    fn layer_bench_round_sums(
        work: *mut u32, work_len: usize, at: usize, pq: usize, half: usize, begun: *const u32, begun_len: usize, out: *mut u32, out_len: usize,
    );
    fn layer_bench_fold(work: *mut u32, work_len: usize, pq: usize, half: usize, rho: *const u32, rho_len: usize);
}

const LIVE: u32 = 1;
const ASSERT_ZERO: u32 = 2;
const DRAWN: u32 = 4;

/// What a run over 2^n rows is lent.
pub struct Rooms {
    pub proof: Vec<u8>,
    pub point: Vec<u32>,
    pub log: Vec<u32>,
    pub work: Vec<u32>,
}

impl Rooms {
    pub fn cleared(n: usize) -> Self {
        Rooms {
            proof: vec![0; 22 + 65 * n + 24 * n * (n - 1)],
            point: vec![0; 4 * n],
            log: vec![0; 8 * n * n + 16 * n],
            work: vec![0; 32 << n],
        }
    }
}

/// The mode of the challenges, and what is lent of them.
fn source(challenges: Option<&[u32]>) -> (u32, &[u32]) {
    challenges.map_or((DRAWN, &[]), |lent| (0, lent))
}

/// Live, the zero sum asserted, the challenges given or drawn; the answer's number.
pub fn prove(rows: &[u32], challenges: Option<&[u32]>, to: &mut Rooms) -> u32 {
    let (drawn, challenges) = source(challenges);
    let mut answer = [0; 16];
    unsafe {
        accudrina_prove(
            rows.as_ptr(), rows.len(), LIVE | ASSERT_ZERO | drawn, challenges.as_ptr(), challenges.len(), to.proof.as_mut_ptr(), to.proof.len(),
            to.point.as_mut_ptr(), to.point.len(), to.log.as_mut_ptr(), to.log.len(), to.work.as_mut_ptr(), to.work.len(), answer.as_mut_ptr(),
        )
    }
}

pub fn verify(proof: &[u8], n: usize, challenges: Option<&[u32]>, to: &mut Rooms) -> u32 {
    let (drawn, challenges) = source(challenges);
    let mut answer = [0; 16];
    unsafe {
        accudrina_verify(
            proof.as_ptr(), proof.len(), n, drawn, challenges.as_ptr(), challenges.len(), to.point.as_mut_ptr(), to.point.len(),
            to.log.as_mut_ptr(), to.log.len(), answer.as_mut_ptr(),
        )
    }
}

pub fn chain(a: u32, b: u32, n: usize) -> u32 {
    unsafe { field_bench_chain(a, b, n) }
}

pub fn chains(a: u32, b: u32, n: usize) -> u32 {
    unsafe { field_bench_chains(a, b, n) }
}

/// The claims of a layer as they stand in a workspace, from node `pq` on, and half as many weights from cell `at` on;
/// `begun`: eq of the coordinates so far, and the coordinate of this sub-round.
pub struct Layer {
    pub work: Vec<u32>,
    pub at: usize,
    pub pq: usize,
    pub half: usize,
    pub begun: [u32; 8],
}

/// All that the inner functions ask for of their caller is tested here.
fn fits(l: &Layer, x: &[u32]) {
    assert!(2 * l.pq + 8 * l.half <= l.at && 4 * (l.at + l.half) <= l.work.len() && x.len() >= 4);
    assert!(l.work.iter().chain(&l.begun).chain(x).all(|&w| w < p3_field::P));
}

/// Over weighed claims: lambda is in p1 already. Every odd entry becomes a difference.
pub fn round_sums(l: &Layer) -> impl Fn(&mut Layer) -> [u32; 12] {
    fits(l, &[0; 4]);
    |l| {
        let mut out = [0; 12];
        unsafe { layer_bench_round_sums(l.work.as_mut_ptr(), l.work.len(), l.at, l.pq, l.half, l.begun.as_ptr(), 8, out.as_mut_ptr(), 12) };
        out
    }
}

/// Over the differences that the sums leave.
pub fn fold(l: &Layer, rho: &[u32]) -> impl Fn(&mut Layer, &[u32]) {
    fits(l, rho);
    |l, rho| unsafe { layer_bench_fold(l.work.as_mut_ptr(), l.work.len(), l.pq, l.half, rho.as_ptr(), rho.len()) }
}
