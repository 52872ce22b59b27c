//! The Rust as a process: one command a line on standard input, one answer a line on standard output.
//! Words are decimal and comma-separated, bytes are hexadecimal, `-` is an empty list; oracle/README.md has the commands.
//! An answer begins with `ok`, `err` (a refusal of the Rust or of the stored form), or `panic` with the panic's text.
mod bound;
mod drawn;
mod stored;
mod transcript;

use bound::Bound;
use drawn::{Carried, Drawn};
use p3_field::{BabyBear, Ext, Field, PrimeCharacteristicRing};
use stark_backend::{
    poly_common::*,
    prover::{
        error::LogupZerocheckError,
        logup_zerocheck::fractional_sumcheck_gkr::{fractional_sumcheck, Frac},
        poly::evals_eq_hypercube,
        sumcheck::{fold_mle_evals, sumcheck_round_poly_evals},
        ColMajorMatrix,
    },
    verifier::fractional_sumcheck_gkr::{verify_gkr, GkrVerificationError},
    FiatShamirTranscript,
};
use std::{
    any::Any,
    io::{BufRead, Write},
    panic::{catch_unwind, AssertUnwindSafe},
};
use transcript::{Scripted, SC};

fn words(s: &str) -> Vec<u32> {
    if s == "-" {
        return vec![];
    }
    s.split(',').map(|w| w.parse().expect("a word")).collect()
}

/// Words that are not canonical are taken by their remainders.
fn base(s: &str) -> Vec<BabyBear> {
    words(s)
        .into_iter()
        .map(|w| BabyBear::from_u64(w as u64))
        .collect()
}

fn ext(s: &str) -> Vec<Ext> {
    let w = base(s);
    assert!(w.len() % 4 == 0, "split element");
    w.chunks(4).map(|c| Ext([c[0], c[1], c[2], c[3]])).collect()
}

fn number(s: &str) -> usize {
    s.parse().expect("a number")
}

fn bytes(s: &str) -> Vec<u8> {
    if s == "-" {
        return vec![];
    }
    (0..s.len() / 2)
        .map(|i| u8::from_str_radix(&s[2 * i..2 * i + 2], 16).expect("a byte"))
        .collect()
}

fn list<T: ToString>(v: impl IntoIterator<Item = T>) -> String {
    let v: Vec<String> = v.into_iter().map(|x| x.to_string()).collect();
    if v.is_empty() {
        "-".into()
    } else {
        v.join(",")
    }
}

fn hex(v: &[u8]) -> String {
    v.iter().map(|b| format!("{b:02x}")).collect()
}

fn panic_text(e: Box<dyn Any + Send>) -> String {
    let s = match (e.downcast_ref::<String>(), e.downcast_ref::<&str>()) {
        (Some(s), _) => s.clone(),
        (_, Some(s)) => s.to_string(),
        _ => String::new(),
    };
    s.split_whitespace().collect::<Vec<_>>().join("_")
}

/// A transcript that keeps what was observed and sampled, and tells it after the run.
trait Kept: FiatShamirTranscript<SC> {
    fn log(&self) -> &[u32];

    fn left(&self) -> String {
        let used = self.log().iter().filter(|&&w| w >> 31 == 1).count();
        format!("used={used} log={}", list(self.log()))
    }
}

impl Kept for Scripted {
    fn log(&self) -> &[u32] {
        &self.log
    }
}

impl Kept for Drawn {
    fn log(&self) -> &[u32] {
        &self.log
    }
}

impl Kept for Carried {
    fn log(&self) -> &[u32] {
        &self.log
    }
}

/// prove ASSERT ROWS CHALLENGES [sized]: rows are p, q.
fn prove(assert_zero: bool, rows: Vec<Ext>, version: u8, ts: impl Kept) -> String {
    let rows: Vec<Frac<Ext>> = rows.chunks(2).map(|c| Frac::new(c[0], c[1])).collect();
    let mut ts = Bound::new(ts, version, rows.len().max(1).ilog2() as usize);
    let run = catch_unwind(AssertUnwindSafe(|| {
        fractional_sumcheck::<SC, _>(&mut ts, &rows, assert_zero)
    }));
    let left = ts.left();
    match run {
        Err(e) => format!("panic text={} {left}", panic_text(e)),
        Ok(Err(LogupZerocheckError::NonZeroRootSum)) => format!("err no=8 {left}"),
        Ok(Ok((proof, xi))) => {
            let (p, q) = proof.fractional_sum;
            let stored = stored::store(version, q, &proof.claims_per_layer, &proof.sumcheck_polys);
            format!(
                "ok p={p} q={q} proof={} point={} {left}",
                hex(&stored),
                list(&xi)
            )
        }
    }
}

/// verify ROUNDS PROOF CHALLENGES
fn verify(rounds: usize, proof: &[u8], ts: impl Kept) -> String {
    let (version, proof) = match stored::load(proof) {
        Ok(loaded) => loaded,
        Err(no) => return format!("err no={no} used=0 log=-"),
    };
    let mut ts = Bound::new(ts, version, rounds);
    let run = catch_unwind(AssertUnwindSafe(|| {
        verify_gkr::<SC, _>(&proof, &mut ts, rounds)
    }));
    let left = ts.left();
    match run {
        Err(e) => format!("panic text={} {left}", panic_text(e)),
        Ok(Err(e)) => format!("err {} {left}", error(&e)),
        Ok(Ok((numer, denom, xi))) => {
            format!("ok numer={numer} denom={denom} point={} {left}", list(&xi))
        }
    }
}

fn error(e: &GkrVerificationError<Ext>) -> String {
    use GkrVerificationError::*;
    match e {
        InvalidZeroRoundValue { .. } => unreachable!("the Rust never constructs it"),
        IncorrectLayerCount { expected, actual } => {
            format!("no=14 expected={expected} actual={actual}")
        }
        IncorrectSumcheckPolyCount { expected, actual } => {
            format!("no=15 expected={expected} actual={actual}")
        }
        ZeroCheckFailed { actual } => format!("no=16 actual={actual}"),
        RootConsistencyCheckFailed { expected, actual } => {
            format!("no=17 expected={expected} actual={actual}")
        }
        IncorrectSubroundCount {
            round,
            expected,
            actual,
        } => {
            format!("no=18 round={round} expected={expected} actual={actual}")
        }
        LayerConsistencyCheckFailed {
            round,
            expected,
            actual,
        } => {
            format!("no=19 round={round} expected={expected} actual={actual}")
        }
    }
}

/// round_poly VARIABLES LAMBDA EQ COLUMNS: the prover's closure over eq and the columns p0, q0, p1, q1.
fn round_poly(variables: usize, lambda: Ext, eq: Vec<Ext>, columns: Vec<Ext>) -> String {
    let (eq, pq) = (ColMajorMatrix::new(eq, 1), ColMajorMatrix::new(columns, 4));
    let [s] = sumcheck_round_poly_evals(
        variables,
        3,
        &[eq.as_view(), pq.as_view()],
        |_x, _y, row| {
            let eq_xi = row[0][0];
            let &[p_j0, q_j0, p_j1, q_j1] = row[1].as_slice() else {
                unreachable!("four columns")
            };
            let p_prev = p_j0 * q_j1 + p_j1 * q_j0;
            let q_prev = q_j0 * q_j1;
            [eq_xi * (p_prev + lambda * q_prev)]
        },
    );
    list(&s)
}

fn helper(t: &[&str]) -> String {
    let all = |i: usize| ext(t[i]);
    let one = |i: usize| <[Ext; 1]>::try_from(all(i)).expect("one element")[0];
    let word = |i: usize| <[BabyBear; 1]>::try_from(base(t[i])).expect("one word")[0];
    match t[0] {
        "add" => (one(1) + one(2)).to_string(),
        "sub" => (one(1) - one(2)).to_string(),
        "neg" => (-one(1)).to_string(),
        "double" => one(1).double().to_string(),
        "mul" => (one(1) * one(2)).to_string(),
        "square" => one(1).square().to_string(),
        "halve" => one(1).halve().to_string(),
        "mul_base" => (one(1) * word(2)).to_string(),
        "inverse" => one(1).inverse().to_string(),
        "base_add" => (word(1) + word(2)).to_string(),
        "base_sub" => (word(1) - word(2)).to_string(),
        "base_neg" => (-word(1)).to_string(),
        "base_double" => word(1).double().to_string(),
        "base_mul" => (word(1) * word(2)).to_string(),
        "base_square" => word(1).square().to_string(),
        "base_halve" => word(1).halve().to_string(),
        "linear" => {
            interpolate_linear_at_01(&all(1).try_into().expect("two values"), one(2)).to_string()
        }
        "quadratic" => {
            interpolate_quadratic_at_012(&all(1).try_into().expect("three values"), one(2))
                .to_string()
        }
        "cubic" => {
            interpolate_cubic_at_0123(&all(1).try_into().expect("four values"), one(2)).to_string()
        }
        "eval_eq_mle" => eval_eq_mle(&all(1), &all(2)).to_string(),
        "eval_mle_evals_at_point" => {
            let mut table = all(1);
            let value = eval_mle_evals_at_point(&mut table, &all(2));
            format!("{value} {}", list(&table))
        }
        "evals_eq_hypercube" => list(&evals_eq_hypercube(&all(1))),
        "evals_eq_hypercube_serial" => list(&evals_eq_hypercube_serial(&all(1))),
        "horner_eval" => horner_eval::<Ext, Ext, Ext>(&all(1), one(2)).to_string(),
        "horner_eval_base" => horner_eval::<BabyBear, Ext, Ext>(&base(t[1]), one(2)).to_string(),
        "fold_mle_evals" => list(&fold_mle_evals(ColMajorMatrix::new(all(1), 1), one(2)).values),
        "round_poly" => round_poly(number(t[1]), one(2), all(3), all(4)),
        other => panic!("unknown command {other}"),
    }
}

/// `drawn` and `carried` stand in the place of the challenges.
fn answer(t: &[&str]) -> String {
    if !["prove", "verify"].contains(&t[0]) {
        return format!("ok {}", helper(t));
    }
    match t[3] {
        "drawn" => run(t, Drawn::default()),
        "carried" => run(t, Carried::new()),
        challenges => run(t, Scripted::new(base(challenges))),
    }
}

fn run(t: &[&str], ts: impl Kept) -> String {
    match t[0] {
        "prove" => prove(
            t[1] == "1",
            ext(t[2]),
            if t.get(4) == Some(&"sized") { 2 } else { 1 },
            ts,
        ),
        _ => verify(number(t[1]), &bytes(t[2]), ts),
    }
}

fn main() {
    std::panic::set_hook(Box::new(|_| {}));
    let mut out = std::io::BufWriter::new(std::io::stdout().lock());
    for line in std::io::stdin().lock().lines() {
        let line = line.expect("a line of text");
        let t: Vec<&str> = line.split_whitespace().collect();
        if t.is_empty() {
            continue;
        }
        let said = catch_unwind(AssertUnwindSafe(|| answer(&t)))
            .unwrap_or_else(|e| format!("panic text={}", panic_text(e)));
        writeln!(out, "{said}")
            .and_then(|()| out.flush())
            .expect("standard output");
    }
}
