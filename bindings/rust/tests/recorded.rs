//! The Rust's recorded answers (oracle/README.md), through the exported functions: every number, field and word of every buffer.
use accudrina::{
    evaluate_words, prove_into, read_sheet_into, replay_into, verify_into, Challenges, Done, Element, Evaluated, Logged, Mode, Proving,
    Refusal, Refused, Rooms, Sum, Used, Verified, Verifying, Version, Words,
};
use std::{fs, path::PathBuf};

/// The numbers of a line, taken from the front.
struct Line<'a>(std::str::SplitWhitespace<'a>);

impl Line<'_> {
    fn number(&mut self) -> u64 {
        self.0.next().unwrap().parse().unwrap()
    }

    fn words(&mut self) -> Vec<u32> {
        (0..self.number()).map(|_| self.number() as u32).collect()
    }

    fn bytes(&mut self) -> Vec<u8> {
        self.words().iter().map(|&b| b as u8).collect()
    }

    /// As many buffers, each of the next length, and then with the fill that stands at the end.
    fn buffers<const N: usize>(&mut self) -> [Vec<u32>; N] {
        let lengths: [u64; N] = std::array::from_fn(|_| self.number());
        let fill = self.number() as u32;
        lengths.map(|n| vec![fill; n as usize])
    }
}

/// The number and the eleven fields of an answer.
type Told = [u32; 12];

fn told(number: u32, plain: [u32; 3], left: Element, right: Element) -> Told {
    [&[number], &plain[..], &left.0, &right.0].concat().try_into().unwrap()
}

/// The number of a list, as the header has it.
fn list_number(list: Words) -> u32 {
    match list {
        Words::Rows => 1,
        Words::Proof => 2,
        Words::Challenges => 3,
        Words::Point => 4,
        Words::Unknown { number } => number,
    }
}

fn refused(refusal: Refusal) -> Told {
    let (none, zero) = ([0; 3], Element::ZERO);
    let (plain, left, right) = match refusal {
        Refusal::BadWord { place, list } => ([place, list_number(list), 0], zero, zero),
        Refusal::ZeroDenominator { row } => ([row, 0, 0], zero, zero),
        Refusal::IncorrectLayerCount { expected, actual } => ([expected, actual, 0], zero, zero),
        Refusal::IncorrectSumcheckPolyCount { expected, actual } => ([expected, actual, 0], zero, zero),
        Refusal::ZeroCheckFailed { actual } | Refusal::InvalidZeroRoundValue { actual } => (none, actual, zero),
        Refusal::RootConsistencyCheckFailed { expected, actual } => (none, expected, actual),
        Refusal::IncorrectSubroundCount { round, expected, actual } => ([round, expected, actual], zero, zero),
        Refusal::LayerConsistencyCheckFailed { round, expected, actual } => ([round, 0, 0], expected, actual),
        Refusal::LogMismatch { place } | Refusal::LogShort { place } | Refusal::LogLong { place } => ([place, 0, 0], zero, zero),
        _ => (none, zero, zero),
    };
    told(refusal.number(), plain, left, right)
}

/// And what was used up.
fn counted(told: Told, used: Used) -> Vec<u32> {
    [&told[..], &[used.challenges as u32, used.log_words as u32]].concat()
}

fn stopped(r: Refused) -> Vec<u32> {
    counted(refused(r.refusal), r.used)
}

/// A list with its length before it.
fn listed(words: &[u32]) -> Vec<u32> {
    [&[words.len() as u32], words].concat()
}

/// The modes of a case: 1 where live, 4 where challenges are drawn; the prover's 8, where the proof binds its size, and the verifier's 16, where 0 rounds are valid, are looked at
/// beside them.
fn modes(word: u64) -> (Mode, bool) {
    (if word & 1 == 1 { Mode::Live } else { Mode::Sandbox }, word & 4 == 4)
}

fn source(drawn: bool, lent: &[u32]) -> Challenges<'_, u32> {
    if drawn {
        Challenges::Drawn
    } else {
        Challenges::Supplied(lent)
    }
}

fn prover(case: &mut Line<'_>) -> Vec<u32> {
    let word = case.number();
    let (mode, drawn) = modes(word);
    let how = Proving { mode, version: if word & 8 == 8 { Version::Two } else { Version::One } };
    let sum = if case.number() == 1 { Sum::AssertZero } else { Sum::Observe };
    let (rows, challenges) = (case.words(), case.words());
    let [proof, mut point, mut log, mut work] = case.buffers();
    let mut proof: Vec<u8> = proof.iter().map(|&b| b as u8).collect();
    let rooms = Rooms { proof: &mut proof, point: &mut point, log: &mut log, work: &mut work };
    let done = |d: Done| counted(told(0, [d.rounds as u32, 0, 0], d.sum.p, d.sum.q), d.used);
    let answer = prove_into(&rows, how, sum, source(drawn, &challenges), rooms).map_or_else(stopped, done);
    let proof: Vec<u32> = proof.into_iter().map(u32::from).collect();
    [answer, listed(&proof), listed(&point), listed(&log), listed(&work)].concat()
}

fn verifier(case: &mut Line<'_>) -> Vec<u32> {
    let rounds = case.number() as usize;
    let word = case.number();
    let (mode, drawn) = modes(word);
    let how = Verifying { mode, empty: word & 16 == 16 };
    let (proof, challenges) = (case.bytes(), case.words());
    let [mut point, mut log] = case.buffers();
    let accepted = |v: Verified| counted(told(0, [0; 3], v.claims.numer, v.claims.denom), v.used);
    let answer = verify_into(&proof, rounds, how, source(drawn, &challenges), &mut point, &mut log).map_or_else(stopped, accepted);
    [answer, listed(&point), listed(&log)].concat()
}

fn log(case: &mut Line<'_>) -> Vec<u32> {
    let rounds = case.number() as usize;
    let word = case.number();
    let (mode, drawn) = modes(word);
    let how = Verifying { mode, empty: word & 16 == 16 };
    let (proof, log) = (case.bytes(), case.words());
    let [mut point] = case.buffers();
    let logged = if drawn { Logged::Drawn } else { Logged::Supplied };
    let accepted = |v: Verified| counted(told(0, [0; 3], v.claims.numer, v.claims.denom), v.used);
    let answer = replay_into(&proof, rounds, how, logged, &log, &mut point).map_or_else(stopped, accepted);
    [answer, listed(&point)].concat()
}

fn sheet(case: &mut Line<'_>) -> Vec<u32> {
    let bytes = case.bytes();
    let [mut rows] = case.buffers();
    let read = |count| told(0, [count as u32, 0, 0], Element::ZERO, Element::ZERO);
    let answer = read_sheet_into(&bytes, &mut rows).map_or_else(refused, read);
    [answer.to_vec(), listed(&rows)].concat()
}

fn evaluation(case: &mut Line<'_>) -> Vec<u32> {
    let (rows, point) = (case.words(), case.words());
    let done = |e: Evaluated| told(0, [e.rounds as u32, 0, 0], e.values.numer, e.values.denom);
    evaluate_words(&rows, &point).map_or_else(refused, done).to_vec()
}

/// Every case of a kind gives its recorded answer.
fn replay(kind: &str, call: fn(&mut Line<'_>) -> Vec<u32>) {
    let folder = PathBuf::from(env!("CARGO_MANIFEST_DIR")).join(format!("../../crates/replay_{kind}"));
    let read = |file: &str| fs::read_to_string(folder.join(file)).unwrap();
    let (cases, answers) = (read("stdin"), read("stdout"));
    assert_eq!(cases.lines().count(), answers.lines().count());
    for (at, (case, answer)) in cases.lines().zip(answers.lines()).enumerate() {
        let mut line = Line(case.split_whitespace());
        line.number();
        let words: Vec<String> = call(&mut line).iter().map(u32::to_string).collect();
        assert_eq!(words.join(" "), answer, "{kind}, line {}", at + 1);
        assert!(line.0.next().is_none());
    }
}

#[test]
fn recorded_prover() {
    replay("prover", prover);
}

#[test]
fn recorded_verifier() {
    replay("verifier", verifier);
}

#[test]
fn recorded_logs() {
    replay("log", log);
}

#[test]
fn recorded_sheets() {
    replay("sheet", sheet);
}

#[test]
fn recorded_evaluations() {
    replay("evaluation", evaluation);
}
