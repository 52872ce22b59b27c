//! Proves and verifies 1/1 + 2/1 − 1/1 − 2/1 = 0, prints the claims on the sheet and the point, and compares them with the sheet.
use accudrina::{evaluate, prove, verify, Element, Fraction, Mode, Refusal, Sum, PRIME};

fn main() -> Result<(), Refusal> {
    let rows = [1, 2, PRIME - 1, PRIME - 2].map(|p| Fraction::new(Element::new(p), Element::ONE));
    let challenges = [2, 1, 3, 4].map(Element::new);
    let proved = prove(&rows, Mode::Live, Sum::AssertZero, &challenges)?;
    let accepted = verify(&proved.proof, proved.rounds, Mode::Live, &challenges)?;
    println!("numer {:?}", accepted.claims.numer.0);
    println!("denom {:?}", accepted.claims.denom.0);
    println!("point {:?}", accepted.point.iter().map(|e| e.0).collect::<Vec<_>>());
    println!("used {} challenges, {} log words", accepted.used.challenges, accepted.used.log_words);
    println!("of this sheet: {}", evaluate(&rows, &accepted.point)? == accepted.claims);
    Ok(())
}
