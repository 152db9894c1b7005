//! The plain engine beside the reader: what it takes as ratios to ours, and how its time grows.

use crate::clock::{least, ratio, ratios};
use crate::growth;
use crate::inputs;
use crate::runners::archive::{Archive, Linked, Plain};
use crate::runners::Runner;
use crate::table;

/// It may take so many times as long on the requested inputs. Nothing fails by that.
const GOAL: f64 = 10.0;

/// Ours, which the other is held to, and the plain engine.
fn runners() -> Vec<Box<dyn Runner>> {
    vec![Box::new(Archive::new("ours".into(), Linked)), Box::new(Archive::new("plain".into(), Plain))]
}

/// The table, and whether the goal is reached.
pub fn run(rounds: usize) -> Result<(), String> {
    let samples = table::run(&table::rows(), &mut runners(), rounds)?;
    println!();
    for (input, samples) in inputs::TABLE[..inputs::REQUESTED].iter().zip(&samples) {
        let (ours, plain) = (&samples[0], &samples[1]);
        let times = (least(plain) / least(ours)).max(ratio(plain, ours));
        let told = if times <= GOAL { "at most" } else { "more than" };
        println!("speed: {}: the plain engine takes {told} {GOAL} times the time of ours: {}", input.name, ratios(plain, ours));
    }
    Ok(())
}

/// The tables of growth.
pub fn growing() -> Result<(), String> {
    growth::run(&mut runners(), "the plain engine")
}
