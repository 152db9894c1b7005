//! How the time grows with the document: by the byte on the requested inputs, and at twice the length in the worst cases.

use crate::check::told;
use crate::clock::{least, ratio, rounds, Row, Samples};
use crate::grid::{self, grouped, joined};
use crate::inputs::{self, Input};
use crate::runners::{Runner, Settings};
use crate::worst;

type Runners = [Box<dyn Runner>];

/// The lengths that the inputs are made at.
const LENGTHS: [usize; 3] = [65_536, 1_048_576, worst::LONG];
/// How many rounds there are.
const ROUNDS: usize = 7;
/// A ratio above it is not linear, unless the other one is below: a cache that is full between two lengths makes one step, and no second one.
const LIMIT: f64 = 3.0;

/// Measures and prints. The first runner is what the others stand beside; these, of such a name, are held to the limit.
pub fn run(runners: &mut Runners, whose: &str) -> Result<(), String> {
    println!("rounds:    {ROUNDS}: the least of the times, and the median of the rounds' ratios");
    let mut above = Vec::new();
    println!("\nNanoseconds a byte at {} bytes, and the ratio of each to the one before:\n", LENGTHS.map(grouped).join(" / "));
    by_length(runners, &mut above)?;
    println!("\nMilliseconds at a quarter of the bytes, at half of them and at all of them, and the ratio of each to the one before:\n");
    at_twice(runners, &mut above)?;
    if !above.is_empty() {
        return Err(format!("both ratios above {LIMIT}: {}", above.join("; ")));
    }
    println!("\nspeed: no two ratios of {whose} are above {LIMIT}");
    Ok(())
}

fn by_length(runners: &mut Runners, above: &mut Vec<String>) -> Result<(), String> {
    let mut lines = Vec::new();
    for input in &inputs::TABLE[..inputs::REQUESTED] {
        let rows = LENGTHS.map(|length| row(input, length));
        let (_, samples) = measured(&rows, runners, |row| row.document.len() as f64)?;
        let mut line = vec![input.name.to_string()];
        (0..runners.len()).for_each(|column| line.extend(cells(input.name, (column, runners), &samples, 3, above)));
        lines.push(line);
    }
    print(&["input"], runners, &lines);
    Ok(())
}

fn row(input: &Input, length: usize) -> Row {
    Row { name: input.name.to_string(), document: (input.make)(length), settings: Settings::default() }
}

fn at_twice(runners: &mut Runners, above: &mut Vec<String>) -> Result<(), String> {
    let mut lines = Vec::new();
    for rows in worst::ALL.iter().map(|worst| worst.rows()) {
        let (answers, samples) = measured(&rows, runners, |_| 1e6)?;
        let [.., Row { name, document, .. }] = &rows;
        // one call more gives the end
        let mut line = vec![name.clone(), grouped(document.len()), grouped(answers + 1)];
        (0..runners.len()).for_each(|column| line.extend(cells(name, (column, runners), &samples, 2, above)));
        lines.push(line);
    }
    print(&["document", "bytes", "calls"], runners, &lines);
    Ok(())
}

/// How many answers the last row has, and the samples of each row and runner, in so many nanoseconds.
fn measured(rows: &[Row], runners: &mut Runners, unit: impl Fn(&Row) -> f64) -> Result<(usize, Vec<Vec<Samples>>), String> {
    let mut answers = 0;
    for row in rows {
        answers = told(row, runners)?.answers;
    }
    let mut samples = rounds(rows, runners, ROUNDS);
    for (row, samples) in rows.iter().zip(&mut samples) {
        samples.iter_mut().flatten().for_each(|sample| *sample /= unit(row));
    }
    Ok((answers, samples))
}

/// The runner's time for each row, and the ratio of each to the one before. Where all ratios are above the limit they are kept, but for the first runner's.
fn cells(
    name: &str,
    (column, runners): (usize, &Runners),
    samples: &[Vec<Samples>],
    digits: usize,
    above: &mut Vec<String>,
) -> [String; 2] {
    let times: Vec<f64> = samples.iter().map(|row| least(&row[column])).collect();
    let ratios: Vec<f64> = samples.windows(2).map(|pair| ratio(&pair[1][column], &pair[0][column])).collect();
    let told = joined(&ratios, 2);
    if column > 0 && least(&ratios) > LIMIT {
        above.push(format!("{name}, {}: {told}", runners[column].name()));
    }
    [joined(&times, digits), told]
}

/// Prints the lines, which have two cells for each runner.
fn print(first: &[&str], runners: &Runners, lines: &[Vec<String>]) {
    let head: Vec<&str> = first.iter().copied().chain(runners.iter().flat_map(|runner| [runner.name(), "ratios"])).collect();
    grid::print(&head, lines);
}
