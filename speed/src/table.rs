//! The table: every column beside the first one, on the inputs asked for.

use crate::check::told;
use crate::clock::{least, ratios, rounds, Row, Samples};
use crate::grid::{self, grouped};
use crate::inputs;
use crate::runners::{Runner, Settings, Tally};

pub const LENGTH: usize = 65_536;

/// The inputs under the default settings, and the indented one trimmed.
pub fn rows() -> Vec<Row> {
    let default = inputs::TABLE.iter().map(|input| (input, Settings::default(), ""));
    let trimmed = inputs::TABLE.iter().filter(|input| input.name == "netex");
    let trimmed = trimmed.map(|input| (input, Settings { trim_text: true, ..Settings::default() }, ", trimmed"));
    default
        .chain(trimmed)
        .map(|(input, settings, how)| Row { name: format!("{}{how}", input.name), document: (input.make)(LENGTH), settings })
        .collect()
}

/// The inputs about white space, trimmed.
pub fn trimmed() -> Vec<Row> {
    let settings = Settings { trim_text: true, ..Settings::default() };
    inputs::WHITE.iter().map(|input| Row { name: input.name.into(), document: (input.make)(LENGTH), settings }).collect()
}

/// Measures and prints. The first runner is the one that the others are held to. Answers the samples of each row and runner.
pub fn run(rows: &[Row], runners: &mut [Box<dyn Runner>], count: usize) -> Result<Vec<Vec<Samples>>, String> {
    let tallies = rows.iter().map(|row| told(row, runners)).collect::<Result<Vec<_>, _>>()?;
    let samples = rounds(rows, runners, count);
    println!("rounds:    {count}, each runner once on each input in each");
    println!();
    let first = format!("{} µs", runners[0].name());
    let mut head = vec!["input", "bytes", "events", &first, "ns an event", "ns a byte"];
    head.extend(runners[1..].iter().map(|runner| runner.name()));
    let lines: Vec<_> = rows.iter().zip(tallies).zip(&samples).map(|((row, tally), samples)| line(row, tally, samples)).collect();
    grid::print(&head, &lines);
    println!();
    println!(
        "The columns of two numbers are ratios to the time of {}: least time over least time / the median of the rounds' ratios.",
        runners[0].name()
    );
    Ok(samples)
}

fn line(row: &Row, tally: Tally, samples: &[Samples]) -> Vec<String> {
    let time = least(&samples[0]);
    let mut cells = vec![
        row.name.clone(),
        grouped(row.document.len()),
        grouped(tally.answers),
        format!("{:.1}", time / 1000.0),
        format!("{:.1}", time / tally.answers as f64),
        format!("{:.3}", time / row.document.len() as f64),
    ];
    cells.extend(samples[1..].iter().map(|other| ratios(other, &samples[0])));
    cells
}
