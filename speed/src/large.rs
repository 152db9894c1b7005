//! What size costs: the time a byte as ratios to the crate's, and the memory beside the document, up to the limits of a document.

use crate::check::told;
use crate::clock::{least, ratio, rounds, Row, Samples};
use crate::grid::{self, grouped, joined};
use crate::inputs;
use crate::memory::heap;
use crate::runners::{Runner, Settings};
use crate::worst::nesting;
use sporebasket::events::Event;
use sporebasket::ext::ReaderExt;
use sporebasket::lent::{self, LONGEST, MOST_NAMES};
use sporebasket::Reader;

type Runners = [Box<dyn Runner>];

/// The lengths that the inputs are made at, each sixteen times the one before.
const LENGTHS: [usize; 3] = [LONGEST / 256, LONGEST / 16, LONGEST];
/// How many rounds there are.
const ROUNDS: usize = 7;
/// The ratio at the last length may be so many times that at the first: more is a cost of size.
const LIMIT: f64 = 1.5;

/// What is read: the inputs of the table, and as many names as may be open.
fn documents() -> impl Iterator<Item = (&'static str, fn(usize) -> Vec<u8>)> {
    let names: fn(usize) -> Vec<u8> = |length| nesting(length, MOST_NAMES);
    inputs::TABLE.iter().map(|input| (input.name, input.make)).chain([("names", names)])
}

/// Measures and prints. The first runner is the crate; the others are held to the limit.
pub fn run(runners: &mut Runners) -> Result<(), String> {
    println!("rounds:    {ROUNDS}: the least of the times, and the medians of the rounds' ratios");
    println!("names:     {} elements, one in the other, with names as long as fit", grouped(MOST_NAMES));
    let (mut times, mut memory, mut above) = (Vec::new(), Vec::new(), Vec::new());
    for (name, make) in documents() {
        let rows = LENGTHS.map(|length| Row { name: name.into(), document: make(length), settings: Settings::default() });
        rows.iter().try_for_each(|row| told(row, runners).map(drop))?;
        memory.push(taken(&rows[LENGTHS.len() - 1], runners));
        times.push(timed(&rows, runners, &mut above));
    }
    let columns = |first: &[&'static str]| first.iter().copied().chain(runners.iter().map(|runner| runner.name())).collect::<Vec<_>>();
    println!(
        "\nAt {} bytes, nanoseconds a byte of {}, and the ratios of the others to it:\n",
        LENGTHS.map(grouped).join(" / "),
        runners[0].name()
    );
    grid::print(&columns(&["input"]), &times);
    println!("\nBytes beside a document of {}: what the C functions are lent for as many open names as it has at once,", grouped(LONGEST));
    println!("and what each takes on the heap at most:\n");
    grid::print(&columns(&["input", "names open", "lent"]), &memory);
    if !above.is_empty() {
        return Err(format!("the ratio at the greatest length is more than {LIMIT} times that at the least: {}", above.join("; ")));
    }
    println!("\nspeed: no ratio at the greatest length is more than {LIMIT} times that at the least");
    Ok(())
}

/// A line of times.
fn timed(rows: &[Row], runners: &mut Runners, above: &mut Vec<String>) -> Vec<String> {
    let samples = rounds(rows, runners, ROUNDS);
    let bytes: Vec<f64> = rows.iter().zip(&samples).map(|(row, samples)| least(&samples[0]) / row.document.len() as f64).collect();
    let mut line = vec![rows[0].name.clone(), joined(&bytes, 3)];
    for column in 1..runners.len() {
        let ratios: Vec<f64> = samples.iter().map(|row: &Vec<Samples>| ratio(&row[column], &row[0])).collect();
        if ratios[ratios.len() - 1] > LIMIT * ratios[0] {
            above.push(format!("{}, {}: {}", rows[0].name, runners[column].name(), joined(&ratios, 2)));
        }
        line.push(joined(&ratios, 2));
    }
    line
}

/// A line of memory.
fn taken(row: &Row, runners: &mut Runners) -> Vec<String> {
    let names = most_open(&row.document);
    let slots = lent::STATE_SLOTS + lent::ANSWER_SLOTS + lent::NAME_SLOTS * names;
    let mut line = vec![row.name.clone(), grouped(names), grouped(slots * size_of::<usize>())];
    for runner in runners.iter_mut() {
        let bytes = heap(|| {
            runner.run(&row.document, row.settings);
        });
        line.push(grouped(bytes));
    }
    line
}

/// How many names are open at once at most.
fn most_open(document: &[u8]) -> usize {
    let mut reader = Reader::from_reader(document);
    let mut most = 0;
    while !matches!(reader.read_event(), Ok(Event::Eof)) {
        most = most.max(reader.depth());
    }
    most
}
