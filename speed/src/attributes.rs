//! What attributes cost: one call, one looked up, and all of a tag, by how many there are.

use crate::clock::{least, ratio, timed};
use quick_xml::events::attributes::Attributes as Theirs;
use sporebasket::events::attributes::Attributes as Ours;
use sporebasket::lent;
use std::fmt::Write;
use std::hint::black_box;

/// How many attributes a tag has, each twice as many as the one before it from the third on.
const COUNTS: [usize; 11] = [1, 3, 6, 12, 25, 50, 100, 200, 400, 800, 1600];

/// The least that a sample takes, in nanoseconds, and how many there are of each.
const SAMPLE: f64 = 200_000.0;
const SAMPLES: usize = 15;

/// How many times as long a byte one call may take at the last count as at this one.
const MOST: f64 = 3.0;
const FEW: usize = 25;

/// A tag's content, with names that are all different.
struct Tag {
    content: String,
    name: usize,
    /// Where the last attribute is read, and its name.
    last: usize,
    wanted: String,
}

fn tag(count: usize) -> Tag {
    let (mut content, mut last, mut wanted) = (String::from("stop"), 0, String::new());
    let name = content.len();
    for index in 0..count {
        last = content.len();
        wanted = format!("attribute{}", index * 7919 % 100_003);
        write!(content, " {wanted}=\"value {index}\"").expect("a string takes it");
    }
    Tag { content, name, last, wanted }
}

/// The nanoseconds that a run takes, of each sample.
fn samples(mut run: impl FnMut() -> usize) -> Vec<f64> {
    timed(1, &mut run);
    let repeats = (SAMPLE / timed(1, &mut run)).ceil() as u32;
    (0..SAMPLES).map(|_| timed(repeats, &mut run)).collect()
}

pub fn run() -> Result<(), String> {
    println!("| attributes | bytes | one call, ns a byte | looked up | all |\n|---|---|---|---|---|");
    let (mut at_few, mut at_last) = (0.0, 0.0);
    for count in COUNTS {
        let Tag { content, name, last, wanted } = tag(count);
        let (bytes, mut answer) = (content.as_bytes(), [0; lent::ATTRIBUTE_SLOTS]);
        let found = lent::attribute(bytes, 0, bytes.len(), name, last, &mut answer);
        if (found, answer[0], answer[5]) != (0, 1, bytes.len()) {
            return Err(format!("the last of {count} attributes is not read: {found}, {answer:?}"));
        }
        if Ours::new(&content, name).count() != count || Theirs::new(&content, name).count() != count {
            return Err(format!("not all of {count} attributes are read"));
        }
        let call = samples(|| lent::attribute(black_box(bytes), 0, bytes.len(), name, last, &mut answer));
        let ours = samples(|| lent::find_attribute(black_box(bytes), 0, bytes.len(), name, wanted.as_bytes(), &mut answer));
        let theirs = samples(|| {
            let mut attributes = Theirs::new(black_box(&content), name);
            attributes.position(|item| item.is_ok_and(|found| found.key.as_ref() == wanted)).unwrap_or(0)
        });
        let found = ratio(&ours, &theirs);
        let ours = samples(|| Ours::new(black_box(&content), name).count());
        let theirs = samples(|| Theirs::new(black_box(&content), name).count());
        let byte = least(&call) / bytes.len() as f64;
        println!("| {count} | {} | {byte:.1} | {found:.2} | {:.2} |", bytes.len(), ratio(&ours, &theirs));
        if count == FEW {
            at_few = byte;
        }
        at_last = byte;
    }
    println!("\nlooked up, all: the time of `find_attribute` for the last name, and of the Rust package's `Attributes`, as ratios to quick-xml's `Attributes`.");
    if at_last > MOST * at_few {
        let last = COUNTS[COUNTS.len() - 1];
        return Err(format!("one call takes {:.1} times as long a byte at {last} attributes as at {FEW}", at_last / at_few));
    }
    Ok(())
}
