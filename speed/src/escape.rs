//! What replacing references costs: beside the crate, by how many there are, and by the byte as the text grows.

use self::Shape::{Prose, Run, Value};
use crate::clock::{least, ratios, timed, turns, Samples};
use crate::grid::{self, grouped, joined};
use crate::inputs::draw::Draw;
use crate::inputs::words::prose;
use quick_xml::escape::unescape as theirs;
use sporebasket::escape::unescape as package;
use sporebasket::lent;
use std::hint::black_box;

/// The length of a text in the first table, and the lengths in the second.
const LENGTH: usize = 65_536;
const LENGTHS: [usize; 3] = [16_384, LENGTH, 262_144];

/// The least that a sample takes, in nanoseconds, and how many there are of each.
const SAMPLE: f64 = 200_000.0;
const ROUNDS: usize = 100;

/// How many times as long a byte a call may take at the last length as at the first.
const MOST: f64 = 3.0;

/// The columns, in the order that the samples have.
const COLUMNS: [&str; 3] = ["quick-xml", "ours", "hosts/rust"];

enum Shape {
    /// Prose of so many bytes and one of these drawn, again and again.
    Prose(usize, &'static [&'static str]),
    /// The first, then the second again and again, then the last.
    Run(&'static str, &'static str, &'static str),
    /// This, whatever the length.
    Value(&'static str),
}

const NAMES: &[&str] = &["&lt;", "&gt;", "&amp;", "&apos;", "&quot;"];
const NUMBERS: &[&str] = &["&#x2192;", "&#233;", "&#x1F686;", "&#65;"];

/// Those that the columns are compared on.
const TABLE: [(&str, Shape); 6] = [
    ("no reference", Prose(64, &[" "])),
    ("a name in 64 bytes", Prose(56, NAMES)),
    ("a name in 10 bytes", Prose(1, NAMES)),
    ("a number in 12 bytes", Prose(1, NUMBERS)),
    ("`&lt;&gt;&amp;` again and again", Run("", "&lt;&gt;&amp;", "")),
    ("`Bar &amp; Grill`", Value("Bar &amp; Grill")),
];

/// Those that are there to take long, and the number that refuses them: at the last part if that begins with `&`, else at 0.
const WORST: [(&str, Shape, usize); 6] = [
    ("`&` alone", Run("", "&", ""), 25),
    ("`&a` again and again, `;`", Run("", "&a", ";"), 25),
    ("`&#`, `1` again and again, `;`", Run("&#", "1", ";"), 26),
    ("`&#`, `0` again and again, `65;`", Run("&#", "0", "65;"), 0),
    ("`&lt;` again and again, `&zz;`", Run("", "&lt;", "&zz;"), 25),
    ("`&lt;` again and again, `&`", Run("", "&lt;", "&"), 25),
];

impl Shape {
    /// The text of so many bytes, or less by less than a part.
    fn text(&self, length: usize) -> String {
        match self {
            Prose(least, references) => {
                let (mut draw, mut text) = (Draw::new(), String::new());
                loop {
                    let part = prose(&mut draw, *least) + draw.of(references);
                    if text.len() + part.len() > length {
                        return text;
                    }
                    text += &part;
                }
            }
            Run(first, again, last) => {
                let count = (length - first.len() - last.len()) / again.len();
                [first, again.repeat(count).as_str(), last].concat()
            }
            Value(text) => text.to_string(),
        }
    }

    /// Where it is refused, if it is.
    fn place(&self, length: usize) -> usize {
        match self {
            Run(_, _, last) if last.starts_with('&') => length - last.len(),
            _ => 0,
        }
    }
}

/// A text, with as much memory lent as it can need.
struct Lent {
    text: String,
    buffer: Vec<u8>,
    answer: [usize; lent::UNESCAPE_SLOTS],
}

impl Lent {
    /// The text, if all three make the same of it, and this number refuses it.
    fn new(name: &str, shape: &Shape, number: usize, length: usize) -> Result<Self, String> {
        let text = shape.text(length);
        let (buffer, answer) = (vec![0; text.len()], [0; lent::UNESCAPE_SLOTS]);
        let mut lent = Lent { text, buffer, answer };
        let (found, [count, place]) = (lent.ours(), lent.answer);
        let whole = theirs(&lent.text);
        let same = match &whole {
            Ok(whole) => lent.buffer[..count] == *whole.as_bytes(),
            Err(_) => place == shape.place(lent.text.len()),
        };
        if !same || found != number || whole.is_err() != (number != 0) {
            return Err(format!("{name}: ours has {found}, {count} bytes, place {place}"));
        }
        // the crate's cases have the same names in the package
        if format!("{whole:?}") != format!("{:?}", package(&lent.text)) {
            return Err(format!("{name}: quick-xml and hosts/rust do not tell the same"));
        }
        Ok(lent)
    }

    fn ours(&mut self) -> usize {
        lent::unescape(black_box(self.text.as_bytes()), &mut self.buffer, 0, &mut self.answer)
    }

    /// One call of the column, and what it gives dropped.
    fn call(&mut self, column: usize) -> usize {
        match column {
            0 => black_box(theirs(black_box(&self.text))).map_or(0, |text| text.len()),
            1 => self.ours(),
            _ => black_box(package(black_box(&self.text))).map_or(0, |text| text.len()),
        }
    }
}

/// The samples of each text and column.
fn rounds(texts: &mut [Lent]) -> Vec<Vec<Samples>> {
    let taken = vec![vec![true; COLUMNS.len()]; texts.len()];
    turns(&taken, SAMPLE, ROUNDS, |text, column, repeats| timed(repeats, || texts[text].call(column)))
}

pub fn run() -> Result<(), String> {
    println!("rounds:    {ROUNDS}, each of the three once on each text in each\n");
    table()?;
    println!(
        "\nThe columns of two numbers are ratios to the time of quick-xml: least time over least time / the median of the rounds' ratios."
    );
    println!("\nNanoseconds a byte at {} bytes, and the ratio of the last to the first:\n", LENGTHS.map(grouped).join(" / "));
    growth()
}

fn table() -> Result<(), String> {
    let texts: Result<Vec<_>, _> = TABLE.iter().map(|(name, shape)| Lent::new(name, shape, 0, LENGTH)).collect();
    let mut texts = texts?;
    let samples = rounds(&mut texts);
    let lines = TABLE.iter().zip(&texts).zip(&samples).map(|(((name, _), lent), samples)| {
        let (theirs, others) = (&samples[0], &samples[1..]);
        let references = lent.text.matches('&').count();
        let time = format!("{:.3}", least(theirs) / 1000.0);
        let mut line = vec![name.to_string(), grouped(lent.text.len()), grouped(references), time];
        line.extend(others.iter().map(|other| ratios(other, theirs)));
        line
    });
    grid::print(&["text", "bytes", "references", "quick-xml µs", COLUMNS[1], COLUMNS[2]], &lines.collect::<Vec<_>>());
    Ok(())
}

fn growth() -> Result<(), String> {
    let growing = TABLE.iter().filter(|(_, shape)| !matches!(shape, Value(_))).map(|(name, shape)| (name, shape, 0));
    let worst = WORST.iter().map(|(name, shape, number)| (name, shape, *number));
    let (mut lines, mut above) = (Vec::new(), Vec::new());
    for (name, shape, number) in growing.chain(worst) {
        let texts: Result<Vec<_>, _> = LENGTHS.iter().map(|&length| Lent::new(name, shape, number, length)).collect();
        let mut texts = texts?;
        let samples = rounds(&mut texts);
        let mut line = vec![name.to_string(), if number == 0 { "-".into() } else { number.to_string() }];
        for (column, title) in COLUMNS.iter().enumerate() {
            let bytes: Vec<f64> = samples.iter().zip(&texts).map(|(row, lent)| least(&row[column]) / lent.text.len() as f64).collect();
            line.push(joined(&bytes, 3));
            if column > 0 {
                let grown = bytes[LENGTHS.len() - 1] / bytes[0];
                line.push(format!("{grown:.2}"));
                if grown > MOST {
                    above.push(format!("{name}, {title}: {grown:.2}"));
                }
            }
        }
        lines.push(line);
    }
    grid::print(&["text", "refused", COLUMNS[0], COLUMNS[1], "ratio", COLUMNS[2], "ratio"], &lines);
    if !above.is_empty() {
        return Err(format!("more than {MOST} times as long a byte at {} bytes: {}", grouped(LENGTHS[2]), above.join("; ")));
    }
    Ok(())
}
