//! What feeding in pieces costs: a scan over pieces of some sizes beside the same scan over the whole, and the crate's parsers fed the same.

use crate::clock::{least, ratio, ratios, timed, turns, Samples};
use crate::grid::{self, grouped};
use crate::inputs::draw::Draw;
use crate::inputs::words::{prose, WORDS};
use quick_xml::parser::{CommentParser, ElementParser, Parser, PiParser};
use quick_xml::reader::Reader;
use sporebasket::lent;
use std::hint::black_box;

const LENGTHS: [usize; 2] = [65_536, 1_048_576];

/// The sizes of the pieces; the first is the one that is promised.
const SIZES: [usize; 6] = [4_096, 1_024, 256, 64, 16, 1];

/// The least that a sample takes, in nanoseconds, and how many rounds there are.
const SAMPLE: f64 = 200_000.0;
const ROUNDS: usize = 500;

/// How many times as long as the whole the pieces of the first size may take.
const MOST: f64 = 1.2;

/// What is scanned: the state that its scan is made in, how it begins and ends, and what is found, counted from the end.
struct Kind {
    name: &'static str,
    state: usize,
    opener: &'static str,
    closer: &'static str,
    theirs: Theirs,
}

/// What the crate has for it.
#[derive(Clone, Copy, PartialEq)]
enum Theirs {
    Element,
    Pi,
    Comment,
    /// `BangType` of its reader.
    Bang,
    Nothing,
}

const KINDS: [Kind; 5] = [
    Kind { name: "tag", state: 4, opener: "<stop", closer: ">", theirs: Theirs::Element },
    Kind { name: "instruction", state: 7, opener: "<?p ", closer: "?>", theirs: Theirs::Pi },
    Kind { name: "comment", state: 8, opener: "<!--", closer: "-->", theirs: Theirs::Comment },
    Kind { name: "character data", state: 9, opener: "<![CDATA[", closer: "]]>", theirs: Theirs::Bang },
    Kind { name: "text", state: 11, opener: "", closer: "<", theirs: Theirs::Nothing },
];

/// A row: the bytes, with the closer at their end.
struct Row {
    kind: &'static Kind,
    bytes: Vec<u8>,
}

impl Row {
    /// Attributes in a tag, and prose in all others.
    fn new(kind: &'static Kind, length: usize) -> Self {
        let mut draw = Draw::new();
        let room = length - kind.opener.len() - kind.closer.len();
        let mut content = String::new();
        while kind.theirs == Theirs::Element && content.len() < room {
            content += &format!(" {}=\"{}\"", draw.of(&WORDS), prose(&mut draw, 12));
        }
        if kind.theirs != Theirs::Element {
            content = prose(&mut draw, room);
        }
        // a value that is cut off would not end
        content.truncate(content[..room].rfind('"').map_or(room, |quote| quote + 1));
        if content.matches('"').count() % 2 == 1 {
            content.truncate(content.rfind(' ').unwrap_or(0));
        }
        Self { kind, bytes: [kind.opener, &content, kind.closer].concat().into_bytes() }
    }

    /// What ours finds.
    fn ours(&self, size: usize) -> Option<usize> {
        let mut scan = [0; lent::SCAN_SLOTS];
        let mut number = lent::scan(self.kind.state, &mut scan);
        for piece in black_box(&self.bytes[..]).chunks(size) {
            number |= lent::feed(piece, &mut scan);
        }
        (number == 0 && scan[0] == 0).then_some(scan[1])
    }

    /// What the crate finds. Its comments end behind the `>`.
    fn theirs(&self, size: usize) -> Option<usize> {
        match self.kind.theirs {
            Theirs::Element => self.parsed(ElementParser::default(), size),
            Theirs::Pi => self.parsed(PiParser::default(), size),
            Theirs::Comment => self.parsed(CommentParser::default(), size).map(|end| end - 1),
            Theirs::Bang => self.fed(size, |from, piece| Reader::<&[u8]>::bang_end(b'[', &self.bytes[..from], piece)),
            Theirs::Nothing => None,
        }
    }

    fn parsed(&self, mut parser: impl Parser, size: usize) -> Option<usize> {
        self.fed(size, |_, piece| parser.feed(piece))
    }

    fn fed(&self, size: usize, mut feed: impl FnMut(usize, &[u8]) -> Option<usize>) -> Option<usize> {
        let pieces = black_box(&self.bytes[..]).chunks(size).zip((0..).step_by(size));
        pieces.filter_map(|(piece, from)| feed(from, piece).map(|at| from + at)).next()
    }

    /// The sizes of the pieces by column: ours whole and in pieces, then the crate's, whole and of the first size.
    fn columns(&self) -> Vec<(bool, usize)> {
        let whole = self.bytes.len();
        let ours = [whole].into_iter().chain(SIZES).map(|size| (true, size));
        ours.chain([(false, whole), (false, SIZES[0])]).collect()
    }

    fn run(&self, (ours, size): (bool, usize)) -> Option<usize> {
        if ours {
            self.ours(size)
        } else {
            self.theirs(size)
        }
    }
}

/// Measures and prints. With other rounds than these the ratios are held to nothing.
pub fn run(rounds: Option<usize>) -> Result<(), String> {
    let rows: Vec<Row> = KINDS.iter().flat_map(|kind| LENGTHS.map(|length| Row::new(kind, length))).collect();
    let mut taken = Vec::new();
    for row in &rows {
        let columns = row.columns();
        let has = |ours: bool| ours || row.kind.theirs != Theirs::Nothing;
        if let Some(&column) = columns.iter().find(|column| has(column.0) && row.run(**column) != Some(row.bytes.len() - 1)) {
            return Err(format!("{} of {} bytes: {:?} is found by {column:?}", row.kind.name, row.bytes.len(), row.run(column)));
        }
        taken.push(columns.iter().map(|column| has(column.0)).collect());
    }
    let count = rounds.unwrap_or(ROUNDS);
    let columns: Vec<_> = rows.iter().map(Row::columns).collect();
    let samples = turns(&taken, SAMPLE, count, |row, column, repeats| timed(repeats, || rows[row].run(columns[row][column])));
    println!("rounds:    {count}, each column once on each row in each\n");
    let sizes = SIZES.map(grouped);
    let mut head = vec!["scan", "bytes", "whole µs", "ns a byte"];
    head.extend(sizes.iter().map(String::as_str));
    let first = format!("quick-xml, {}", sizes[0]);
    head.extend(["quick-xml", &first]);
    grid::print(&head, &rows.iter().zip(&samples).map(|(row, samples)| line(row, samples)).collect::<Vec<_>>());
    println!("\nThe columns of two numbers are ratios to the time of the whole: least time over least time / the median of the rounds' ratios. Their heads are");
    println!("the sizes of the pieces, and quick-xml's parsers, fed the whole and pieces of the first size.");
    let over = |samples: &[Samples]| least(&samples[1]) / least(&samples[0]) > MOST && ratio(&samples[1], &samples[0]) > MOST;
    let above = rows.iter().zip(&samples).filter(|(_, samples)| over(samples));
    let above: Vec<_> = above
        .map(|(row, samples)| format!("{} of {} bytes: {}", row.kind.name, row.bytes.len(), ratios(&samples[1], &samples[0])))
        .collect();
    if rounds.is_none() && !above.is_empty() {
        return Err(format!("pieces of {} bytes take more than {MOST} times as long as the whole: {}", sizes[0], above.join("; ")));
    }
    Ok(())
}

fn line(row: &Row, samples: &[Samples]) -> Vec<String> {
    let (time, bytes) = (least(&samples[0]), row.bytes.len());
    let mut line = vec![row.kind.name.to_string(), grouped(bytes), format!("{:.1}", time / 1000.0), format!("{:.3}", time / bytes as f64)];
    line.extend(samples[1..].iter().map(|other| ratios(other, &samples[0])));
    line
}
