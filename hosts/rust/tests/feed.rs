//! Input in pieces: a scan finds the same for any cutting, and a feeder answers as a reader over the whole document does, as soon as it can.

mod common;

use common::{Numbers, BYTES, DOCUMENTS, LETTERS, MARKUP};
use sporebasket::errors::Error;
use sporebasket::events::Event;
use sporebasket::ext::{ErrorExt, EventExt, Phase, ReaderExt};
use sporebasket::feed::{Feeder, Scan, State};
use sporebasket::Reader;

#[test]
fn what_scans_find() {
    type Fresh = fn() -> Scan;
    let rows: [(Fresh, &str, Option<usize>); 34] = [
        (Scan::tag, "<a b='>' c=\">\">d>", Some(14)),
        (Scan::tag, "<>", Some(1)),
        (Scan::tag, "<a '>\">", None),
        (Scan::pi, "<?a>?b?>", Some(7)),
        (Scan::pi, "<?>", Some(2)),
        (Scan::pi, "<?a? >", None),
        (Scan::comment, "<!---->", Some(6)),
        (Scan::comment, "<!--a->--->", Some(10)),
        (Scan::comment, "<!-->", None),
        (Scan::comment, "<!--->", None),
        (Scan::comment, "-->", None),
        (Scan::cdata, "<![CDATA[]]]>", Some(12)),
        (Scan::cdata, "<![]]>", Some(5)),
        (Scan::cdata, "<![CDATA[]>]] >", None),
        (Scan::text, "06:15<", Some(5)),
        (Scan::text, "&", Some(0)),
        (Scan::text, "06:15>;", None),
        (Scan::piece, "", None),
        (Scan::piece, "06:15&", Some(5)),
        (Scan::piece, ">;]]>-->?>'\"", None),
        (Scan::piece, "&amp;a", Some(4)),
        (Scan::piece, "&a&", Some(2)),
        (Scan::piece, "&a<", Some(2)),
        (Scan::piece, "&a>", None),
        (Scan::piece, "<a b='>'>", Some(8)),
        (Scan::piece, "</a '>'>", Some(7)),
        (Scan::piece, "<'>'>", Some(4)),
        (Scan::piece, "<?>", Some(2)),
        (Scan::piece, "<!-->-->", Some(7)),
        (Scan::piece, "<!-x->-->", Some(8)),
        (Scan::piece, "<![]]>", Some(5)),
        (Scan::piece, "<!>", Some(2)),
        (Scan::piece, "<!DOCTYPE", Some(2)),
        (Scan::piece, "<!", None),
    ];
    for (fresh, bytes, wanted) in rows {
        let mut scan = fresh();
        assert_eq!(scan.taken(), 0);
        assert_eq!(scan.feed(bytes.as_bytes()), Ok(wanted), "{bytes}");
        assert_eq!(
            (scan.found(), scan.taken()),
            (wanted, wanted.unwrap_or(bytes.len())),
            "{bytes}"
        );
        assert_eq!(scan.state() == State::Closed, wanted.is_some(), "{bytes}");
    }
}

#[test]
fn no_cut_counts_for_a_scan() {
    for fresh in [Scan::piece, Scan::tag, Scan::pi, Scan::comment, Scan::cdata, Scan::text] {
        for document in DOCUMENTS {
            let mut whole = fresh();
            let found = whole.feed(document).unwrap();
            for first in 0..=document.len() {
                for second in first..=document.len() {
                    let mut scan = fresh();
                    for piece in [&document[..first], b"", &document[first..second], b""] {
                        scan.feed(piece).unwrap();
                    }
                    assert_eq!(scan.feed(&document[second..]), Ok(found));
                    assert_eq!(scan, whole, "{document:?} cut at {first} and {second}");
                    // what follows a byte that was found changes nothing
                    if found.is_some() {
                        assert_eq!((scan.feed(b"<!--'\"?>"), scan), (Ok(found), whole));
                    }
                }
            }
        }
    }
}

/// How many bytes of the document have to come before this answer is sure, which a reader in this phase gave: all of them and the end, where it is more than there are.
fn due(document: &[u8], before: Phase, reader: &Reader<&[u8]>, answer: &Result<Event, Error>) -> usize {
    if matches!(before, Phase::InsideEmpty | Phase::Done) {
        return 0;
    }
    let piece = &document[reader.piece()];
    let end = reader.piece().end;
    let number = answer.as_ref().err().map(|error| error.number().unwrap());
    match (number, document.get(reader.piece().start)) {
        // the byte that shows that there is no such markup
        (Some(8 | 14), _) => end + 3,
        // the tag, which is not in the piece
        (Some(15), _) => end + tag_len(&document[end..]),
        // markup without its end, and no more text
        (Some(1..=7), _) if !closed(number, piece) => usize::MAX,
        (_, Some(b'<')) => end,
        (_, Some(b'&')) if piece.ends_with(b";") => end,
        // the byte behind
        _ => end + 1,
    }
}

/// Whether a refused piece has its closer.
fn closed(number: Option<u8>, piece: &[u8]) -> bool {
    match number {
        Some(4) => piece.len() > 6 && piece.ends_with(b"-->"),
        Some(5) => piece.ends_with(b"]]>"),
        Some(6) => piece.ends_with(b"?>"),
        _ => false,
    }
}

/// How long a tag is.
fn tag_len(bytes: &[u8]) -> usize {
    let mut quote = None;
    let end = bytes.iter().position(|byte| {
        match quote {
            None if matches!(byte, b'\'' | b'"') => quote = Some(*byte),
            Some(open) if open == *byte => quote = None,
            _ => (),
        }
        quote.is_none() && *byte == b'>'
    });
    end.unwrap() + 1
}

/// What runs were seen to have, so that nothing is held of nothing.
#[derive(Default)]
struct Seen {
    /// Answers before the last chunk had come, refusals among them.
    early: usize,
    refused_early: [usize; 19],
    waits: usize,
    /// Settings that changed while a feeder waited.
    turns: usize,
}

/// A reader over the whole document, and a feeder that gets it in chunks.
struct Pair<'a> {
    document: &'a [u8],
    reader: Reader<&'a [u8]>,
    feeder: Feeder,
    /// How many bytes had come before the latest chunk; none before the first.
    before: Option<usize>,
    finished: bool,
    /// How many bytes the answers so far needed.
    needed: usize,
    /// Settings were changed on the way, so that an answer may be sure that was not with the chunk before.
    turned: bool,
}

impl<'a> Pair<'a> {
    fn new(document: &'a [u8], letters: &str, names: usize) -> Self {
        let mut pair = Pair {
            document,
            reader: Reader::with_capacity(document, names),
            feeder: Feeder::with_capacity(names),
            before: None,
            finished: false,
            needed: 0,
            turned: false,
        };
        pair.set(letters);
        pair
    }

    fn set(&mut self, letters: &str) {
        common::set(self.reader.config_mut(), letters);
        common::set(self.feeder.config_mut(), letters);
    }

    /// Feeds the next chunk, or tells the end.
    fn feed(&mut self, chunk: Option<&[u8]>) {
        self.before = Some(self.feeder.document().len());
        match chunk {
            Some(chunk) => self.feeder.feed(chunk).unwrap(),
            None => {
                self.feeder.finish();
                self.finished = true;
            }
        }
    }

    /// Holds the feeder's next answer to the reader's. Gives whether it is end of file, or none if there is no answer yet.
    fn answer(&mut self, seen: &mut Seen) -> Option<bool> {
        let come = self.feeder.document().len();
        let given = match self.feeder.read_event() {
            Ok(None) => {
                assert!(!self.finished);
                seen.waits += 1;
                return None;
            }
            Ok(Some(event)) => Ok((event.place(), event.into_owned())),
            Err(error) => Err(error),
        };
        let phase = self.reader.phase();
        let answer = self.reader.read_event();
        self.needed = self.needed.max(due(self.document, phase, &self.reader, &answer));
        // not before it is sure, and not with a later chunk than the one that makes it so
        assert!(self.finished || self.needed <= come);
        assert!(self.turned || self.before < Some(self.needed));
        if let Err(error) = &answer {
            seen.refused_early[usize::from(error.number().unwrap())] += usize::from(!self.finished);
        }
        seen.early += usize::from(come < self.document.len());
        let is_end = answer == Ok(Event::Eof);
        assert_eq!(given, answer.map(|event| (event.place(), event.into_owned())));
        self.alike();
        Some(is_end)
    }

    /// All that the two tell besides.
    fn alike(&self) {
        let (reader, feeder) = (&self.reader, &self.feeder);
        assert_eq!(feeder.buffer_position(), reader.buffer_position());
        assert_eq!(feeder.error_position(), reader.error_position());
        assert_eq!((feeder.piece(), feeder.phase()), (reader.piece(), reader.phase()));
        assert_eq!((feeder.expected(), feeder.found()), (reader.expected(), reader.found()));
        assert_eq!(feeder.depth(), reader.depth());
        assert!(feeder.open_names().eq(reader.open_names()));
        assert!(feeder.way_down().eq(reader.way_down()));
        assert_eq!(feeder.config(), reader.config());
        let come = feeder.document();
        assert_eq!(come, &self.document[..come.len()]);
        for (fed, whole) in feeder.open_names().zip(reader.open_names()) {
            let [fed, whole] =
                [(come, fed), (self.document, whole)].map(|(bytes, name)| common::place(bytes, name.0.as_bytes()));
            assert_eq!(fed, whole);
        }
    }
}

/// Feeds these chunks, each where no answer is there without it, and holds all answers to those of a reader over the whole.
fn held(document: &[u8], chunks: &[&[u8]], letters: &str, seen: &mut Seen) {
    let mut pair = Pair::new(document, letters, 2);
    let mut chunks = chunks.iter();
    loop {
        match pair.answer(seen) {
            None => pair.feed(chunks.next().copied()),
            Some(false) => (),
            Some(true) => break,
        }
    }
    // end of file stays, whatever comes then
    if !pair.finished {
        for chunk in chunks {
            pair.feeder.feed(chunk).unwrap();
            assert_eq!(pair.feeder.read_event(), Ok(Some(Event::Eof)));
        }
        pair.feeder.finish();
        pair.finished = true;
    }
    assert_eq!(pair.feeder.document(), document);
    assert_eq!(pair.answer(seen), Some(true));
}

/// The settings under which three pieces are tried: none changed, each changed, and all that change what is skipped and given.
const SETTINGS: [&str; 13] = [
    "-",
    "a",
    "u",
    "c",
    "n",
    "x",
    "m",
    "s",
    "e",
    "o",
    "aucnxmseo",
    "Tx",
    "Tao",
];

#[test]
fn every_document_in_two_and_three_chunks() {
    let mut seen = Seen::default();
    for letters in SETTINGS {
        for document in DOCUMENTS {
            for first in 0..=document.len() {
                for second in first..=document.len() {
                    let chunks = [&document[..first], &document[first..second], &document[second..]];
                    held(document, &chunks, letters, &mut seen);
                }
            }
        }
    }
    for number in (1..=15).filter(|number| !matches!(number, 1 | 2 | 3 | 7)) {
        assert!(seen.refused_early[number] > 0, "{number}");
    }
    assert!(seen.early > 10_000 && seen.waits > 10_000);
}

#[test]
fn every_document_byte_by_byte_with_all_settings() {
    let mut seen = Seen::default();
    for settings in 0..512 {
        let letters = common::letters(settings);
        for document in DOCUMENTS {
            let bytes: Vec<&[u8]> = document.chunks(1).collect();
            held(document, &bytes, &letters, &mut seen);
            let with_empty: Vec<&[u8]> = bytes.iter().flat_map(|byte| [&b""[..], byte, b"", b""]).collect();
            held(document, &with_empty, &letters, &mut seen);
        }
    }
    assert!(seen.early > 50_000 && seen.waits > 1_000_000);
}

/// A document of markup or of its bytes, some behind a byte order mark.
fn document(numbers: &mut Numbers, parts: usize) -> Vec<u8> {
    let mut document = Vec::new();
    if numbers.below(4) == 0 {
        document.extend(b"\xEF\xBB\xBF");
    }
    let of_bytes = numbers.below(2) == 0;
    for _ in 0..numbers.below(parts) {
        if of_bytes {
            document.push(BYTES[numbers.below(BYTES.len())]);
        } else {
            document.extend(MARKUP[numbers.below(MARKUP.len())]);
        }
    }
    document
}

/// Markup that is well formed as far as it goes, so that a run goes on through it.
const WHOLE: &[&[u8]] = &[
    b"<a>",
    b"</a>",
    b"<b c='>' d=\"'>\">",
    b"</b >",
    b"<d/>",
    b" \n 06:15 \n",
    b" \t",
    b"&amp;",
    b"& chips",
    b"&&",
    b"<!--x-y->z-->",
    b"<!-- -- -->",
    b"<![CDATA[x]]]>]]>",
    b"<?xml v?>",
    b"<?p ? > ??>",
    b"\xC3\xA9\xE2\x86\x92",
];

#[test]
fn any_document_in_any_chunks() {
    let (mut numbers, mut seen) = (Numbers(106), Seen::default());
    for turn in 0..12_000 {
        let bytes = if turn % 3 == 0 {
            let parts = numbers.below(200);
            (0..parts)
                .flat_map(|_| WHOLE[numbers.below(WHOLE.len())].iter().copied())
                .collect()
        } else {
            document(&mut numbers, 60)
        };
        let letters: String = LETTERS.chars().filter(|_| numbers.below(3) == 0).collect();
        let mut pair = Pair::new(&bytes, &letters, [0, 1, 2, 64][numbers.below(4)]);
        let most = [1, 2, 3, 7, 30, 200][numbers.below(6)];
        let mut at = 0;
        loop {
            let is_end = pair.answer(&mut seen);
            if is_end == Some(true) {
                break;
            }
            // settings may change between calls, and while bytes are waited for
            if turn % 2 == 0 && numbers.below(8) == 0 {
                let changed = numbers.below(LETTERS.len());
                pair.set(&LETTERS[changed..=changed]);
                pair.turned = true;
                seen.turns += usize::from(is_end.is_none());
            }
            if is_end.is_none() {
                let to = (at + numbers.below(most + 1)).min(bytes.len());
                pair.feed((at < bytes.len()).then(|| &bytes[at..to]));
                at = to;
            }
        }
    }
    assert!(seen.early > 50_000 && seen.waits > 50_000 && seen.turns > 1_000);
}

#[test]
fn a_feeder_as_its_user_meets_it() {
    fn check<T: Send + Sync + Default>(_: &T) {}
    let mut feeder = Feeder::default();
    check(&feeder);
    feeder.feed(b"<a>06:").unwrap();
    assert!(matches!(feeder.read_event(), Ok(Some(Event::Start(_)))));
    assert_eq!(feeder.read_event(), Ok(None));
    assert!(format!("{feeder:?}").starts_with("Feeder { phase: InsideText, position: 3, depth: 1, config: Config { "));
    // a clone goes on by itself, in the midst of a text
    let mut clone = feeder.clone();
    clone.feed(b"15<b>").unwrap();
    feeder.feed(b"45&").unwrap();
    for (feeder, text) in [(&mut clone, "06:15"), (&mut feeder, "06:45")] {
        let event = feeder.read_event().unwrap().unwrap();
        assert_eq!(&*event, text);
    }
    assert_eq!((clone.phase(), feeder.phase()), (Phase::InsideMarkup, Phase::InsideRef));
    // no chunk is taken behind the end, be it empty
    feeder.finish();
    for chunk in [&b"amp;"[..], b""] {
        assert_eq!(feeder.feed(chunk).unwrap_err().number(), Some(17));
    }
    assert_eq!(feeder.read_event().unwrap_err().number(), Some(12));
    assert_eq!(feeder.read_event(), Ok(Some(Event::Eof)));
    assert_eq!(feeder.document(), b"<a>06:45&");
}
