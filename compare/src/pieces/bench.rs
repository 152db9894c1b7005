//! Runs one content: each scan by all cuttings of a short content and by some of a long one, after every piece by the archive and by the account, with every slot, and
//! the crate's scanners beside it; then scans that hold any numbers; and what the crate's reader makes of the content in one piece.

use super::account::{Account, Reading};
use super::listed::Told;
use super::summary::Tally;
use super::theirs::{Pieces, Rules, Scanner};
use super::*;
use crate::check::{Difference, CANARY};
use crate::contents::{self, Case, Kept};
use crate::inputs::random::Dice;
use crate::inputs::{Flow, Sink};
use crate::ours::{DEFAULT, ORDER_MARK};
use crate::run::{Runs, Worker};
use crate::theirs::{Theirs, THEIR_DOCTYPE};
use crate::trace::escaped;
use sporebasket::lent;

/// All slots that are looked at, lent or not.
const ROOM: usize = 7;
/// A content of so many bytes at most is cut in every way, with an empty piece at every border or not: one for a single scan, and one for all.
const EVERY: [usize; 2] = [10, 7];
/// One of so many at most is cut in two at every place, and into single bytes.
const TWO: usize = 300;
/// One of more bytes is cut in a few ways alone.
const LARGE: usize = 1 << 20;
/// A content of so many bytes at most is a piece of scans that hold all small numbers, or all near the limit.
const SMALL: usize = 2;
/// Scans that hold other numbers, for each content of up to so many bytes.
const HELD: usize = 4;
const PIECES: usize = 4_096;
/// The crate's refusal of `<!` and a byte that opens nothing.
const NO_MARKUP: usize = 8;

/// Names of what can differ.
pub const FIELDS: [&str; 10] = [
    "returned number",
    "state",
    "count",
    "left",
    "seen",
    "slots behind the scan",
    "a scan that is made",
    "what the crate's parsers say",
    "the rules of the crate's parsers",
    "what the crate's reader takes",
];
const BEHIND: u32 = 1 << 5;
const MAKING: u32 = 1 << 6;
const CRATE: u32 = 1 << 7;
const RULES: u32 = 1 << 8;
const READER: u32 = 1 << 9;

type Slots = [usize; ROOM];

/// A content, and what the account reads of it for the scan at hand.
#[derive(Clone, Copy)]
struct Text<'a> {
    content: &'a [u8],
    reading: &'a Reading,
}

/// Where a scan stands behind some pieces: its slots, the crate's scanners that have not found their end, and the pieces.
#[derive(Clone, Copy)]
struct Node {
    slots: Slots,
    scanners: [Option<Scanner>; 3],
    pieces: Pieces,
}

pub struct Bench {
    account: &'static Account,
    rules: &'static Rules,
    /// The scans that a content is run with, a bit of its first state each; none for all.
    scans: usize,
    /// How many slots are lent.
    lent: usize,
    /// The ends of the pieces fed so far.
    cuts: Vec<usize>,
    document: Vec<u8>,
    tally: Tally,
    /// The latest call that differed, in words.
    pub asked: Option<String>,
}

impl Bench {
    pub fn new(account: &'static Account, rules: &'static Rules) -> Self {
        Self { account, rules, scans: 0, lent: SLOTS, cuts: Vec::new(), document: Vec::new(), tally: Tally::default(), asked: None }
    }

    /// A scan that is made, by both.
    fn make(&mut self, made: usize, slots: usize) -> Result<Slots, u32> {
        self.tally.calls += 1;
        let (mut ours, mut wanted) = ([CANARY; ROOM], [CANARY; ROOM]);
        let number = lent::scan(made, &mut ours[..slots]);
        let fresh = (self.account.fresh)(made).filter(|_| !(self.account.few)(slots));
        fresh.iter().for_each(|scan| wanted[..SLOTS].copy_from_slice(scan));
        if ours == wanted && number == if fresh.is_some() { 0 } else { BAD_STATE } {
            return Ok(ours);
        }
        self.asked = Some(format!("a scan in state {made} with {slots} slots: {number} {ours:?}, by the account {fresh:?}"));
        Err(MAKING)
    }

    /// One piece, by both: the number, or the bits of what differs.
    fn call(&mut self, slots: &mut Slots, lent: usize, piece: &[u8], due: impl FnOnce(&Account) -> Option<Scan>) -> Result<usize, u32> {
        self.tally.calls += 1;
        let mut wanted = *slots;
        let before: Scan = std::array::from_fn(|slot| slots[slot]);
        let number = lent::feed(piece, &mut slots[..lent]);
        let account = self.account;
        let told = account.feed(before, piece, || due(account), &mut wanted[..lent]);
        if number == told && *slots == wanted {
            self.tally.tell(number, slots);
            return Ok(number);
        }
        self.asked = Some(format!(
            "|{}| behind {before:?}, {lent} slots: {number} {slots:?}, by the account {told} {wanted:?}",
            contents::shown(piece)
        ));
        let differ = (0..SLOTS).filter(|&slot| slots[slot] != wanted[slot]).map(|slot| 2 << slot).sum::<u32>();
        Err(differ | (number != told) as u32 | if slots[SLOTS..] == wanted[SLOTS..] { 0 } else { BEHIND })
    }

    /// The next piece of a content, by ours and by the crate's scanners: the number, and where the scan stands then.
    fn step(&mut self, text: Text, node: &Node, span: Span) -> Result<(usize, Node), u32> {
        let (content, lent) = (text.content, self.lent);
        let mut next = *node;
        let due = |account: &Account| Some(account.after(content, text.reading, span.1));
        let number = self.call(&mut next.slots, lent, &content[span.0..span.1], due)?;
        if number != 0 {
            return Ok((number, next));
        }
        self.cuts.push(span.1);
        for which in 0..next.scanners.len() {
            let Some(mut scanner) = next.scanners[which].take() else { continue };
            let ruled = self.rules.said(&scanner, content, &node.pieces, span);
            let ours = scanner.ours(&next.slots);
            let row = listed::due(&Told { scanner: &scanner, content, before: &node.pieces, piece: span, ours });
            let said = scanner.feed(content, span);
            self.tally.fed += 1;
            let fields = if said == ruled.unwrap_or(ours) { 0 } else { RULES } | if (said == ours) == row.is_none() { 0 } else { CRATE };
            if fields != 0 {
                let pieces = escaped(&shrink::cut(content, &self.cuts));
                self.asked = Some(format!("|{pieces}|: {scanner:?} says {said:?}, by its rules {ruled:?}, ours {ours:?}"));
                return Err(fields);
            }
            row.iter().for_each(|&row| self.tally.differ(row, content, &self.cuts));
            next.scanners[which] = matches!(said, theirs::Said::Open(_)).then_some(scanner);
        }
        next.pieces = node.pieces.then(span);
        Ok((0, next))
    }

    /// Every way to cut what is left, each piece with an empty one behind it or not.
    fn every(&mut self, text: Text, node: &Node, from: usize, empty: bool) -> Result<(), u32> {
        let length = text.content.len();
        self.tally.cuttings += (from == length) as u64;
        for to in from + empty as usize..=length {
            let (_, next) = self.step(text, node, (from, to))?;
            self.every(text, &next, to, to == from)?;
            self.cuts.pop();
        }
        Ok(())
    }

    /// One cutting, by the ends of its pieces. Where a piece is too long, the part of it that is not is fed, and the rest again.
    fn cutting(&mut self, text: Text, node: &Node, ends: impl Iterator<Item = usize>) -> Result<(), u32> {
        self.tally.cuttings += 1;
        self.cuts.clear();
        let (mut node, mut from) = (*node, 0);
        for to in ends {
            let (number, next) = self.step(text, &node, (from, to))?;
            node = next;
            if number == TOO_LONG {
                let fits = from + (LONGEST - node.slots[COUNT]);
                node = self.step(text, &node, (from, fits))?.1;
                self.step(text, &node, (fits, to))?;
                return Ok(());
            }
            from = to;
        }
        Ok(())
    }

    /// Some cuttings of a long content.
    fn some(&mut self, text: Text, node: &Node, dice: &mut Dice) -> Result<(), u32> {
        let length = text.content.len();
        self.cutting(text, node, [length, length].into_iter())?;
        if length <= TWO {
            (0..=length).try_for_each(|at| self.cutting(text, node, [at, length].into_iter()))?;
            (0..=length).try_for_each(|at| self.cutting(text, node, [at, at, length].into_iter()))?;
            self.cutting(text, node, 1..=length)?;
            self.cutting(text, node, (1..=length).flat_map(|at| [at, at]))?;
        }
        let (near, drawn) = if length <= LARGE { (3, 3) } else { (0, 1) };
        // around the byte that is looked for
        let place = text.reading.place.unwrap_or(dice.below(length));
        for at in place.saturating_sub(near)..=(place + near).min(length - 1) {
            self.cutting(text, node, [at, length].into_iter())?;
            self.cutting(text, node, [at, at, at + 1, length].into_iter())?;
        }
        for _ in 0..drawn {
            let most = [3, 20, 64, 65, 128, 129, 300, 5_000, length][dice.below(9)].max(length / 2_000 + 1);
            let mut ends = vec![dice.below(most.min(length) + 1)];
            while ends[ends.len() - 1] < length {
                let more = if dice.below(4) == 0 { [0, 0, 1, 2, 63, 64, 65, 128][dice.below(8)] } else { dice.below(most + 1) };
                ends.push((ends[ends.len() - 1] + more).min(length));
            }
            self.cutting(text, node, ends.into_iter())?;
        }
        Ok(())
    }

    /// A piece fed to a scan that holds any numbers.
    fn held(&mut self, scan: Scan, lent: usize, piece: &[u8]) -> Result<(), u32> {
        let mut slots = [CANARY; ROOM];
        slots[..SLOTS].copy_from_slice(&scan);
        self.call(&mut slots, lent, piece, |account| account.resumed(&scan, piece)).map(drop)
    }

    /// The content as a piece of scans that hold numbers of all sorts, with too few slots among them; all small ones, and all near the limit, for a short content.
    fn any(&mut self, case: &Case, dice: &mut Dice) -> Result<(), u32> {
        let piece = &case.content[..case.content.len().min(PIECES)];
        for _ in 0..HELD {
            let count = match dice.below(6) {
                0 => dice.below(12),
                1 => LONGEST - piece.len() + dice.below(3) - 1,
                2 => LONGEST + 2 - dice.below(5),
                3 => usize::MAX - dice.below(piece.len() + 2),
                4 => dice.next() as usize >> dice.below(64),
                _ => dice.below(LONGEST),
            };
            let [left, seen] = [0; 2].map(|_| [0, 0, 0, 1, 2, 3, 4, 5, usize::MAX][dice.below(9)]);
            let state = if dice.below(20) == 0 { dice.next() as usize >> dice.below(64) } else { dice.below(STATES.len() + 1) };
            let slots = if dice.below(8) == 0 { dice.below(SLOTS) } else { SLOTS + dice.below(ROOM - SLOTS + 1) };
            self.held([state, count, left, seen], slots, piece)?;
        }
        if piece.len() > SMALL {
            return Ok(());
        }
        let counts: Vec<usize> = (0..9).chain(LONGEST - 3..LONGEST + 3).collect();
        for state in 0..=STATES.len() {
            (0..=ROOM).try_for_each(|slots| self.make(state, slots).map(drop))?;
            for &count in &counts {
                for (left, seen) in (0..6).flat_map(|left| (0..4).map(move |seen| (left, seen))) {
                    self.held([state, count, left, seen], SLOTS, piece)?;
                }
            }
        }
        Ok(())
    }
    /// The content and a letter behind it in one piece, by the crate's reader: how far it goes has to be what a scan finds.
    fn reader(&mut self, content: &[u8], made: usize) -> Result<(), u32> {
        let mut document = std::mem::take(&mut self.document);
        document.clear();
        document.extend(content);
        document.push(b't');
        let mut slots = self.make(made, SLOTS)?;
        let mut reading = Reading::default();
        self.account.read(made, &document, &mut reading);
        for (from, to) in [(0, content.len()), (content.len(), document.len())] {
            self.call(&mut slots, SLOTS, &document[from..to], |account| Some(account.after(&document, &reading, to)))?;
        }
        let place = (slots[STATE] == CLOSED).then_some(slots[COUNT]);
        let mut theirs = Theirs::new(&document, DEFAULT);
        let number = theirs.read().number;
        self.tally.read += 1;
        let alike = match (&document[..], place) {
            ([b'<', b'!', third, ..], Some(2)) if !b"-[".contains(third) => number == NO_MARKUP || number == THEIR_DOCTYPE,
            ([b'<', ..], Some(at)) => theirs.position() == at + 1,
            ([b'&', ..], Some(at)) => theirs.position() == at + (document[at] == b';') as usize,
            (_, Some(at)) => theirs.position() == at,
            (_, None) => theirs.position() == document.len(),
        };
        if !alike {
            self.asked = Some(format!("ours in state {made} finds {place:?}, the crate's reader {number} and {}", theirs.position()));
        }
        self.document = document;
        if alike {
            Ok(())
        } else {
            Err(READER)
        }
    }

    /// All that a content is run with.
    fn all(&mut self, case: &Case) -> Result<(), u32> {
        let (content, mut dice) = (case.content, Dice::new(case.turn));
        let mut reading = Reading::default();
        for made in MADE {
            if self.scans != 0 && self.scans >> made & 1 == 0 {
                continue;
            }
            self.account.read(made, content, &mut reading);
            self.lent = SLOTS + dice.below(ROOM - SLOTS + 1);
            let slots = self.make(made, self.lent)?;
            let node = Node { slots, scanners: theirs::beside(made), pieces: Pieces::default() };
            let text = Text { content, reading: &reading };
            self.cuts.clear();
            match content.len() <= EVERY[(self.scans == 0) as usize] {
                true => self.every(text, &node, 0, false)?,
                false => self.some(text, &node, &mut dice)?,
            }
            let known = made == PIECE || made == TEXT && !matches!(content, [b'<' | b'&', ..]);
            if known && !content.starts_with(ORDER_MARK) && content.len() < LONGEST {
                self.reader(content, made)?;
            }
        }
        self.any(case, &mut dice)
    }
}

impl Runs for Bench {
    type Case<'a> = Case<'a>;
    type Kept = Kept;
    type Tally = Tally;
    type Told = ();

    fn run(&mut self, case: &Case, tally: &mut Tally) -> Result<(), Difference> {
        self.asked = None;
        std::mem::swap(&mut self.tally, tally);
        self.tally.contents += 1;
        let run = self.all(case);
        std::mem::swap(&mut self.tally, tally);
        run.map_err(|fields| Difference { call: 1, fields: fields.into() })
    }

    fn reset(&mut self) {
        *self = Self::new(self.account, self.rules);
    }

    fn kept(case: &Case) -> Kept {
        Kept::of(case)
    }

    fn length(kept: &Kept) -> usize {
        kept.content.len()
    }
}

impl Sink for Worker<Bench> {
    /// A content, which comes in the place of a document; what would be the slots of a stack says which scans it is for.
    fn case(&mut self, content: &[u8], settings: u16, scans: usize) -> Flow {
        self.bench.scans = scans;
        contents::case(self, content, settings)
    }
}
