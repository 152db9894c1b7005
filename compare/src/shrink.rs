//! Makes an input that shows a difference smaller, and prints it with what both sides say.

use crate::check::{Bench, Case, Difference, BESIDE, FIELDS, LAYOUT, OPEN, PLAIN, STRAY};
use crate::ours::*;
use crate::plain::Beside;
use crate::run::Runs;
use crate::strays;
use crate::summary::Tally;
use crate::trace;

/// An input of its own.
#[derive(Clone)]
pub struct Kept {
    pub document: Vec<u8>,
    pub settings: u16,
    pub slots: usize,
    pub mark: usize,
    pub beside: bool,
    pub stray: bool,
}

impl Kept {
    pub fn of(case: &Case) -> Self {
        let Case { settings, slots, mark, beside, stray, .. } = *case;
        Self { document: case.document.to_vec(), settings, slots, mark, beside, stray }
    }

    pub fn case(&self) -> Case<'_> {
        let Kept { settings, slots, mark, beside, stray, .. } = *self;
        Case { document: &self.document, settings, slots, mark, beside, stray }
    }
}

/// A document with a part cut out, the large parts first, each made when it is asked for.
pub fn cuts(document: &[u8]) -> impl Iterator<Item = Vec<u8>> + '_ {
    let length = document.len();
    let sizes = std::iter::successors(Some(length), |size| Some(size / 2)).take_while(|&size| size > 0);
    let parts = sizes.flat_map(move |size| (0..length).step_by(size).take(200).map(move |from| (from, size)));
    parts.map(move |(from, size)| [&document[..from], &document[(from + size).min(length)..]].concat())
}

/// Smaller inputs, the much smaller ones first.
fn smaller(kept: &Kept) -> impl Iterator<Item = Kept> + '_ {
    let length = kept.document.len();
    let cut = cuts(&kept.document).map(|document| Kept { document, ..*kept });
    let bits = (0..LETTERS.len()).filter(|bit| (kept.settings ^ DEFAULT) >> bit & 1 == 1);
    let plain = bits.map(|bit| Kept { settings: kept.settings ^ 1 << bit, ..kept.clone() });
    let fewer = (kept.slots > 0).then(|| Kept { slots: kept.slots - 1, ..kept.clone() });
    let marks = (0..kept.mark.min(2)).map(|mark| Kept { mark, ..kept.clone() });
    let places = (0..length.min(200)).filter(|&at| !b"a<>".contains(&kept.document[at]));
    let same = places.map(|at| {
        let mut next = kept.clone();
        next.document[at] = b'a';
        next
    });
    cut.chain(plain).chain(fewer).chain(marks).chain(same)
}

/// How many bytes are read at most to find a smaller input.
const BYTES: usize = 1 << 33;

/// The smallest input found on which the two sides still differ in one of these fields.
pub fn shrink<E: Engine>(bench: &mut Bench<E>, kept: &Kept, difference: Difference) -> (Kept, Difference) {
    let again = |next: &Kept| bench.run(&next.case(), &mut Tally::default()).err();
    least((kept.clone(), difference), |kept| Box::new(smaller(kept)), |kept| kept.document.len(), again)
}

/// Goes from an input to a smaller one that still differs in one of these fields, as long as there is one and it does not take too long.
pub fn least<K>(
    mut best: (K, Difference),
    smaller: impl Fn(&K) -> Box<dyn Iterator<Item = K> + '_>,
    length: impl Fn(&K) -> usize,
    mut differs: impl FnMut(&K) -> Option<Difference>,
) -> (K, Difference) {
    let fields = best.1.fields;
    let (mut tries, mut bytes) = (3_000, BYTES);
    loop {
        let mut again = |next: K| {
            tries -= 1;
            let found = differs(&next)?;
            (found.fields & fields != 0).then_some((next, found))
        };
        let within = |next: &K| {
            bytes = bytes.saturating_sub(length(next));
            bytes > 0
        };
        let next = smaller(&best.0).take(1_000).take_while(within).find_map(&mut again);
        match next {
            Some(next) if tries > 0 => best = next,
            _ => return best,
        }
    }
}

/// Prints an input, or of a long one its settings and length: false for a long one.
pub fn show_case(kept: &Kept) -> bool {
    let long = kept.document.len() > 4_000;
    match long {
        true => println!("  {} {} and {} bytes", trace::letters(kept.settings), kept.slots, kept.document.len()),
        false => println!("  {}", trace::case_line(&kept.case())),
    }
    if kept.mark > 0 {
        println!("  with {} in the slot of the mark from the start", kept.mark);
    }
    !long
}

/// Prints an input, what differs in which call, and all answers up to that call.
pub fn show<E: Engine>(engine: &mut E, kept: &Kept, difference: Difference) {
    let case = kept.case();
    let named = |fields: u64| (0..FIELDS.len()).filter(|i| fields >> i & 1 == 1).map(|i| FIELDS[i]).collect::<Vec<_>>().join(", ");
    match difference.fields & BESIDE {
        0 => println!("difference in call {}: {}", difference.call, named(difference.fields)),
        beside => {
            println!("difference of the plain engine from the reader in call {}: {}", difference.call, named((beside & !STRAY) >> PLAIN))
        }
    }
    if !show_case(kept) {
        return;
    }
    if kept.stray {
        println!("  in a changed state, in the place of that before the call");
        strays::run(engine, &case, &mut Beside::default()).err().iter().for_each(|found| found.show());
        return;
    }
    for line in trace::our_lines(engine, &case, difference.call + 1) {
        println!("    ours       {line}");
    }
    for line in trace::their_lines(&case).take(difference.call + 1) {
        println!("    the crate  {line}");
    }
    if difference.fields & BESIDE != 0 {
        println!("    reader     {}", trace::slots(engine, E::read, &case, difference.call));
        println!("    plain      {}", trace::slots(engine, E::plain, &case, difference.call));
    }
    if difference.fields & LAYOUT != 0 {
        for line in trace::our_pieces(engine, &case, difference.call) {
            println!("    piece      {line}");
        }
    }
    if difference.fields & OPEN != 0 {
        for line in trace::our_rows(engine, &case, difference.call) {
            println!("    rows       {line}");
        }
    }
}
