//! What the contents of tags and of texts have in common. Each comes in the place of a document, with the default settings.

use super::random::{damage, Dice};
use super::*;

/// A content takes no stack.
pub const NONE: usize = 0;

/// Small contents with every byte value in every place, put in and put over, and cut off there.
pub fn places(name: &'static str, templates: &'static [&'static [u8]]) -> Family {
    Family::new(name, templates.len(), |job, sink| {
        let template = templates[job];
        for place in 0..=template.len() {
            for value in 0..=u8::MAX {
                let mut content = template.to_vec();
                content.insert(place, value);
                sink.case(&content, DEFAULT, NONE)?;
                content.remove(place);
                if place < template.len() {
                    content[place] = value;
                    sink.case(&content, DEFAULT, NONE)?;
                }
            }
            sink.case(&template[..place], DEFAULT, NONE)?;
        }
        ON
    })
}

/// One of these bytes put in or put over, or any byte taken out.
fn hurt(dice: &mut Dice, content: &mut Vec<u8>, bytes: &[&u8]) {
    let at = dice.below(content.len().max(1));
    let byte = *dice.pick(bytes);
    match dice.below(4) {
        _ if content.is_empty() => content.push(byte),
        0 => content.insert(at, byte),
        1 => content[at] = byte,
        2 => drop(content.remove(at)),
        _ => damage(dice, content),
    }
}

/// A content, and three damaged copies of it.
pub fn damaged(sink: &mut dyn Sink, dice: &mut Dice, content: &[u8], bytes: &[&u8]) -> Flow {
    sink.case(content, DEFAULT, NONE)?;
    for damages in 1..4 {
        let mut copy = content.to_vec();
        (0..damages).for_each(|_| hurt(dice, &mut copy, bytes));
        sink.case(&copy, DEFAULT, NONE)?;
    }
    ON
}

/// So many jobs of 5,000 contents each, drawn by the seed and a word.
pub fn drawn(
    name: &'static str,
    jobs: usize,
    seed: u64,
    word: u64,
    draw: impl Fn(&mut Dice, &mut Vec<u8>) + Send + Sync + 'static,
) -> Family {
    const EACH: usize = 5_000;
    Family::new(name, jobs, move |job, sink| {
        let mut dice = Dice::new(seed ^ (job as u64) << 20 ^ word);
        let mut content = Vec::new();
        for _ in 0..EACH {
            content.clear();
            draw(&mut dice, &mut content);
            sink.case(&content, DEFAULT, NONE)?;
        }
        ON
    })
}
