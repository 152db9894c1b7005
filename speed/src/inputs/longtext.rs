use super::{draw::Draw, fill, words::prose, Input};

pub const INPUT: Input =
    Input { name: "longtext", description: "in <text> paragraphs <p>..</p> of prose of 4,075 bytes, without white space between.", make };

fn make(length: usize) -> Vec<u8> {
    let mut draw = Draw::new();
    fill(length, "<text>", "</text>", |_| format!("<p>{}</p>", prose(&mut draw, 4075)))
}
