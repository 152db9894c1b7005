use super::{draw::Draw, fill, words::LANGUAGES, Input};

pub const INPUT: Input = Input {
    name: "utf8",
    description: "\
names and text of two and three bytes a letter. In <Ort> elements with text, without white space between. A language is drawn, then one of its texts; \
the element has the language's name.",
    make,
};

fn make(length: usize) -> Vec<u8> {
    let mut draw = Draw::new();
    fill(length, "<Ort>", "</Ort>", |_| {
        let (name, texts) = LANGUAGES[draw.below(LANGUAGES.len())];
        format!("<{name}>{}</{name}>", draw.of(&texts))
    })
}
