use super::{draw::Draw, Input};

pub const INPUT: Input = Input {
    name: "deep",
    description: "\
deep nesting. In <deep> nests, without white space between: as many opening tags as are drawn, from 100 to 500, <abschnitt000> outermost, then \
<abschnitt001> and so on, then as many closing tags. The last nest has as many as fit.",
    make,
};

const OPEN: &str = "<deep>";
const CLOSE: &str = "</deep>";
/// The bytes that an opening and a closing tag take.
const LEVEL: usize = "<abschnitt000></abschnitt000>".len();

fn make(length: usize) -> Vec<u8> {
    let mut draw = Draw::new();
    let mut document = OPEN.to_string();
    loop {
        let fitting = length.saturating_sub(document.len() + CLOSE.len()) / LEVEL;
        if fitting == 0 {
            break;
        }
        let levels = draw.between(100, 500).min(fitting);
        (0..levels).for_each(|level| document += &format!("<abschnitt{level:03}>"));
        (0..levels).rev().for_each(|level| document += &format!("</abschnitt{level:03}>"));
    }
    document += CLOSE;
    document.into_bytes()
}
