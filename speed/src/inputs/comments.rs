use super::{draw::Draw, fill, words::prose, Input};

pub const INPUT: Input = Input {
    name: "comments",
    description: "\
in <notes> comments, each followed by short text: <!-- PROSE -->PROSE. The comment's prose has a number of bytes drawn from 65 to 135, the text's one \
from 10 to 25; the numbers are drawn before the words of each.",
    make,
};

fn make(length: usize) -> Vec<u8> {
    let mut draw = Draw::new();
    fill(length, "<notes>", "</notes>", |_| {
        let wanted = draw.between(65, 135);
        let comment = prose(&mut draw, wanted);
        let wanted = draw.between(10, 25);
        format!("<!-- {comment} -->{}", prose(&mut draw, wanted))
    })
}
