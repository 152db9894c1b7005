use super::{draw::Draw, fill, words::prose, Input};

pub const INPUT: Input = Input {
    name: "cdata",
    description: "\
CDATA sections and processing instructions. In <data> pieces <e><![CDATA[PROSE]]></e><?print PROSE?>, without white space between. The section's prose \
has a number of bytes drawn from 10 to 30, the instruction's one from 5 to 20; the numbers are drawn before the words of each.",
    make,
};

fn make(length: usize) -> Vec<u8> {
    let mut draw = Draw::new();
    fill(length, "<data>", "</data>", |_| {
        let wanted = draw.between(10, 30);
        let section = prose(&mut draw, wanted);
        let wanted = draw.between(5, 20);
        format!("<e><![CDATA[{section}]]></e><?print {}?>", prose(&mut draw, wanted))
    })
}
