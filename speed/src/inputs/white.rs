//! Documents in which the reader looks for white space, or for the first byte or the last that is not, for `--trim`.

use super::{draw::Draw, fill, time, Input};

pub const INPUTS: [Input; 8] = [
    Input {
        name: "long-behind",
        description:
            "in <day> times such as <d>08:15</d>, from 00:00 on, each a minute after the one before, with 4,096 spaces behind the time.",
        make: |length| times(length, |_, time| format!("<d>{time}{}</d>", spaces(LONG))),
    },
    Input {
        name: "long-in-end",
        description: "those times with 4,096 spaces behind the closing name.",
        make: |length| times(length, |_, time| format!("<d>{time}</d{}>", spaces(LONG))),
    },
    Input {
        name: "long-before",
        description: "those times with 4,096 spaces before the time.",
        make: |length| times(length, |_, time| format!("<d>{}{time}</d>", spaces(LONG))),
    },
    Input { name: "none", description: "those times without a space.", make: |length| times(length, |_, time| format!("<d>{time}</d>")) },
    Input {
        name: "behind-127",
        description: "those times with 127 spaces behind each: as many single ones behind a block as there can be.",
        make: |length| times(length, |_, time| format!("<d>{time}{}</d>", spaces(127))),
    },
    Input {
        name: "behind",
        description: "those times with 0 to 40 spaces behind each, drawn.",
        make: |length| times(length, |draw, time| format!("<d>{time}{}</d>", spaces(draw.between(0, 40)))),
    },
    Input {
        name: "indented",
        description: "those times, each on a line of its own behind 0 to 40 spaces, drawn.",
        make: |length| times(length, |draw, time| format!("\n{}<d>{time}</d>", spaces(draw.between(0, 40)))),
    },
    Input {
        name: "names",
        description: "those times as <n d=\"08:15\"/>, with 1 to 40 times n for the name, drawn.",
        make: |length| times(length, |draw, time| format!("<{} d=\"{time}\"/>", "n".repeat(draw.between(1, 40)))),
    },
];

/// How many spaces a long run has.
const LONG: usize = 4096;

fn spaces(count: usize) -> String {
    " ".repeat(count)
}

fn times(length: usize, mut piece: impl FnMut(&mut Draw, String) -> String) -> Vec<u8> {
    let mut draw = Draw::new();
    fill(length, "<day>", "</day>", |index| piece(&mut draw, time(index)))
}
