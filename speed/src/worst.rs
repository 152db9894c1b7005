//! Documents that a reader with a second look at each byte would take too long for.

use self::Shape::{Nesting, Run};
use crate::clock::Row;
use crate::runners::Settings;

pub struct Worst {
    name: &'static str,
    settings: Settings,
    shape: Shape,
    longest: usize,
}

enum Shape {
    /// Bytes, then others again and again, then the last ones.
    Run(&'static [u8], &'static [u8], &'static [u8]),
    /// So many names open, as long as fits, and closed again.
    Nesting(usize),
}

/// Enough to see how the time grows. Those that take a call for every few bytes have less.
pub const LONG: usize = 16_777_216;
const SHORT: usize = LONG / 4;

const DEFAULT: Settings = Settings { trim_text: false, allow_dangling_amp: false, check_comments: false };
const TRIM: Settings = Settings { trim_text: true, ..DEFAULT };
const DANGLING: Settings = Settings { allow_dangling_amp: true, ..DEFAULT };
const COMMENTS: Settings = Settings { check_comments: true, ..DEFAULT };

const fn worst(name: &'static str, settings: Settings, shape: Shape, longest: usize) -> Worst {
    Worst { name, settings, shape, longest }
}

pub const ALL: [Worst; 30] = [
    worst("`<` alone, a tag without an end", DEFAULT, Run(b"", b"<", b""), LONG),
    worst("`<</>` again and again", DEFAULT, Run(b"", b"<</>", b""), SHORT),
    worst("`</a>` with nothing open", DEFAULT, Run(b"", b"</a>", b""), SHORT),
    worst("`&` alone, each refused", DEFAULT, Run(b"", b"&", b""), SHORT),
    worst("`&` alone, allow_dangling_amp", DANGLING, Run(b"", b"&", b""), SHORT),
    worst("`&`, then `a` to the end", DEFAULT, Run(b"&", b"a", b""), LONG),
    worst("`-` alone, as text", DEFAULT, Run(b"", b"-", b""), LONG),
    worst("`<!--`, then `-` to the end", DEFAULT, Run(b"<!--", b"-", b""), LONG),
    worst("`<!--`, then `>` to the end", DEFAULT, Run(b"<!--", b">", b""), LONG),
    worst("`<!--`, then `->` to the end", DEFAULT, Run(b"<!--", b"->", b""), LONG),
    worst("`<!--`, `->` again and again, `-->`", DEFAULT, Run(b"<!--", b"->", b"-->"), LONG),
    worst("`<!--`, `- ` again and again, `-->`, check_comments", COMMENTS, Run(b"<!--", b"- ", b"-->"), LONG),
    worst("`<![CDATA[`, then `]>` to the end", DEFAULT, Run(b"<![CDATA[", b"]>", b""), LONG),
    worst("`<![CDATA[`, then `]` to the end", DEFAULT, Run(b"<![CDATA[", b"]", b""), LONG),
    worst("`<?`, then `?` to the end", DEFAULT, Run(b"<?", b"?", b""), LONG),
    worst("`<?a`, then `>` to the end", DEFAULT, Run(b"<?a", b">", b""), LONG),
    worst("`<a `, then `'\"` to the end", DEFAULT, Run(b"<a ", b"'\"", b""), LONG),
    worst("`<a `, then `''` to the end", DEFAULT, Run(b"<a ", b"''", b""), LONG),
    worst("`<a \"`, then `'` to the end", DEFAULT, Run(b"<a \"", b"'", b""), LONG),
    worst("spaces alone, trim_text", TRIM, Run(b"", b" ", b""), LONG),
    worst("`a`, spaces, `a`, trim_text", TRIM, Run(b"a", b" ", b"a"), LONG),
    worst("`a`, spaces to the end, trim_text", TRIM, Run(b"a", b" ", b""), LONG),
    worst("`<a`, spaces, `>`", DEFAULT, Run(b"<a", b" ", b">"), LONG),
    worst("`<a></a`, spaces, `>`", DEFAULT, Run(b"<a></a", b" ", b">"), LONG),
    worst("4,096 long names opened and closed", DEFAULT, Nesting(4096), LONG),
    worst("text whose last byte is ill-formed", DEFAULT, Run(b"", b"a", b"\xFF"), LONG),
    worst("text with a letter of two bytes in every sixteen", DEFAULT, Run(b"", "timetable 24/7 é".as_bytes(), b""), LONG),
    worst("text of two bytes a letter", DEFAULT, Run(b"", "é".as_bytes(), b""), LONG),
    worst("text of three bytes a letter", DEFAULT, Run(b"", "駅".as_bytes(), b""), LONG),
    worst("text of four bytes a letter", DEFAULT, Run(b"", "🚆".as_bytes(), b""), LONG),
];

impl Worst {
    /// The document at a quarter of its greatest length, at half of it and at all of it.
    pub fn rows(&self) -> [Row; 3] {
        [self.longest / 4, self.longest / 2, self.longest].map(|length| Row {
            name: self.name.to_string(),
            document: match self.shape {
                Run(before, again, last) => run(length, before, again, last),
                Nesting(names) => nesting(length, names),
            },
            settings: self.settings,
        })
    }
}

fn run(length: usize, before: &[u8], again: &[u8], last: &[u8]) -> Vec<u8> {
    let count = (length - before.len() - last.len()) / again.len();
    [before, &again.repeat(count), last].concat()
}

/// So many elements, one in the other, with names as long as fit.
pub fn nesting(length: usize, names: usize) -> Vec<u8> {
    let marks = "<></>".len();
    let name = "n".repeat((length / names - marks) / 2);
    [format!("<{name}>").repeat(names), format!("</{name}>").repeat(names)].concat().into_bytes()
}
