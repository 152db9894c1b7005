//! Small documents with every byte value in every single place, put in and put over, and every pair of bytes in some.

use super::*;

const TEMPLATES: &[&[u8]] = &[
    b"<a>t</a>",
    b"<a b='c'>",
    b"<a b=\"c\"/>",
    b"<a></a >",
    b"<a ></b>t",
    b"</a>t",
    b"<a/><b/>",
    b"<a/> </a>",
    b"<!--a-b-->",
    b"<!---->t",
    b"<![CDATA[a]]>",
    b"<![CDATA[]]]>t",
    b"<?xml v?>t",
    b"<?xml?>",
    b"<?a b?>t",
    b"<??>t",
    b"<?xml ",
    b"<?xm",
    b"&a;t",
    b"&a &b<c>",
    b"t& <a>",
    b" t <a> t ",
    b"\xEF\xBB\xBF t",
    b"\xEF\xBB\xBF<a>",
    b"a\xC3\xA9b",
    b"<\xC3\xA9></\xC3\xA9>",
    b"<a\xE2\x82\xAC>",
    b"\xF0\x9F\x9A\x86;",
    b"<a 'b",
    b"</a \"b",
    b"<a></a></a>",
    b"<!x>t",
    b"<a\t\r\nb>",
];
const PAIRS: &[&[u8]] = &[b"<a b>", b"<a></a>", b"<!---->", b"t&a;", b"<?x?>", b"<![CDATA[]]>"];

pub fn families(amount: Amount) -> Vec<Family> {
    let settings = amount.of(several(), every());
    let singles = Family::new("a byte in every place", TEMPLATES.len(), move |job, sink| {
        let template = TEMPLATES[job];
        for place in 0..=template.len() {
            for value in 0..=u8::MAX {
                let mut document = template.to_vec();
                document.insert(place, value);
                sink.each(&document, &settings, 7)?;
                document.remove(place);
                if place < template.len() {
                    document[place] = value;
                    sink.each(&document, &settings, 7)?;
                }
                document.truncate(place);
                sink.each(&document, &settings[..1], 4)?;
            }
        }
        ON
    });
    let step = amount.of(7, 1);
    let pairs = Family::new("two bytes in every place", PAIRS.len() * 256, move |job, sink| {
        let template = PAIRS[job / 256];
        let first = (job % 256) as u8;
        for place in 0..template.len() - 1 {
            for second in (first % step..=u8::MAX).step_by(step.into()) {
                let mut document = template.to_vec();
                document[place] = first;
                document[place + 1] = second;
                sink.each(&document, &[DEFAULT, TURNED], 6)?;
            }
        }
        ON
    });
    vec![singles, pairs]
}
