use super::{draw::Draw, fill, time, words::STOPS, Input};

pub const INPUT: Input = Input {
    name: "timetable",
    description: "\
short elements. In <timetable> rows such as <row><stop>Kirchplatz</stop><ar>06:15</ar><dp>06:17</dp></row>, without white space between. For each a stop is \
drawn, then the minutes since the departure of the row before, 1 to 9, then those of the halt, 0 to 2; the first departure before is at 05:00.",
    make,
};

fn make(length: usize) -> Vec<u8> {
    let mut draw = Draw::new();
    let mut minutes = 5 * 60;
    fill(length, "<timetable>", "</timetable>", |_| {
        let stop = draw.of(&STOPS);
        let arrival = minutes + draw.between(1, 9);
        minutes = arrival + draw.below(3);
        format!("<row><stop>{stop}</stop><ar>{}</ar><dp>{}</dp></row>", time(arrival), time(minutes))
    })
}
