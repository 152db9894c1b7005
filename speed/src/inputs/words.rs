//! The words of the inputs.

use super::draw::Draw;

pub const STOPS: [&str; 12] = [
    "Kirchplatz",
    "Hauptbahnhof",
    "Rathaus",
    "Markt",
    "Stadtpark",
    "Am Wehr",
    "Schlossallee",
    "Bahnhof Nord",
    "Messe",
    "Lindenhof",
    "Neue Welt",
    "Klinikum Ost",
];

pub const WORDS: [&str; 32] = [
    "the",
    "tram",
    "leaves",
    "at",
    "half-hourly",
    "from",
    "a",
    "platform",
    "and",
    "passengers",
    "change",
    "for",
    "line",
    "towards",
    "harbour",
    "on",
    "Sundays",
    "service",
    "is",
    "replaced",
    "by",
    "buses",
    "until",
    "further",
    "notice",
    "please",
    "allow",
    "ten",
    "minutes",
    "more",
    "in",
    "winter",
];

/// An element's name and its texts.
pub const LANGUAGES: [(&str, [&str; 4]); 4] = [
    ("Straße", ["Bäckerstraße", "Königsplatz", "Münzgasse", "Große Brücke"]),
    ("στάση", ["Σύνταγμα", "Ομόνοια", "Πλατεία Βάθης", "Πλατεία Συντάγματος"]),
    ("остановка", ["Площадь Ленина", "Московский вокзал", "Невский проспект", "Гостиный двор"]),
    ("停車場", ["東京駅八重洲口", "新宿三丁目", "京都市役所前", "大阪城公園"]),
];

/// Words of together at least `length` bytes.
pub fn prose(draw: &mut Draw, length: usize) -> String {
    let mut prose = draw.of(&WORDS).to_string();
    while prose.len() < length {
        prose += if draw.below(10) == 0 { ". " } else { " " };
        prose += draw.of(&WORDS);
    }
    prose
}
