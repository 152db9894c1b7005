//! The functions of the settings: what `trim_text` and `enable_all_checks` make of all settings, in the Rust package and in the crate.

use crate::ours::{OPEN_NAMES, THEIR_ALL};
use quick_xml::reader::Config as Theirs;
use sporebasket::reader::Config as Ours;

macro_rules! flags {
    ($config:expr) => {
        [
            &mut $config.allow_dangling_amp,
            &mut $config.allow_unmatched_ends,
            &mut $config.check_comments,
            &mut $config.check_end_names,
            &mut $config.expand_empty_elements,
            &mut $config.trim_markup_names_in_closing_tags,
            &mut $config.trim_text_start,
            &mut $config.trim_text_end,
        ]
    };
}

fn set(flags: [&mut bool; 8], settings: u16) {
    flags.into_iter().enumerate().for_each(|(bit, flag)| *flag = settings >> bit & 1 == 1);
}

/// The defaults are alike, and so is what each function makes of each of the 512 settings; the one that the crate has not is off by default, and stays.
pub fn alike() -> bool {
    let (mut ours, mut theirs) = (Ours::default(), Theirs::default());
    if flags!(ours) != flags!(theirs) || ours.check_open_names {
        return false;
    }
    (0..=THEIR_ALL | OPEN_NAMES).all(|settings| {
        [false, true].into_iter().all(|on| {
            ours.check_open_names = settings & OPEN_NAMES != 0;
            set(flags!(ours), settings);
            set(flags!(theirs), settings);
            ours.trim_text(on);
            theirs.trim_text(on);
            let trimmed = flags!(ours) == flags!(theirs);
            set(flags!(ours), settings);
            set(flags!(theirs), settings);
            ours.enable_all_checks(on);
            theirs.enable_all_checks(on);
            let checked = flags!(ours) == flags!(theirs);
            trimmed && checked && ours.check_open_names == (settings & OPEN_NAMES != 0)
        })
    })
}
