//! Times of the service day.

use std::error;
use std::fmt;
use std::str::{self, FromStr};

/// A time of the service day, 00:00 to 47:59: what runs after midnight counts on, so that 24:10 comes after 23:50.
///
/// It prints as it stands in a timetable, five characters always.
///
/// ```
/// use sporebasket::column::Time;
///
/// let night: Time = "24:10".parse()?;
/// assert!(night > "23:50".parse()?);
/// assert_eq!(night.minutes(), 1450);
/// assert_eq!((night.hours(), night.minute()), (24, 10));
/// assert_eq!(night.to_string(), "24:10");
/// assert_eq!(format!("{night:>7}"), "  24:10");
/// # Ok::<(), sporebasket::column::ParseTimeError>(())
/// ```
#[derive(Clone, Copy, PartialEq, Eq, PartialOrd, Ord, Hash)]
pub struct Time(u16);

impl Time {
    /// The last time, 47:59.
    ///
    /// ```
    /// assert_eq!(sporebasket::column::Time::LAST.minutes(), 2879);
    /// ```
    pub const LAST: Time = Time(48 * 60 - 1);

    /// The time of these hours, 0 to 47, and minutes of the hour, 0 to 59.
    ///
    /// ```
    /// use sporebasket::column::Time;
    ///
    /// assert_eq!(Time::new(6, 15).map(Time::minutes), Some(375));
    /// assert_eq!(Time::new(47, 59), Some(Time::LAST));
    /// assert_eq!(Time::new(48, 0), None);
    /// assert_eq!(Time::new(23, 60), None);
    /// ```
    pub const fn new(hours: u16, minute: u16) -> Option<Time> {
        if hours < 48 && minute < 60 {
            Some(Time(60 * hours + minute))
        } else {
            None
        }
    }

    /// The time so many minutes after 00:00, 0 to 2879.
    ///
    /// ```
    /// use sporebasket::column::Time;
    ///
    /// assert_eq!(Time::from_minutes(1450), Time::new(24, 10));
    /// assert_eq!(Time::from_minutes(2880), None);
    /// ```
    pub const fn from_minutes(minutes: u16) -> Option<Time> {
        Time::new(minutes / 60, minutes % 60)
    }

    /// The minutes since 00:00 of the service day.
    ///
    /// ```
    /// let [last, first]: [sporebasket::column::Time; 2] = ["24:10".parse()?, "23:50".parse()?];
    /// assert_eq!(last.minutes() - first.minutes(), 20);
    /// # Ok::<(), sporebasket::column::ParseTimeError>(())
    /// ```
    pub const fn minutes(self) -> u16 {
        self.0
    }

    /// The hours, 0 to 47.
    ///
    /// ```
    /// assert_eq!(sporebasket::column::Time::LAST.hours(), 47);
    /// ```
    pub const fn hours(self) -> u16 {
        self.0 / 60
    }

    /// The minute of the hour, 0 to 59.
    ///
    /// ```
    /// assert_eq!(sporebasket::column::Time::LAST.minute(), 59);
    /// ```
    pub const fn minute(self) -> u16 {
        self.0 % 60
    }

    /// The time of a slot of a column.
    pub(crate) fn of_slot(minutes: usize) -> Time {
        // no slot that the archive fills has more than the last time
        Time(minutes as u16)
    }
}

/// The number that two digits make.
fn two(tens: u8, ones: u8) -> Option<u16> {
    let both = tens.is_ascii_digit() && ones.is_ascii_digit();
    both.then(|| u16::from(tens - b'0') * 10 + u16::from(ones - b'0'))
}

/// Two digits, a colon and two digits, and nothing else.
///
/// ```
/// use sporebasket::column::Time;
///
/// assert_eq!("06:15".parse(), Ok(Time::new(6, 15).unwrap()));
/// for text in ["6:15", " 06:15", "48:00", "23:60", ""] {
///     assert!(text.parse::<Time>().is_err());
/// }
/// ```
impl FromStr for Time {
    type Err = ParseTimeError;

    fn from_str(text: &str) -> Result<Self, ParseTimeError> {
        let parsed = match *text.as_bytes() {
            [a, b, b':', c, d] => two(a, b).zip(two(c, d)),
            _ => None,
        };
        parsed
            .and_then(|(hours, minute)| Time::new(hours, minute))
            .ok_or(ParseTimeError)
    }
}

impl fmt::Display for Time {
    fn fmt(&self, f: &mut fmt::Formatter<'_>) -> fmt::Result {
        let digit = |n: u16| b'0' + (n % 10) as u8;
        let (hours, minute) = (self.hours(), self.minute());
        let text = [digit(hours / 10), digit(hours), b':', digit(minute / 10), digit(minute)];
        f.pad(str::from_utf8(&text).map_err(|_| fmt::Error)?)
    }
}

impl fmt::Debug for Time {
    fn fmt(&self, f: &mut fmt::Formatter<'_>) -> fmt::Result {
        fmt::Display::fmt(self, f)
    }
}

/// Text that is no [`Time`].
///
/// ```
/// let error = "6:15".parse::<sporebasket::column::Time>().unwrap_err();
/// assert_eq!(error.to_string(), "not a time from 00:00 to 47:59");
/// ```
#[derive(Clone, Copy, Debug, PartialEq, Eq, Hash)]
#[non_exhaustive]
pub struct ParseTimeError;

impl fmt::Display for ParseTimeError {
    fn fmt(&self, f: &mut fmt::Formatter<'_>) -> fmt::Result {
        f.write_str("not a time from 00:00 to 47:59")
    }
}

impl error::Error for ParseTimeError {}

#[cfg(test)]
mod tests {
    use super::Time;

    fn all() -> impl Iterator<Item = Time> {
        (0..=Time::LAST.minutes()).filter_map(Time::from_minutes)
    }

    #[test]
    fn text_there_and_back() {
        assert_eq!(all().count(), 48 * 60);
        for time in all() {
            let text = time.to_string();
            assert_eq!((text.len(), text.parse()), (5, Ok(time)));
            assert_eq!(text, format!("{:02}:{:02}", time.hours(), time.minute()));
            assert_eq!(Time::of_slot(time.minutes().into()), time);
        }
    }

    #[test]
    fn the_order_is_that_of_the_text() {
        assert!(all().map(|time| time.to_string()).is_sorted());
        assert!(all().is_sorted());
    }

    #[test]
    fn no_other_numbers_are_times() {
        for minutes in 2880..=u16::MAX {
            assert_eq!(Time::from_minutes(minutes), None);
        }
        for (hours, minute) in [(0, 60), (48, 0), (47, u16::MAX), (u16::MAX, 0), (u16::MAX, u16::MAX)] {
            assert_eq!(Time::new(hours, minute), None);
        }
    }

    #[test]
    fn no_other_text_is_a_time() {
        let mut texts = 0;
        // each byte at each place of a time, the others being digits with which it could be one
        for place in 0..5 {
            for byte in 0..=127u8 {
                let mut text = *b"11:11";
                text[place] = byte;
                let text = std::str::from_utf8(&text).unwrap();
                let good = match place {
                    0 => (b'0'..=b'4').contains(&byte),
                    2 => byte == b':',
                    3 => (b'0'..=b'5').contains(&byte),
                    _ => byte.is_ascii_digit(),
                };
                assert_eq!(text.parse::<Time>().is_ok(), good, "{text:?}");
                texts += usize::from(good);
            }
        }
        assert_eq!(texts, 5 + 10 + 1 + 6 + 10);
        for text in [
            "1:11", "11:1", "111:11", "11:111", "11:11 ", " 11:11", "1111", "é1:1", "11:é", "+1:11", "",
        ] {
            assert!(text.parse::<Time>().is_err(), "{text:?}");
        }
    }
}
