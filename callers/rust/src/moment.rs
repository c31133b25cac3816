//! Times of UTC.
use crate::sys;
use std::fmt;
use std::time::{Duration, SystemTime, UNIX_EPOCH};

/// A second of UTC in the years 0 to 9999.
#[derive(Clone, Copy, Debug, PartialEq, Eq)]
pub struct Moment(pub(crate) sys::Time);

/// The seconds from 1970 to the end of the year 9999.
const LAST: u64 = 253_402_300_799;

impl Moment {
    /// Makes a time of UTC; `None` if the calendar or the clock doesn't have it, or its year is above
    /// 9999.
    pub const fn new(
        year: u16,
        month: u8,
        day: u8,
        hour: u8,
        minute: u8,
        second: u8,
    ) -> Option<Moment> {
        let is_leap = year % 4 == 0 && (year % 100 != 0 || year % 400 == 0);
        let days = match month {
            2 if is_leap => 29,
            2 => 28,
            4 | 6 | 9 | 11 => 30,
            1..=12 => 31,
            _ => 0,
        };
        if year > 9999 || day == 0 || day > days || hour > 23 || minute > 59 || second > 59 {
            return None;
        }
        Some(Moment(sys::Time {
            year,
            month,
            day,
            hour,
            minute,
            second,
            unused: 0,
        }))
    }

    /// Returns the time of the system's clock. A clock before 1970 counts as of 1970.
    pub fn now() -> Moment {
        let passed = SystemTime::now().duration_since(UNIX_EPOCH);
        Moment::of_seconds(passed.map_or(0, |it| it.as_secs()).min(LAST))
    }

    /// Returns the time so many seconds after 1970-01-01T00:00:00Z, without leap seconds; `None`
    /// after the year 9999.
    pub fn from_timestamp(seconds: u64) -> Option<Moment> {
        (seconds <= LAST).then(|| Moment::of_seconds(seconds))
    }

    // Of at most LAST seconds.
    fn of_seconds(seconds: u64) -> Moment {
        let (days, rest) = (seconds / 86_400, seconds % 86_400);
        // the days from 1 March of the year 0, in eras of 400 years
        let shifted = days + 719_468;
        let (era, of_era) = (shifted / 146_097, shifted % 146_097);
        let year = (of_era - of_era / 1_460 + of_era / 36_524 - of_era / 146_096) / 365;
        let of_year = of_era - (365 * year + year / 4 - year / 100);
        let from_march = (5 * of_year + 2) / 153;
        let day = of_year - (153 * from_march + 2) / 5 + 1;
        let month = if from_march < 10 {
            from_march + 3
        } else {
            from_march - 9
        };
        let year = era * 400 + year + u64::from(month <= 2);
        Moment(sys::Time {
            year: year as u16,
            month: month as u8,
            day: day as u8,
            hour: (rest / 3_600) as u8,
            minute: (rest / 60 % 60) as u8,
            second: (rest % 60) as u8,
            unused: 0,
        })
    }

    /// Returns how many seconds it is after 1970-01-01T00:00:00Z, without leap seconds; negative
    /// before.
    pub fn timestamp(&self) -> i64 {
        let ((year, month, day), (hour, minute, second)) = self.parts();
        // years begin in March here, and count from the year -400, since none of them is negative then
        let (year, month) = (i64::from(year) + 400, i64::from(month));
        let (year, from_march) = match month {
            1 | 2 => (year - 1, month + 9),
            _ => (year, month - 3),
        };
        let of_year = (153 * from_march + 2) / 5 + i64::from(day) - 1;
        let days = 365 * year + year / 4 - year / 100 + year / 400 + of_year;
        let of_day = i64::from(hour) * 3_600 + i64::from(minute) * 60 + i64::from(second);
        (days - 146_097 - 719_468) * 86_400 + of_day
    }

    /// Returns the year, the month and the day.
    pub fn date(&self) -> (u16, u8, u8) {
        (self.0.year, self.0.month, self.0.day)
    }

    /// Returns the hour, the minute and the second.
    pub fn time(&self) -> (u8, u8, u8) {
        (self.0.hour, self.0.minute, self.0.second)
    }

    fn parts(&self) -> ((u16, u8, u8), (u8, u8, u8)) {
        (self.date(), self.time())
    }
}

impl std::hash::Hash for Moment {
    fn hash<H: std::hash::Hasher>(&self, state: &mut H) {
        self.parts().hash(state);
    }
}

impl PartialOrd for Moment {
    fn partial_cmp(&self, other: &Moment) -> Option<std::cmp::Ordering> {
        Some(self.cmp(other))
    }
}

impl Ord for Moment {
    fn cmp(&self, other: &Moment) -> std::cmp::Ordering {
        self.parts().cmp(&other.parts())
    }
}

impl fmt::Display for Moment {
    fn fmt(&self, f: &mut fmt::Formatter<'_>) -> fmt::Result {
        let ((year, month, day), (hour, minute, second)) = self.parts();
        write!(
            f,
            "{year:04}-{month:02}-{day:02}T{hour:02}:{minute:02}:{second:02}Z"
        )
    }
}

/// A text or a time that isn't a [`Moment`].
#[derive(Clone, Copy, Debug, PartialEq, Eq)]
#[non_exhaustive]
pub struct NoMoment;

impl fmt::Display for NoMoment {
    fn fmt(&self, f: &mut fmt::Formatter<'_>) -> fmt::Result {
        f.write_str("not a time of UTC; expected YYYY-MM-DD or YYYY-MM-DDTHH:MM:SSZ")
    }
}

impl std::error::Error for NoMoment {}

/// Reads `YYYY-MM-DDTHH:MM:SSZ`, or `YYYY-MM-DD` for its first second.
impl std::str::FromStr for Moment {
    type Err = NoMoment;

    fn from_str(text: &str) -> Result<Moment, NoMoment> {
        let octets = text.as_bytes();
        let form: &[u8] = match octets.len() {
            10 => b"0000-00-00",
            20 => b"0000-00-00T00:00:00Z",
            _ => return Err(NoMoment),
        };
        let fits = |(it, of): (&u8, &u8)| {
            if *of == b'0' {
                it.is_ascii_digit()
            } else {
                it == of
            }
        };
        if !octets.iter().zip(form).all(fits) {
            return Err(NoMoment);
        }
        let number = |at: usize| (octets[at] - b'0') * 10 + octets[at + 1] - b'0';
        let year = u16::from(number(0)) * 100 + u16::from(number(2));
        let (hour, minute, second) = match octets.len() {
            20 => (number(11), number(14), number(17)),
            _ => (0, 0, 0),
        };
        Moment::new(year, number(5), number(8), hour, minute, second).ok_or(NoMoment)
    }
}

impl From<Moment> for SystemTime {
    fn from(it: Moment) -> SystemTime {
        let seconds = it.timestamp();
        let distance = Duration::from_secs(seconds.unsigned_abs());
        match seconds {
            0.. => UNIX_EPOCH + distance,
            _ => UNIX_EPOCH - distance,
        }
    }
}

/// Fails before 1970 and after the year 9999. Parts of a second are cut off.
impl TryFrom<SystemTime> for Moment {
    type Error = NoMoment;

    fn try_from(time: SystemTime) -> Result<Moment, NoMoment> {
        let passed = time.duration_since(UNIX_EPOCH).map_err(|_| NoMoment)?;
        Moment::from_timestamp(passed.as_secs()).ok_or(NoMoment)
    }
}

/// Serializes the text that `Display` prints, `YYYY-MM-DDTHH:MM:SSZ`.
#[cfg(feature = "serde")]
impl serde::Serialize for Moment {
    fn serialize<S: serde::Serializer>(&self, serializer: S) -> Result<S::Ok, S::Error> {
        serializer.collect_str(self)
    }
}

/// Reads the texts that `FromStr` reads.
#[cfg(feature = "serde")]
impl<'de> serde::Deserialize<'de> for Moment {
    fn deserialize<D: serde::Deserializer<'de>>(deserializer: D) -> Result<Moment, D::Error> {
        let text = <std::borrow::Cow<'_, str>>::deserialize(deserializer)?;
        text.parse().map_err(serde::de::Error::custom)
    }
}
