use std::fmt;
use std::time::{Duration, SystemTime};

/// A `timestamptz`: microseconds since 2000-01-01 00:00 UTC, without leap seconds. The `time` of a [`Message`](crate::Message) is one too.
///
/// PostgreSQL's `infinity` and `-infinity` are the largest and the smallest number. They are no time of the calendar.
///
/// ```
/// use kitsoriqu::{Calendar, TimestampTz};
///
/// let time = TimestampTz(762_525_296_500_000);
/// let calendar = Calendar { year: 2024, month: 2, day: 29, hour: 12, minute: 34, second: 56, microsecond: 500_000 };
/// assert_eq!(time.calendar(), Some(calendar));
/// assert_eq!(time.to_string(), "2024-02-29 12:34:56.5+00");
///
/// assert_eq!(time.to_system_time().and_then(TimestampTz::from_system_time), Some(time));
/// assert_eq!(TimestampTz::INFINITY.calendar(), None);
/// assert_eq!(TimestampTz::INFINITY.to_string(), "infinity");
/// ```
#[derive(Clone, Copy, Debug, PartialEq, Eq, PartialOrd, Ord, Hash)]
pub struct TimestampTz(pub i64);

/// A time in UTC by the Gregorian calendar, which is continued to the years before it was in use.
///
/// Years are counted through: 1 BC is the year 0, and 2 BC is -1. Times are shown as PostgreSQL shows them in UTC, with BC.
#[derive(Clone, Copy, Debug, PartialEq, Eq, PartialOrd, Ord, Hash)]
pub struct Calendar {
    pub year: i32,
    /// From 1 to 12.
    pub month: u8,
    /// From 1.
    pub day: u8,
    pub hour: u8,
    pub minute: u8,
    pub second: u8,
    pub microsecond: u32,
}

const MICROSECONDS_PER_SECOND: i64 = 1_000_000;
const MICROSECONDS_PER_DAY: i64 = 86_400 * MICROSECONDS_PER_SECOND;

/// After so many days, 400 years, the calendar repeats.
const DAYS_PER_CYCLE: i64 = 146_097;

/// From 2000-01-01 to 2000-03-01.
const DAYS_TO_MARCH: i64 = 60;

/// 2000-01-01, as seconds since 1970-01-01.
const EPOCH: Duration = Duration::from_secs(946_684_800);

/// The year, month and day of so many days after 2000-01-01. Years start in March here, so that a leap day is the last of its year.
fn date(days: i64) -> (i64, i64, i64) {
    let days = days - DAYS_TO_MARCH;
    let (cycle, day) = (days.div_euclid(DAYS_PER_CYCLE), days.rem_euclid(DAYS_PER_CYCLE));
    // the leap days before: one in 4 years, none in 100, one in 400
    let year = (day - day / 1_460 + day / 36_524 - day / 146_096) / 365;
    let day = day - (365 * year + year / 4 - year / 100);
    // from March on, five months have 153 days
    let month = (5 * day + 2) / 153;
    let day = day - (153 * month + 2) / 5 + 1;
    let is_next_year = month >= 10;
    (2000 + 400 * cycle + year + i64::from(is_next_year), if is_next_year { month - 9 } else { month + 3 }, day)
}

impl TimestampTz {
    pub const INFINITY: TimestampTz = TimestampTz(i64::MAX);
    pub const NEG_INFINITY: TimestampTz = TimestampTz(i64::MIN);

    /// Whether it is neither `infinity` nor `-infinity`.
    pub fn is_finite(self) -> bool {
        self != TimestampTz::INFINITY && self != TimestampTz::NEG_INFINITY
    }

    /// The time in UTC; `None` of the infinities.
    pub fn calendar(self) -> Option<Calendar> {
        if !self.is_finite() {
            return None;
        }
        let (year, month, day) = date(self.0.div_euclid(MICROSECONDS_PER_DAY));
        let microseconds = self.0.rem_euclid(MICROSECONDS_PER_DAY);
        let seconds = microseconds / MICROSECONDS_PER_SECOND;
        // some 292,000 years around 2000, so the casts lose nothing
        Some(Calendar {
            year: year as i32,
            month: month as u8,
            day: day as u8,
            hour: (seconds / 3_600) as u8,
            minute: (seconds / 60 % 60) as u8,
            second: (seconds % 60) as u8,
            microsecond: (microseconds % MICROSECONDS_PER_SECOND) as u32,
        })
    }

    /// The system's time; `None` of the infinities, and of what the system has no time for.
    pub fn to_system_time(self) -> Option<SystemTime> {
        if !self.is_finite() {
            return None;
        }
        let epoch = SystemTime::UNIX_EPOCH + EPOCH;
        let distance = Duration::from_micros(self.0.unsigned_abs());
        if self.0 < 0 {
            epoch.checked_sub(distance)
        } else {
            epoch.checked_add(distance)
        }
    }

    /// Of the system's time, or of the last microsecond before it; `None` where the number is out of range.
    pub fn from_system_time(time: SystemTime) -> Option<TimestampTz> {
        let microseconds = match time.duration_since(SystemTime::UNIX_EPOCH + EPOCH) {
            Ok(after) => i64::try_from(after.as_micros()).ok()?,
            Err(before) => i64::try_from(before.duration().as_nanos().div_ceil(1_000)).ok()?.checked_neg()?,
        };
        Some(TimestampTz(microseconds)).filter(|time| time.is_finite())
    }
}

impl fmt::Display for TimestampTz {
    fn fmt(&self, f: &mut fmt::Formatter<'_>) -> fmt::Result {
        match self.calendar() {
            Some(calendar) => calendar.fmt(f),
            None => f.write_str(if *self == TimestampTz::INFINITY { "infinity" } else { "-infinity" }),
        }
    }
}

impl fmt::Display for Calendar {
    fn fmt(&self, f: &mut fmt::Formatter<'_>) -> fmt::Result {
        let is_bc = self.year <= 0;
        let year = if is_bc { 1 - i64::from(self.year) } else { self.year.into() };
        write!(f, "{year:04}-{:02}-{:02} {:02}:{:02}:{:02}", self.month, self.day, self.hour, self.minute, self.second)?;
        if self.microsecond != 0 {
            let (mut fraction, mut digits) = (self.microsecond, 6);
            while fraction % 10 == 0 {
                (fraction, digits) = (fraction / 10, digits - 1);
            }
            write!(f, ".{fraction:0digits$}")?;
        }
        f.write_str(if is_bc { "+00 BC" } else { "+00" })
    }
}
