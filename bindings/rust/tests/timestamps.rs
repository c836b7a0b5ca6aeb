//! Times of the calendar beside a table of days that is counted day by day, and beside dates that are known.
use kitsoriqu::{Calendar, TimestampTz};
use std::time::{Duration, SystemTime};

#[path = "compare/rng.rs"]
#[allow(dead_code)]
mod rng;
use rng::Rng;

const DAY: i64 = 86_400_000_000;

/// Days as they follow one another from 2000-01-01, until the calendar repeats.
fn days() -> Vec<(i64, u8, u8)> {
    let mut days = vec![];
    for year in 2000..2400 {
        let is_leap = year % 4 == 0 && year % 100 != 0 || year % 400 == 0;
        let february = if is_leap { 29 } else { 28 };
        for (month, length) in (1..).zip([31, february, 31, 30, 31, 30, 31, 31, 30, 31, 30, 31]) {
            days.extend((1..=length).map(|day| (year, month, day)));
        }
    }
    days
}

/// The calendar's time is the day of the table, and its time of the day has the rest of the microseconds.
fn compare(days: &[(i64, u8, u8)], time: i64) {
    let day = time.div_euclid(DAY);
    let count = days.len() as i64;
    let (year, month, of_month) = days[day.rem_euclid(count) as usize];
    let year = year + 400 * day.div_euclid(count);
    let Calendar { hour, minute, second, microsecond, .. } = compare_date(time, (year, month, of_month));
    assert!(hour < 24 && minute < 60 && second < 60 && microsecond < 1_000_000, "{time}");
    let seconds = (i128::from(hour) * 60 + i128::from(minute)) * 60 + i128::from(second);
    assert_eq!(i128::from(day) * i128::from(DAY) + seconds * 1_000_000 + i128::from(microsecond), time.into());
}

fn compare_date(time: i64, date: (i64, u8, u8)) -> Calendar {
    let calendar = TimestampTz(time).calendar().unwrap();
    assert_eq!((i64::from(calendar.year), calendar.month, calendar.day), date, "{time}");
    calendar
}

/// The number that a shown time was made of: the digits, and the years counted through.
fn shown_back(shown: &str) -> Calendar {
    let (shown, is_bc) = shown.strip_suffix(" BC").map_or((shown, false), |before| (before, true));
    let shown = shown.strip_suffix("+00").unwrap();
    let (shown, fraction) = shown.split_once('.').unwrap_or((shown, ""));
    assert!(!fraction.ends_with('0') && fraction.len() <= 6);
    let parts: Vec<&str> = shown.split(['-', ' ', ':']).collect();
    let [year, month, day, hour, minute, second] = parts[..].try_into().unwrap();
    assert!(year.len() >= 4 && [month, day, hour, minute, second].iter().all(|part| part.len() == 2), "{shown}");
    let year: i32 = year.parse().unwrap();
    let [month, day, hour, minute, second] = [month, day, hour, minute, second].map(|part| part.parse().unwrap());
    let microsecond = format!("{fraction:0<6}").parse().unwrap();
    Calendar { year: if is_bc { 1 - year } else { year }, month, day, hour, minute, second, microsecond }
}

/// A number of any size.
fn any_time(rng: &mut Rng) -> i64 {
    rng.any() as i64 >> rng.below(64)
}

#[test]
fn known_times() {
    let known = [
        (0, "2000-01-01 00:00:00+00"),
        (-1, "1999-12-31 23:59:59.999999+00"),
        (1, "2000-01-01 00:00:00.000001+00"),
        (-946_684_800_000_000, "1970-01-01 00:00:00+00"),
        (1_200_798_847_000_000, "2038-01-19 03:14:07+00"),
        (59 * DAY, "2000-02-29 00:00:00+00"),
        (60 * DAY, "2000-03-01 00:00:00+00"),
        (762_525_296_500_000, "2024-02-29 12:34:56.5+00"),
        // 1900 and 2100 have no leap day
        (-36_466 * DAY, "1900-02-28 00:00:00+00"),
        (-36_465 * DAY, "1900-03-01 00:00:00+00"),
        (36_583 * DAY, "2100-02-28 00:00:00+00"),
        (36_584 * DAY, "2100-03-01 00:00:00+00"),
        // the year 1, and 1 BC, the year 0, with its leap day
        (-730_119 * DAY, "0001-01-01 00:00:00+00"),
        (-730_119 * DAY - 1, "0001-12-31 23:59:59.999999+00 BC"),
        (-730_426 * DAY, "0001-02-29 00:00:00+00 BC"),
        (-730_485 * DAY, "0001-01-01 00:00:00+00 BC"),
        (-730_486 * DAY, "0002-12-31 00:00:00+00 BC"),
        // PostgreSQL's first day, and the day after its last
        (-211_813_488_000_000_000, "4714-11-24 00:00:00+00 BC"),
        (9_223_371_331_200_000_000, "294277-01-01 00:00:00+00"),
        (i64::MAX - 1, "294277-01-09 04:00:54.775806+00"),
        (i64::MIN + 1, "290279-12-22 19:59:05.224193+00 BC"),
        (i64::MAX, "infinity"),
        (i64::MIN, "-infinity"),
    ];
    for (time, shown) in known {
        assert_eq!(TimestampTz(time).to_string(), shown, "{time}");
    }
}

#[test]
fn infinities_have_no_calendar() {
    for infinite in [TimestampTz::INFINITY, TimestampTz::NEG_INFINITY] {
        assert_eq!((infinite.is_finite(), infinite.calendar(), infinite.to_system_time()), (false, None, None));
    }
    assert!(TimestampTz(i64::MAX - 1).is_finite() && TimestampTz(i64::MIN + 1).is_finite());
}

/// Each day's first and last microsecond, in cycles of 400 years near and far.
#[test]
fn every_day_of_the_cycle() {
    let days = days();
    assert_eq!(days.len(), 146_097);
    for cycle in [-729, -6, -5, -1, 0, 1, 729] {
        let first = cycle * days.len() as i64;
        for (day, &(year, month, of_month)) in (first..).zip(&days) {
            for time in [day * DAY, day * DAY + DAY - 1] {
                compare_date(time, (year + 400 * cycle, month, of_month));
            }
        }
    }
}

#[test]
fn a_million_times() {
    let days = days();
    let mut rng = Rng::new(81);
    let [mut before, mut bc, mut after] = [0; 3];
    for _ in 0..1_000_000 {
        let time = any_time(&mut rng);
        compare(&days, time);
        let calendar = TimestampTz(time).calendar().unwrap();
        assert_eq!(shown_back(&TimestampTz(time).to_string()), calendar, "{time}");
        before += u32::from((1..2000).contains(&calendar.year));
        bc += u32::from(calendar.year <= 0);
        after += u32::from(calendar.year > 9999);
    }
    println!("{before} before 2000, {bc} before the year 1, {after} after 9999");
    assert!([before, bc, after].iter().all(|&times| times > 10_000));
    for time in [i64::MAX - 1, i64::MIN + 1] {
        compare(&days, time);
    }
}

fn unix() -> SystemTime {
    SystemTime::UNIX_EPOCH
}

#[test]
fn system_times() {
    assert_eq!(TimestampTz(0).to_system_time(), Some(unix() + Duration::from_secs(946_684_800)));
    assert_eq!(TimestampTz(-946_684_800_000_000).to_system_time(), Some(unix()));
    assert_eq!(TimestampTz(-946_684_800_000_001).to_system_time(), Some(unix() - Duration::from_micros(1)));
    let mut rng = Rng::new(82);
    for _ in 0..100_000 {
        let time = any_time(&mut rng);
        let system = TimestampTz(time).to_system_time().unwrap();
        let distance = match system.duration_since(unix()) {
            Ok(after) => after.as_nanos() as i128,
            Err(before) => -(before.duration().as_nanos() as i128),
        };
        assert_eq!(distance, (i128::from(time) + 946_684_800_000_000) * 1_000);
        let within = Duration::from_nanos(rng.below(1_000));
        assert_eq!(TimestampTz::from_system_time(system + within), Some(TimestampTz(time)));
    }
}

/// The infinities' numbers are nobody's time, and what is beyond them has none.
#[test]
fn system_times_out_of_range() {
    let step = Duration::from_micros(1);
    let last = TimestampTz(i64::MAX - 1).to_system_time().unwrap();
    let first = TimestampTz(i64::MIN + 1).to_system_time().unwrap();
    assert_eq!(TimestampTz::from_system_time(last), Some(TimestampTz(i64::MAX - 1)));
    assert_eq!(TimestampTz::from_system_time(first), Some(TimestampTz(i64::MIN + 1)));
    for beyond in [last + step, last + 2 * step, last + Duration::from_secs(1 << 50), first - step, first - 2 * step] {
        assert_eq!(TimestampTz::from_system_time(beyond), None);
    }
    assert_eq!(TimestampTz::from_system_time(first - Duration::from_nanos(1)), None);
}
