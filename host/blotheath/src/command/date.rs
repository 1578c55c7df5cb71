//! Dates and times, in UTC.

use std::time::{SystemTime, UNIX_EPOCH};

/// The date and time now, in UTC; none where the clock stands before 1970.
pub fn now() -> Option<String> {
    seconds().map(utc)
}

/// The time now, to the second, in UTC; none where the clock stands before 1970.
pub fn time() -> Option<String> {
    seconds().map(to_the_second)
}

/// The seconds since the start of 1970.
fn seconds() -> Option<u64> {
    let since = SystemTime::now().duration_since(UNIX_EPOCH).ok()?;
    Some(since.as_secs())
}

/// The date and time of so many seconds behind the start of 1970, in UTC.
fn utc(seconds: u64) -> String {
    let (year, month, day) = civil(seconds / 86_400);
    let (hour, minute) = hour_and_minute(seconds);
    format!("{year}-{month:02}-{day:02} {hour:02}:{minute:02} UTC")
}

/// The time of day of so many seconds behind the start of 1970, in UTC.
fn to_the_second(seconds: u64) -> String {
    let (hour, minute) = hour_and_minute(seconds);
    format!("{hour:02}:{minute:02}:{:02}", seconds % 60)
}

fn hour_and_minute(seconds: u64) -> (u64, u64) {
    (seconds / 3_600 % 24, seconds / 60 % 60)
}

/// The year, month and day of so many days behind the first of 1970, in the Gregorian calendar.
fn civil(days: u64) -> (u64, u64, u64) {
    // Years that begin in March end with the leap day; 146,097 days are 400 of them, and 719,468 lead from year 0 to 1970.
    let days = days + 719_468;
    let (era, day) = (days / 146_097, days % 146_097);
    let year = (day - day / 1_460 + day / 36_524 - day / 146_096) / 365;
    let day = day - (365 * year + year / 4 - year / 100);
    let month = (5 * day + 2) / 153;
    let day = day - (153 * month + 2) / 5 + 1;
    let (month, next) = if month < 10 {
        (month + 3, 0)
    } else {
        (month - 9, 1)
    };
    (400 * era + year + next, month, day)
}

#[cfg(test)]
mod tests {
    use super::*;

    #[test]
    fn known_dates() {
        assert_eq!(utc(0), "1970-01-01 00:00 UTC");
        assert_eq!(utc(951_782_399), "2000-02-28 23:59 UTC");
        assert_eq!(utc(951_782_400), "2000-02-29 00:00 UTC");
        assert_eq!(utc(1_709_251_199), "2024-02-29 23:59 UTC");
        assert_eq!(utc(4_107_542_400), "2100-03-01 00:00 UTC");
    }

    #[test]
    fn times_of_day() {
        for (seconds, right) in [
            (0, "00:00:00"),
            (951_782_399, "23:59:59"),
            (1_709_251_199 + 3_661, "01:01:00"),
        ] {
            assert_eq!(to_the_second(seconds), right);
        }
    }

    #[test]
    fn days_follow_each_other() {
        let lengths = [31, 28, 31, 30, 31, 30, 31, 31, 30, 31, 30, 31];
        let (mut year, mut month, mut day) = (1970, 1, 1);
        for days in 0..200_000 {
            assert_eq!(civil(days), (year, month, day));
            let leap = year % 4 == 0 && (year % 100 != 0 || year % 400 == 0);
            let last = lengths[month as usize - 1] + u64::from(leap && month == 2);
            (day, month) = if day == last {
                (1, month + 1)
            } else {
                (day + 1, month)
            };
            (month, year) = if month == 13 {
                (1, year + 1)
            } else {
                (month, year)
            };
        }
    }
}
