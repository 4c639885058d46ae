//! Numbers, sizes and times as people read them.

use std::fmt::Display;

use crate::time::Time;

/// Digits in threes: 1,048,576.
pub fn grouped(number: impl Display) -> String {
    let digits = number.to_string();
    let mut text = String::new();
    for (at, digit) in digits.chars().enumerate() {
        if at > 0 && (digits.len() - at).is_multiple_of(3) {
            text.push(',');
        }
        text.push(digit);
    }
    text
}

/// A number and its noun: 1 block, 2 blocks.
pub fn counted(number: impl Display, noun: &str) -> String {
    let digits = grouped(number);
    let ending = if digits == "1" { "" } else { "s" };
    format!("{digits} {noun}{ending}")
}

/// Bytes, and about how many in a larger measure.
pub fn sized(bytes: u64) -> String {
    let exact = counted(bytes, "byte");
    let measures = [(1u64 << 60, "EiB"), (1 << 50, "PiB"), (1 << 40, "TiB")];
    let measures =
        measures
            .into_iter()
            .chain([(1 << 30, "GiB"), (1 << 20, "MiB"), (1 << 10, "KiB")]);
    for (measure, name) in measures {
        if bytes >= measure {
            return format!("{exact} ({:.1} {name})", bytes as f64 / measure as f64);
        }
    }
    exact
}

pub fn hex(bytes: &[u8]) -> String {
    bytes.iter().map(|byte| format!("{byte:02x}")).collect()
}

/// A date and a time of day, UTC.
pub fn date(time: Time) -> String {
    let Time {
        seconds,
        nanoseconds,
    } = time;
    let (days, rest) = (seconds / 86_400, seconds % 86_400);
    // years of 1 March to the end of February: the leap day is their last
    let shifted = days + 719_468;
    let (era, day) = (shifted / 146_097, shifted % 146_097);
    let year = (day - day / 1_460 + day / 36_524 - day / 146_096) / 365;
    let day = day - (365 * year + year / 4 - year / 100);
    let month = (5 * day + 2) / 153;
    let day_of_month = day - (153 * month + 2) / 5 + 1;
    let calendar = if month < 10 { month + 3 } else { month - 9 };
    let year = era * 400 + year + u64::from(calendar <= 2);
    format!(
        "{year:04}-{calendar:02}-{day_of_month:02} {:02}:{:02}:{:02}.{nanoseconds:09} UTC",
        rest / 3_600,
        rest / 60 % 60,
        rest % 60
    )
}

#[cfg(test)]
mod tests {
    use super::*;

    #[test]
    fn numbers_in_words() {
        assert_eq!(grouped(7), "7");
        assert_eq!(grouped(1_048_576), "1,048,576");
        assert_eq!(counted(1, "block"), "1 block");
        assert_eq!(counted(0, "block"), "0 blocks");
        assert_eq!(sized(9_000), "9,000 bytes (8.8 KiB)");
    }

    #[test]
    fn dates() {
        let date = |seconds, nanoseconds| {
            date(Time {
                seconds,
                nanoseconds,
            })
        };
        assert_eq!(date(0, 0), "1970-01-01 00:00:00.000000000 UTC");
        assert_eq!(date(951_782_400, 5), "2000-02-29 00:00:00.000000005 UTC");
        assert_eq!(date(1_700_000_000, 0), "2023-11-14 22:13:20.000000000 UTC");
        assert!(date(9_223_372_036_854_775_807, 0).starts_with("292277026596-12-04"));
    }
}
