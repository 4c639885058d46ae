//! A time as a call is lent it and as a card has it.

use std::time::{SystemTime, UNIX_EPOCH};

/// Nanoseconds of a second, which those of a time are below.
pub const SECOND: u64 = 1_000_000_000;

/// Since 1970.
#[derive(Clone, Copy, Debug, PartialEq, Eq)]
pub struct Time {
    pub seconds: u64,
    pub nanoseconds: u64,
}

impl Time {
    /// A clock that stands before 1970 counts as 1970: a card has no earlier time.
    pub fn now() -> Self {
        let since = SystemTime::now()
            .duration_since(UNIX_EPOCH)
            .unwrap_or_default();
        Self {
            seconds: since.as_secs(),
            nanoseconds: since.subsec_nanos().into(),
        }
    }

    /// `SECONDS` or `SECONDS.FRACTION`. Which seconds are too many is the
    /// library's to say, by refusal 7.
    pub fn parse(text: &str) -> Option<Self> {
        let (seconds, fraction) = text.split_once('.').unwrap_or((text, "0"));
        let digits = |text: &str| !text.is_empty() && text.chars().all(|c| c.is_ascii_digit());
        if !digits(seconds) || !digits(fraction) || fraction.len() > 9 {
            return None;
        }
        Some(Self {
            seconds: seconds.parse().ok()?,
            nanoseconds: format!("{fraction:0<9}").parse().ok()?,
        })
    }
}

#[cfg(test)]
mod tests {
    use super::Time;

    #[test]
    fn fractions_are_nanoseconds() {
        let time = |seconds, nanoseconds| {
            Some(Time {
                seconds,
                nanoseconds,
            })
        };
        assert_eq!(Time::parse("17"), time(17, 0));
        assert_eq!(Time::parse("17.5"), time(17, 500_000_000));
        assert_eq!(Time::parse("17.000000001"), time(17, 1));
        assert_eq!(Time::parse("17.0000000001"), None);
        assert_eq!(Time::parse("-1"), None);
        assert_eq!(Time::parse("1."), None);
    }
}
