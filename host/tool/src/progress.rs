//! A bar on the terminal for transfers that take a while.

use std::io::{self, IsTerminal, Write};
use std::time::{Duration, Instant};

use crate::words::grouped;

const WIDTH: u64 = 40;
const PAUSE: Duration = Duration::from_millis(100);

pub struct Progress {
    /// None where there is nothing to draw on.
    drawn: Option<Instant>,
    visible: bool,
    total: Option<u64>,
}

impl Progress {
    /// Of so many bytes, where that is known.
    pub fn new(total: Option<u64>) -> Self {
        Self {
            drawn: io::stderr().is_terminal().then(Instant::now),
            visible: false,
            total,
        }
    }

    /// For bytes that go to the terminal themselves.
    pub fn hidden() -> Self {
        Self {
            drawn: None,
            visible: false,
            total: None,
        }
    }

    pub fn tell(&mut self, done: u64) {
        let Some(last) = self.drawn else { return };
        if last.elapsed() < PAUSE {
            return;
        }
        self.drawn = Some(Instant::now());
        self.visible = true;
        // a bar that cannot be drawn is no reason to stop
        let _ = write!(io::stderr(), "\r\x1b[K{}", bar(done, self.total));
    }
}

impl Drop for Progress {
    fn drop(&mut self) {
        if self.visible {
            let _ = write!(io::stderr(), "\r\x1b[K");
        }
    }
}

fn bar(done: u64, total: Option<u64>) -> String {
    let Some(total) = total.filter(|total| *total > 0) else {
        return format!("{} bytes", grouped(done));
    };
    let share = u128::from(done.min(total)) * u128::from(WIDTH) / u128::from(total);
    let full = "=".repeat(share as usize);
    let percent = u128::from(done.min(total)) * 100 / u128::from(total);
    format!(
        "[{full:<width$}] {percent} % of {} bytes",
        grouped(total),
        width = WIDTH as usize
    )
}

#[cfg(test)]
mod tests {
    use super::bar;

    #[test]
    fn a_bar_of_known_and_unknown_length() {
        assert_eq!(bar(1_500, None), "1,500 bytes");
        let half = format!("[{}{}] 50 % of 2,000 bytes", "=".repeat(20), " ".repeat(20));
        assert_eq!(bar(1_000, Some(2_000)), half);
        assert!(bar(5, Some(0)).starts_with("5 "));
    }
}
