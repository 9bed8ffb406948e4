//! A bar on standard error while a long command works, if standard error is a terminal. It stays on its
//! line, however narrow the terminal is; one that cannot go back on a line has the last words alone.

use super::{numbers, style, system};
use std::io::{self, IsTerminal, Write};
use std::time::{Duration, Instant};

const BAR: usize = 24;
/// Columns where the terminal does not tell.
const COLUMNS: usize = 80;
const BETWEEN: Duration = Duration::from_millis(100);

/// How far a command is.
pub struct Progress {
    started: Instant,
    /// When the bar was drawn last; none where it is not drawn at all.
    drawn: Option<Instant>,
    /// Standard error is a terminal.
    watched: bool,
    /// And one on which a bar can be drawn.
    drawable: bool,
    /// Bytes there are, where that is known.
    total: Option<u64>,
    bytes: u64,
    records: u64,
}

impl Progress {
    pub fn new(total: Option<u64>) -> Progress {
        let watched = io::stderr().is_terminal();
        let drawable = watched && !style::is_dumb();
        Progress { started: Instant::now(), drawn: None, watched, drawable, total, bytes: 0, records: 0 }
    }

    /// More was done.
    pub fn add(&mut self, bytes: u64, records: u64) {
        self.bytes += bytes;
        self.records += records;
        if self.drawable && self.drawn.is_none_or(|drawn| drawn.elapsed() >= BETWEEN) {
            self.drawn = Some(Instant::now());
            let columns = system::columns(2).unwrap_or(COLUMNS);
            let line = state(self.bytes, self.total, self.records, self.started.elapsed(), columns);
            // The bar is a courtesy: where it cannot be drawn, the work goes on.
            let _ = write!(io::stderr(), "\r\x1b[K{line}");
        }
    }

    /// Takes the bar away, so that something else can be written.
    pub fn clear(&mut self) {
        if self.drawn.take().is_some() {
            let _ = write!(io::stderr(), "\r\x1b[K");
        }
    }

    /// The bar's last words.
    pub fn finish(mut self) {
        self.clear();
        if self.watched {
            let elapsed = self.started.elapsed();
            let _ = writeln!(
                io::stderr(),
                "{} in {:.1} s, {} records/s",
                numbers::counted(self.records, "record"),
                elapsed.as_secs_f64(),
                numbers::grouped(rate(self.records, elapsed))
            );
        }
    }
}

fn rate(records: u64, elapsed: Duration) -> u64 {
    (records as f64 / elapsed.as_secs_f64().max(1e-6)) as u64
}

/// `[######..................]  25%  1,000,000 records  2,000,000/s  0:03 left`, as much of it as fits on a
/// line whose last column stays free. The time left goes first, then the speed, the bar and the count.
fn state(bytes: u64, total: Option<u64>, records: u64, elapsed: Duration, columns: usize) -> String {
    let count = numbers::counted(records, "record");
    let speed = format!("{count}  {}/s", numbers::grouped(rate(records, elapsed)));
    let lines = match total.filter(|&total| total != 0) {
        None => vec![speed, count],
        Some(total) => {
            let part = (bytes as f64 / total as f64).min(1.0);
            let full = (part * BAR as f64) as usize;
            let bar = format!("[{}{}]", "#".repeat(full), ".".repeat(BAR - full));
            let percent = format!("{:>3}%", (part * 100.0) as u32);
            vec![
                format!("{bar} {percent}  {speed}  {}", left(part, elapsed)),
                format!("{bar} {percent}  {speed}"),
                format!("{bar} {percent}  {count}"),
                format!("{percent}  {count}"),
                percent,
            ]
        }
    };
    lines.into_iter().find(|line| line.len() < columns).unwrap_or_default()
}

/// The time left, if the rest goes on as it went so far.
fn left(part: f64, elapsed: Duration) -> String {
    if part <= 0.0 || elapsed < Duration::from_millis(500) {
        return String::new();
    }
    let seconds = (elapsed.as_secs_f64() * (1.0 - part) / part).ceil() as u64;
    match seconds {
        3600.. => format!("{}:{:02}:{:02} left", seconds / 3600, seconds / 60 % 60, seconds % 60),
        _ => format!("{}:{:02} left", seconds / 60, seconds % 60),
    }
}

#[cfg(test)]
mod tests {
    use super::*;

    #[test]
    fn the_bar_fits_a_line_and_tells_the_time_left() {
        let second = Duration::from_secs(1);
        assert_eq!(
            state(25, Some(100), 1_000_000, second, 80),
            "[######..................]  25%  1,000,000 records  1,000,000/s  0:03 left"
        );
        assert_eq!(state(25, None, 7, second, 80), "7 records  7/s");
        assert_eq!(left(0.001, 10 * second), "2:46:30 left");
        assert_eq!(left(0.0, second), "");
        let long = state(u64::MAX, Some(1), 9_999_999_999, 1000 * second, 80);
        assert!(long.starts_with("[########################] 100%") && long.len() < 80, "{long}");
    }

    #[test]
    fn a_narrow_line_has_less() {
        let second = Duration::from_secs(1);
        let bar = "[######..................]";
        for (columns, expected) in [
            (75, format!("{bar}  25%  1,000,000 records  1,000,000/s  0:03 left")),
            (74, format!("{bar}  25%  1,000,000 records  1,000,000/s")),
            (62, format!("{bar}  25%  1,000,000 records")),
            (40, " 25%  1,000,000 records".to_string()),
            (23, " 25%".to_string()),
            (4, String::new()),
        ] {
            assert_eq!(state(25, Some(100), 1_000_000, second, columns), expected, "{columns}");
        }
        assert_eq!(state(25, None, 7, second, 12), "7 records");
        for columns in 0..120 {
            let line = state(3, Some(7), 123_456_789, 77 * second, columns);
            assert!(line.len() < columns || line.is_empty(), "{columns}: {line}");
        }
    }
}
