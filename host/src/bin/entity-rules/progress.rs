//! A bar that shows how many rules, paths or texts are checked.

use std::io::Write;
use std::time::{Duration, Instant};

/// How many characters the bar has between its brackets.
const WIDTH: usize = 30;

/// The bar is not drawn before, nor more often than, this.
const PAUSE: Duration = Duration::from_millis(100);

/// A terminal that is narrower than the bar cuts it off, where it would go on in the next line and could not be cleared.
const NO_WRAP: &str = "\x1b[?7l";
const WRAP: &str = "\x1b[?7h";

pub struct Progress<W: Write> {
    out: W,
    is_on: bool,
    is_drawn: bool,
    done: usize,
    total: usize,
    noun: &'static str,
    next: Option<Instant>,
}

impl<W: Write> Progress<W> {
    /// A bar for several of what the noun says, drawn only on a terminal that can take it off again.
    pub fn new(out: W, is_terminal: bool, total: usize, noun: &'static str) -> Self {
        let next = Instant::now().checked_add(PAUSE);
        Self {
            out,
            is_on: is_terminal && total > 1,
            is_drawn: false,
            done: 0,
            total,
            noun,
            next,
        }
    }

    /// One more is checked.
    pub fn step(&mut self) {
        self.steps(1);
    }

    /// So many more are checked.
    pub fn steps(&mut self, count: usize) {
        self.done = self.done.saturating_add(count);
        let now = Instant::now();
        if self.is_on && self.next.is_some_and(|next| next <= now) {
            self.next = now.checked_add(PAUSE);
            self.draw();
        }
    }

    /// Takes the bar off the terminal, before something else is printed. A bar that cannot be written is not a reason to stop.
    pub fn clear(&mut self) {
        if std::mem::take(&mut self.is_drawn) {
            let _ = self.out.write_all(b"\r\x1b[K");
            let _ = self.out.flush();
        }
    }

    fn draw(&mut self) {
        let line = bar(self.done, self.total, self.noun);
        let _ = write!(self.out, "\r{NO_WRAP}{line}\x1b[K{WRAP}");
        let _ = self.out.flush();
        self.is_drawn = true;
    }
}

/// The bar for so many of a total.
fn bar(done: usize, total: usize, noun: &str) -> String {
    let filled = done
        .min(total)
        .saturating_mul(WIDTH)
        .checked_div(total)
        .unwrap_or(WIDTH);
    let empty = WIDTH.saturating_sub(filled);
    format!(
        "{done} of {total} {noun} [{}{}]",
        "#".repeat(filled),
        ".".repeat(empty)
    )
}

#[cfg(test)]
mod tests {
    use super::*;

    #[test]
    fn the_bar_fills() {
        assert_eq!(
            bar(0, 4, "rules"),
            format!("0 of 4 rules [{}]", ".".repeat(30))
        );
        assert_eq!(
            bar(2, 4, "rules"),
            format!("2 of 4 rules [{}{}]", "#".repeat(15), ".".repeat(15))
        );
        assert_eq!(
            bar(4, 4, "rules"),
            format!("4 of 4 rules [{}]", "#".repeat(30))
        );
        assert_eq!(
            bar(0, 0, "rules"),
            format!("0 of 0 rules [{}]", "#".repeat(30))
        );
    }

    fn drawn(is_terminal: bool, total: usize) -> Vec<u8> {
        let mut out = Vec::new();
        let mut progress = Progress::new(&mut out, is_terminal, total, "rules");
        progress.next = Some(Instant::now());
        progress.step();
        progress.clear();
        progress.clear();
        out
    }

    #[test]
    fn it_is_drawn_and_cleared_only_on_a_terminal() {
        let bar = bar(1, 2, "rules");
        let line = format!("\r{NO_WRAP}{bar}\x1b[K{WRAP}\r\x1b[K");
        assert_eq!(drawn(true, 2), line.as_bytes());
        assert_eq!(drawn(false, 2), b"");
        assert_eq!(drawn(true, 1), b"");
    }
}
