//! How far a long run is: a bar on standard error, where that is a terminal, which is gone when the run ends.

use std::io::{stderr, IsTerminal, Write};
use std::sync::atomic::{AtomicBool, Ordering};
use std::time::{Duration, Instant};

/// The width of the bar.
const BAR: u64 = 40;
/// A run that ends before this shows no bar, and none is drawn again before it.
const PAUSE: Duration = Duration::from_millis(100);

/// Whether a bar stands on the screen.
static DRAWN: AtomicBool = AtomicBool::new(false);

/// Takes the bar away, so that a line can be printed in its place.
pub fn clear() {
    if DRAWN.swap(false, Ordering::Relaxed) {
        let _ = stderr().write_all(b"\r\x1b[K");
    }
}

/// A run of so many steps.
pub struct Progress {
    all: u64,
    last: Instant,
    on: bool,
}

impl Progress {
    pub fn new(all: u64) -> Progress {
        Progress { all, last: Instant::now(), on: stderr().is_terminal() }
    }

    /// Says how many steps are done.
    pub fn at(&mut self, done: u64) {
        if self.on && self.last.elapsed() >= PAUSE {
            self.last = Instant::now();
            DRAWN.store(true, Ordering::Relaxed);
            let _ = stderr().write_all(format!("\r\x1b[K{}", bar(done, self.all)).as_bytes());
        }
    }
}

impl Drop for Progress {
    fn drop(&mut self) {
        clear();
    }
}

fn bar(done: u64, all: u64) -> String {
    let (done, all) = (done.min(all), all.max(1));
    let (filled, percent) = ((done * BAR / all) as usize, done * 100 / all);
    format!("[{:<width$}] {percent:3} %", "#".repeat(filled), width = BAR as usize)
}

#[cfg(test)]
mod tests {
    use super::*;

    #[test]
    fn bars() {
        assert_eq!(bar(0, 3000), format!("[{}]   0 %", " ".repeat(40)));
        assert_eq!(bar(1000, 3000), format!("[{}{}]  33 %", "#".repeat(13), " ".repeat(27)));
        assert_eq!(bar(3000, 3000), format!("[{}] 100 %", "#".repeat(40)));
        assert_eq!(bar(5, 0), format!("[{}]   0 %", " ".repeat(40)));
    }
}
