//! A bar while many files run.

use std::io::Write;

/// Files from which on a bar is worth its line.
const MANY: usize = 20;
const WIDTH: usize = 30;

/// A bar on the error output, where that is a terminal and the files are many.
pub struct Progress {
    files: usize,
    shown: bool,
    last: usize,
}

impl Progress {
    /// A bar for so many files.
    pub fn new(files: usize, terminal: bool) -> Self {
        Self {
            files,
            shown: terminal && files >= MANY,
            last: usize::MAX,
        }
    }

    /// Draws the bar where it has grown.
    pub fn draw(&mut self, done: usize) {
        let filled = WIDTH * done / self.files.max(1);
        if !self.shown || filled == self.last {
            return;
        }
        self.last = filled;
        let bar = "#".repeat(filled) + &".".repeat(WIDTH - filled);
        let mut out = std::io::stderr();
        let _ = write!(out, "\r[{bar}] {done}/{}", self.files);
        let _ = out.flush();
    }

    /// Takes the bar away, before something else is printed.
    pub fn clear(&mut self) {
        if self.shown && self.last != usize::MAX {
            let _ = write!(std::io::stderr(), "\r\x1b[K");
            self.last = usize::MAX;
        }
    }
}
