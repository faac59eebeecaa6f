//! A word on what is going on, if it takes long and someone watches.
use std::io::{IsTerminal, Read, stderr};

/// From that many bytes on, an input is long.
const LONG: u64 = 64 << 20;

pub struct Progress {
    watched: bool,
    bytes: u64,
    /// The line on the screen has no end yet.
    open: bool,
}

impl Progress {
    pub fn new() -> Progress {
        Progress {
            watched: stderr().is_terminal(),
            bytes: 0,
            open: false,
        }
    }

    fn read(&mut self, bytes: u64) {
        let before = self.bytes / LONG;
        self.bytes += bytes;
        if self.watched && self.bytes / LONG > before {
            eprint!("\rjadmirus: {} MiB read", self.bytes >> 20);
            self.open = true;
        }
    }

    /// Says what begins after a long reading.
    pub fn step(&mut self, what: &str) {
        if self.open {
            eprintln!();
            self.open = false;
        }
        if self.watched && self.bytes >= LONG {
            eprintln!("jadmirus: {what}");
        }
    }
}

/// A reader that tells how far it is.
pub struct Watched<'a, R> {
    pub reader: R,
    pub progress: &'a mut Progress,
}

impl<R: Read> Read for Watched<'_, R> {
    fn read(&mut self, buffer: &mut [u8]) -> std::io::Result<usize> {
        let bytes = self.reader.read(buffer)?;
        self.progress.read(bytes as u64);
        Ok(bytes)
    }
}
