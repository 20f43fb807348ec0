//! Texts that take each other's place in a file, as a run replaces its progress: each is written to a new file,
//! which is brought to the disk and takes the old one's place.

use std::fs::{self, File};
use std::io::{self, Write};

/// Texts whose sizes go from the first to the last in even steps.
pub struct Texts {
    path: String,
    beside: String,
    bytes: Vec<u8>,
    count: usize,
    first: usize,
    last: usize,
    written: usize,
}

impl Texts {
    /// So many texts, for the file at this path.
    pub fn new(path: &str, count: usize, first: usize, last: usize) -> Texts {
        Texts {
            path: path.to_owned(),
            beside: format!("{path}.new"),
            bytes: vec![b'x'; first.max(last)],
            count,
            first,
            last,
            written: 0,
        }
    }

    /// Lets the next text take the place of the one before.
    pub fn replace(&mut self) -> io::Result<()> {
        let size = self.first + (self.last - self.first) * self.written / self.count.max(1);
        let mut file = File::create_new(&self.beside)?;
        file.write_all(&self.bytes[..size])?;
        file.sync_data()?;
        drop(file);
        fs::rename(&self.beside, &self.path)?;
        self.written += 1;
        Ok(())
    }
}
