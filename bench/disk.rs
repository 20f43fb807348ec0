//! A bare loop that replaces a file by texts, as a run replaces its progress (bench/replacing.rs).
//!
//!     disk PATH COUNT FIRST LAST
//!
//! It writes COUNT texts, whose sizes go from FIRST bytes to LAST bytes in even steps.

mod replacing;

use crate::replacing::Texts;
use std::error::Error;

fn main() -> Result<(), Box<dyn Error>> {
    let words: Vec<String> = std::env::args().skip(1).collect();
    let [path, count, first, last] = words.as_slice() else {
        return Err("give PATH COUNT FIRST LAST".into());
    };
    let (count, first, last): (usize, usize, usize) = (count.parse()?, first.parse()?, last.parse()?);
    let mut texts = Texts::new(path, count, first, last);
    for _ in 0..count {
        texts.replace()?;
    }
    Ok(())
}
