//! Lines of a file or of standard input, one at a time, without their line end.

use std::fs::File;
use std::io::{self, BufRead, BufReader};

const BUFFER: usize = 1 << 18;

pub struct Lines<R> {
    from: R,
    line: Vec<u8>,
}

pub fn of_file(path: &str) -> Result<Lines<BufReader<File>>, String> {
    let file = File::open(path).map_err(|error| format!("{path}: {error}"))?;
    Ok(Lines { from: BufReader::with_capacity(BUFFER, file), line: Vec::new() })
}

pub fn of_standard_input() -> Lines<BufReader<io::StdinLock<'static>>> {
    Lines { from: BufReader::with_capacity(BUFFER, io::stdin().lock()), line: Vec::new() }
}

impl<R: BufRead> Lines<R> {
    /// The next line, or None at the end.
    pub fn next(&mut self) -> Result<Option<&[u8]>, String> {
        self.line.clear();
        let count = self.from.read_until(b'\n', &mut self.line);
        if count.map_err(|error| format!("cannot read: {error}"))? == 0 {
            return Ok(None);
        }
        if self.line.last() == Some(&b'\n') {
            self.line.pop();
        }
        Ok(Some(&self.line))
    }
}
