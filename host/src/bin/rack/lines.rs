//! The lines of a script, each closed by byte 10, one at a time.

use std::io::{BufRead, ErrorKind, Result};

/// Above the length of every line that has the form: some words and numbers of at most seven digits. No more of a line is kept.
const LONGEST: usize = 1_024;

#[derive(PartialEq, Eq, Debug)]
pub enum Line<'a> {
    /// Without the byte that closes it.
    Closed(&'a [u8]),
    /// Unclosed, or longer than any line that has the form.
    Formless,
}

pub struct Lines<R> {
    input: R,
    /// The line read last, or the front of it.
    line: Vec<u8>,
}

impl<R: BufRead> Lines<R> {
    pub fn new(input: R) -> Lines<R> {
        Lines { input, line: Vec::new() }
    }

    /// The next line; none at the end of the input. It reads no further than to the end of a line, but for what the input had at hand.
    pub fn next(&mut self) -> Result<Option<Line<'_>>> {
        self.line.clear();
        let mut length = 0;
        loop {
            let part = match self.input.fill_buf() {
                Ok(part) => part,
                Err(e) if e.kind() == ErrorKind::Interrupted => continue,
                Err(e) => return Err(e),
            };
            if part.is_empty() {
                return Ok((length > 0).then_some(Line::Formless));
            }
            let end = part.iter().position(|byte| *byte == b'\n');
            let text = &part[..end.unwrap_or(part.len())];
            length += text.len();
            self.line.extend_from_slice(&text[..text.len().min(LONGEST - self.line.len())]);
            let used = text.len() + usize::from(end.is_some());
            self.input.consume(used);
            if end.is_some() {
                return Ok(Some(if length <= LONGEST { Line::Closed(&self.line) } else { Line::Formless }));
            }
        }
    }
}

#[cfg(test)]
mod tests {
    use super::*;
    use std::io::BufReader;

    /// The lengths of lines, and of none where a line lacks the form, whatever the size of the parts that are read.
    fn lengths(text: &[u8]) -> Vec<Option<usize>> {
        let read = |part| {
            let mut lines = Lines::new(BufReader::with_capacity(part, text));
            let mut all = Vec::new();
            while let Some(line) = lines.next().unwrap() {
                all.push(match line {
                    Line::Closed(bytes) => Some(bytes.len()),
                    Line::Formless => None,
                });
            }
            all
        };
        let whole = read(4 * LONGEST);
        for part in [1, 2, 3, 7, LONGEST] {
            assert_eq!(read(part), whole);
        }
        whole
    }

    #[test]
    fn lines_are_closed_by_byte_10() {
        assert_eq!(lengths(b""), []);
        assert_eq!(lengths(b"\n"), [Some(0)]);
        assert_eq!(lengths(b"ab\n\nc\r\n"), [Some(2), Some(0), Some(2)]);
        assert_eq!(lengths(b"ab\nc"), [Some(2), None]);
        assert_eq!(lengths(b"ab"), [None]);
    }

    #[test]
    fn a_longer_line_lacks_the_form_and_the_next_is_read() {
        let mut text = vec![b'x'; LONGEST];
        text.extend_from_slice(b"\n");
        text.extend(vec![b'y'; LONGEST + 1]);
        text.extend_from_slice(b"\nz\n");
        text.extend(vec![b'y'; 10 * LONGEST]);
        assert_eq!(lengths(&text), [Some(LONGEST), None, Some(1), None]);
    }
}
