//! Lines out of a stream of any octets.  A line ends with a newline, which the
//! last may lack.  Of a line longer than the protocol allows no more is kept
//! than shows that it is.

use std::io::{self, BufRead};

/// The most characters a call's line may have.
pub const LONGEST_LINE: usize = 300_000;

/// Reads the next line, without its newline, into `line`; false at the end of
/// the stream.  At most one octet more than the longest line is kept.
pub fn next_line(input: &mut impl BufRead, line: &mut Vec<u8>) -> io::Result<bool> {
    line.clear();
    let mut begun = false;
    loop {
        let chunk = input.fill_buf()?;
        if chunk.is_empty() {
            return Ok(begun);
        }
        begun = true;
        let newline = chunk.iter().position(|&octet| octet == b'\n');
        let part = &chunk[..newline.unwrap_or(chunk.len())];
        let room = LONGEST_LINE + 1 - line.len();
        line.extend_from_slice(&part[..part.len().min(room)]);
        let used = part.len() + usize::from(newline.is_some());
        input.consume(used);
        if newline.is_some() {
            return Ok(true);
        }
    }
}

#[cfg(test)]
mod tests {
    use super::*;

    /// All lines of these octets, read through a buffer of a few octets.
    fn lines_of(octets: &[u8]) -> Vec<Vec<u8>> {
        let mut input = io::BufReader::with_capacity(3, octets);
        let mut lines = Vec::new();
        let mut line = Vec::new();
        while next_line(&mut input, &mut line).unwrap() {
            lines.push(line.clone());
        }
        lines
    }

    #[test]
    fn the_last_newline_may_lack() {
        assert_eq!(lines_of(b""), Vec::<Vec<u8>>::new());
        assert_eq!(lines_of(b"a\n\nbcdef"), [&b"a"[..], b"", b"bcdef"]);
        assert_eq!(lines_of(b"a\n\0\xff\n"), [&b"a"[..], b"\0\xff"]);
    }

    #[test]
    fn a_long_line_is_kept_to_one_octet_over() {
        let mut octets = vec![b'x'; LONGEST_LINE + 7];
        octets.extend(b"\ny");
        let lines = lines_of(&octets);
        assert_eq!(lines[0].len(), LONGEST_LINE + 1);
        assert_eq!(lines[1], b"y");
    }
}
