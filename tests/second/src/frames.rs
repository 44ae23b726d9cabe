//! A stream of several schedules or sheets: each is a decimal byte count, a
//! newline, then that many bytes.

use std::io::{self, BufRead, Write};

/// The next frame's bytes, or none at the end of the stream.
pub fn read_frame<R: BufRead>(input: &mut R) -> io::Result<Option<Vec<u8>>> {
    let mut head = Vec::new();
    input.read_until(b'\n', &mut head)?;
    if head.is_empty() {
        return Ok(None);
    }
    if head.pop() != Some(b'\n') {
        return Err(bad("a byte count is not ended by a newline"));
    }
    if head.is_empty() || head.len() > 9 || !head.iter().all(|c| c.is_ascii_digit()) {
        return Err(bad("a byte count is not a decimal number"));
    }
    let mut count = 0usize;
    for c in head {
        count = count * 10 + (c - b'0') as usize;
    }
    let mut bytes = vec![0; count];
    input.read_exact(&mut bytes)?;
    Ok(Some(bytes))
}

pub fn write_frame<W: Write>(output: &mut W, bytes: &[u8]) -> io::Result<()> {
    writeln!(output, "{}", bytes.len())?;
    output.write_all(bytes)
}

fn bad(text: &str) -> io::Error {
    io::Error::new(io::ErrorKind::InvalidData, text)
}
