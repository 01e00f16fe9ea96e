//! Many texts in one file: each is its length as 8 decimal digits and LF, then its bytes.

use std::io::{self, Read, Write};

pub fn next(input: &mut impl Read) -> io::Result<Option<Vec<u8>>> {
    let mut head = [0u8; 9];
    let mut have = 0;
    while have < 9 {
        match input.read(&mut head[have..])? {
            0 if have == 0 => return Ok(None),
            0 => return Err(io::ErrorKind::UnexpectedEof.into()),
            n => have += n,
        }
    }
    let length = std::str::from_utf8(&head[..8]).ok().and_then(|t| t.parse::<usize>().ok());
    let (Some(length), b'\n') = (length, head[8]) else {
        return Err(io::Error::new(io::ErrorKind::InvalidData, "not a length line"));
    };
    let mut text = vec![0; length];
    input.read_exact(&mut text)?;
    Ok(Some(text))
}

pub fn put(output: &mut impl Write, text: &[u8]) -> io::Result<()> {
    writeln!(output, "{:08}", text.len())?;
    output.write_all(text)
}
