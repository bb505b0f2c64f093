//! Streams of cases: each a 4-byte big-endian length and that many bytes.

use std::fs;
use std::io::{self, ErrorKind, Read, Write};
use std::path::Path;

pub fn write_case(out: &mut impl Write, case: &[u8]) -> io::Result<()> {
    out.write_all(&(case.len() as u32).to_be_bytes())?;
    out.write_all(case)
}

/// The next case, or nothing at the end of the stream.
pub fn read_case(input: &mut impl Read) -> io::Result<Option<Vec<u8>>> {
    let mut length = Vec::new();
    input.by_ref().take(4).read_to_end(&mut length)?;
    if length.is_empty() {
        return Ok(None);
    }
    let length: [u8; 4] = length.try_into().map_err(|_| cut_short())?;
    let length = u32::from_be_bytes(length);
    let mut case = Vec::new();
    input
        .by_ref()
        .take(u64::from(length))
        .read_to_end(&mut case)?;
    if case.len() as u64 != u64::from(length) {
        return Err(cut_short());
    }
    Ok(Some(case))
}

/// Writes each case to a file of its own in a folder that exists: 00000.cert,
/// 00001.cert and so on.
pub fn split(input: &mut impl Read, folder: &Path) -> io::Result<()> {
    // Also where there are no cases, a folder that is not there is a failure.
    fs::read_dir(folder)?;
    let mut index = 0;
    while let Some(case) = read_case(input)? {
        fs::write(folder.join(format!("{index:05}.cert")), case)?;
        index += 1;
    }
    Ok(())
}

fn cut_short() -> io::Error {
    io::Error::new(ErrorKind::UnexpectedEof, "the stream ends within a case")
}
