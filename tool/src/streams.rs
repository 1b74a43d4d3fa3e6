//! Reading the input that a command line names, and writing standard output. An error is a line without the program's name.
use crate::closed::{input_is_open, output_is_open};
use std::ffi::OsStr;
use std::fs::File;
use std::io::{self, Error, Read, Write};
use std::os::fd::AsFd;

/// Names standard input, and standard output too.
pub const STANDARD: &str = "-";

/// The longest input that is read. A table file is far shorter, and so is every text but for its comments; a device without an end is not.
const LONGEST: usize = 1 << 24;

/// What was read, and how an error or a warning names it.
pub struct Input {
    pub name: String,
    pub bytes: Vec<u8>,
}

pub fn read(file: &OsStr) -> Result<Input, String> {
    let standard = file == STANDARD;
    let name = if standard { "standard input".to_string() } else { shown(file) };
    let read = if standard {
        read_standard()
    } else {
        File::open(file).and_then(read_all)
    };
    match read {
        Ok(bytes) => Ok(Input { name, bytes }),
        Err(error) => Err(format!("cannot read {name}: {error}")),
    }
}

fn read_standard() -> io::Result<Vec<u8>> {
    input_is_open()?;
    read_all(io::stdin().lock())
}

fn read_all(from: impl Read) -> io::Result<Vec<u8>> {
    let mut bytes = Vec::new();
    from.take(LONGEST as u64 + 1).read_to_end(&mut bytes)?;
    if bytes.len() > LONGEST {
        return Err(Error::other(format!("it has more than {LONGEST} bytes")));
    }
    Ok(bytes)
}

pub fn write(output: &[u8]) -> Result<(), String> {
    write_standard(output).map_err(|error| format!("cannot write standard output: {error}"))
}

/// Through a file of its own, for Rust's standard output hides that it can't be written to.
fn write_standard(output: &[u8]) -> io::Result<()> {
    output_is_open()?;
    File::from(io::stdout().as_fd().try_clone_to_owned()?).write_all(output)
}

/// A file's name on one line.
pub fn shown(file: &OsStr) -> String {
    let visible = |c: char| if c.is_control() { c.escape_debug().to_string() } else { c.to_string() };
    file.to_string_lossy().chars().map(visible).collect()
}

#[cfg(test)]
mod tests {
    use super::*;

    #[test]
    fn a_name_stays_on_one_line() {
        assert_eq!(shown(OsStr::new("a b\"é\n\u{1b}")), "a b\"é\\n\\u{1b}");
    }

    #[test]
    fn an_input_without_an_end_is_an_error() {
        assert_eq!(read_all(io::repeat(0)).unwrap_err().to_string(), "it has more than 16777216 bytes");
        assert_eq!(read_all(io::repeat(7).take(LONGEST as u64)).unwrap().len(), LONGEST);
    }
}
