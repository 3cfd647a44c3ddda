//! Makes the status program's input from a drive's text: reads the text from
//! standard input or from the file that is named, and writes the bytes to
//! standard output. On a mistake, a map that the library refuses included, it
//! writes none and says the line and what is wrong on standard error.

use drives::Drive;
use std::error::Error;
use std::io::{self, Read, Write};
use std::process::ExitCode;
use std::{env, fs};

/// What an editor on Windows may write as "Unicode".
const UTF_16: &str = "\
    line 1: the text begins with a byte order mark of UTF-16, the bytes FF FE or FE FF: save it as \
    UTF-8 without one";

fn main() -> ExitCode {
    match make() {
        Ok(()) => ExitCode::SUCCESS,
        Err(error) => {
            eprintln!("make_drive: {error}");
            ExitCode::FAILURE
        }
    }
}

fn make() -> Result<(), Box<dyn Error>> {
    let bytes = Drive::read(&text()?)?.bytes();
    let mut output = io::stdout();
    output.write_all(&bytes)?;
    Ok(output.flush()?)
}

/// The text of the file that is named, or of standard input if none is.
fn text() -> Result<String, Box<dyn Error>> {
    let names: Vec<_> = env::args_os().skip(1).collect();
    let mut bytes = vec![];
    match names.as_slice() {
        [] => io::stdin().read_to_end(&mut bytes).map(|_| ())?,
        [name] => bytes = fs::read(name).map_err(|e| format!("{}: {e}", name.to_string_lossy()))?,
        _ => return Err("name one text, or none to read standard input".into()),
    }
    if bytes.starts_with(&[0xFF, 0xFE]) || bytes.starts_with(&[0xFE, 0xFF]) {
        return Err(UTF_16.into());
    }
    String::from_utf8(bytes).map_err(|_| "the text is not UTF-8".into())
}
