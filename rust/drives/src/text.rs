//! The lines of a text by number, their words, and the numbers among these.

use std::error::Error;
use std::fmt;

/// What is wrong with a text, and where.
#[derive(Clone, Debug, PartialEq, Eq)]
pub struct Mistake {
    /// The line, counted from 1.
    line: usize,
    what: String,
}

impl fmt::Display for Mistake {
    fn fmt(&self, f: &mut fmt::Formatter) -> fmt::Result {
        write!(f, "line {}: {}", self.line, self.what)
    }
}

impl Error for Mistake {}

/// What editors on Windows may write, and the text has not.
const BYTE_ORDER_MARK: &str = "\
    the text begins with a byte order mark, the bytes EF BB BF: save it as UTF-8 without one";
const WINDOWS: &str = "\
    the line ends with a carriage return, as lines do on Windows: save the text with line feeds \
    alone";

/// The mistake of a text that ends where this is wanted.
pub(crate) fn past_end(text: &str, wanted: &str) -> Mistake {
    Mistake { line: text.split('\n').count(), what: wanted.to_string() }
}

/// A line that says something, with its number.
pub(crate) struct Line<'a> {
    pub(crate) text: &'a str,
    number: usize,
}

impl Line<'_> {
    /// What is wrong with this line.
    pub(crate) fn mistake(&self, what: &str) -> Mistake {
        Mistake { line: self.number, what: what.to_string() }
    }

    /// Reads the words of a line that has this form, parted by single spaces, and
    /// says where a mistake is.
    pub(crate) fn read<T, const N: usize>(
        &self,
        form: &str,
        reader: impl FnOnce([&str; N]) -> Result<T, String>,
    ) -> Result<T, Mistake> {
        let words: Vec<&str> = self.text.split(' ').collect();
        let read = match words.as_slice().try_into() {
            Ok(array) if !words.contains(&"") => reader(array),
            _ => Err(format!("wanted {form}, with single spaces")),
        };
        read.map_err(|what| self.mistake(&what))
    }
}

/// The lines that say something: all but the empty ones and the comments. No line ends as on
/// Windows, comments included. A last line without a line feed may be one that was cut
/// short, and is a mistake.
pub(crate) fn spoken(text: &str) -> Result<Vec<Line<'_>>, Mistake> {
    let lines: Vec<Line> =
        text.split_terminator('\n').zip(1..).map(|(text, number)| Line { text, number }).collect();
    if text.starts_with('\u{FEFF}') {
        return Err(lines[0].mistake(BYTE_ORDER_MARK));
    }
    if let Some(line) = lines.iter().find(|line| line.text.ends_with('\r')) {
        return Err(line.mistake(WINDOWS));
    }
    if !text.is_empty() && !text.ends_with('\n') {
        return Err(past_end(text, "wanted a line feed at the end of the last line"));
    }
    let speaks = |line: &Line| !line.text.is_empty() && !line.text.starts_with('#');
    Ok(lines.into_iter().filter(speaks).collect())
}

/// The number of a cell, decimal without leading zeros. One that no usize holds is past
/// every end.
pub(crate) fn cell(word: &str) -> Result<usize, String> {
    let digits = !word.is_empty() && word.bytes().all(|byte| byte.is_ascii_digit());
    if !digits || (word.starts_with('0') && word.len() > 1) {
        return Err(format!("cell: {word:?} is not a decimal number without leading zeros"));
    }
    Ok(word.parse().unwrap_or(usize::MAX))
}

/// The fuses of a cell: 1 to 8 hexadecimal digits, in either case.
pub(crate) fn hexadecimal(word: &str) -> Result<u32, String> {
    let digits = word.len() <= 8 && word.bytes().all(|byte| byte.is_ascii_hexdigit());
    let value = digits.then(|| u32::from_str_radix(word, 16).ok()).flatten();
    value.ok_or_else(|| format!("{word:?} is not 1 to 8 hexadecimal digits"))
}
