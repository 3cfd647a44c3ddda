//! The map of a drive's text, which the library writes and judges (document 02, P2); and, of one
//! that it refuses, the line at fault.

use crate::text::{Line, Mistake};
use sciambrunola::{partition, refusal, write_map, Fields, PARTITIONS};

/// The forms of the lines, and what all their numbers have in common.
pub(crate) const FIRST_LINE: &str = "wanted the map's first line, `C B`";
const PARTITION: &str = "wanted a partition, `first cells kind flags`";
const NUMBERS: &str = "decimal numbers up to 65535, without leading zeros and with single spaces";

/// The rules of the first line and of a partition, for whoever has to put one right.
const FIRST_RULES: &str = "\
    the map breaks a rule: C, the cells, is 4 to 2048, and B, the bound, is 33 to 64";
const RULES: &str = "\
    the map breaks a rule with this partition: first and cells are even; cells is at least 4, with \
    flag 1 at least 6; it begins where the one before ends or later, and ends by C; kind is 0 \
    hardware, 1 software or 2 life cycle; flags is the sum of 1 zeroizable, 2 secret, 4 slot and 8 \
    older guide; flag 1 is not for kind 2, flag 2 is for kind 0 alone, flag 4 needs 1 and 2, and \
    flag 8 needs 1";
const NO_PARTITION: &str = "\
    the map has no partition: wanted `first cells kind flags` below this line";

/// A partition that keeps every rule in any map: behind the first line, it leaves the library C
/// and B alone to judge.
const ANY_MAPS: &str = "0 4 0 0\n";

/// The image of the map that these lines say, the first of them with C and B.
pub(crate) fn image(lines: &[Line]) -> Result<Vec<u8>, Mistake> {
    written(&front(lines, lines.len())).map_err(|_| fault(lines))
}

/// How many cells the map of an image has.
pub(crate) fn cells(image: &[u8]) -> usize {
    match partition(image, 0) {
        Fields::Partition { cells, .. } => cells as usize,
        Fields::Refused(number) => panic!("the library refuses its own image with {number}"),
    }
}

/// The library's text of so many lines.
fn front(lines: &[Line], count: usize) -> String {
    lines[..count].iter().flat_map(|line| [line.text, "\n"]).collect()
}

/// The image of a text in the room that it asks for, so that a refusal is never for the room.
fn written(text: &str) -> Result<Vec<u8>, u32> {
    let mut image = vec![0; 8 * text.lines().count()];
    let bytes = write_map(text.as_bytes(), &mut image)?;
    image.truncate(bytes);
    Ok(image)
}

/// What is wrong with a map that is refused: the line that ends the first front that is refused.
/// The first line alone is judged with a partition behind it.
fn fault(lines: &[Line]) -> Mistake {
    let first = written(&(front(lines, 1) + ANY_MAPS));
    if let Err(number) = first {
        return lines[0].mistake(&told(number, &lines[0], FIRST_LINE, FIRST_RULES));
    }
    for (line, before) in lines.iter().zip(0..).skip(1) {
        if let Err(number) = written(&front(lines, before + 1)) {
            let too_many = format!("a map has no more than {PARTITIONS} partitions");
            let rules = if before > PARTITIONS { &too_many } else { RULES };
            return line.mistake(&told(number, line, PARTITION, rules));
        }
    }
    lines[0].mistake(NO_PARTITION)
}

/// A refusal in words: the line has not this form, or it breaks one of these rules.
fn told(number: u32, line: &Line, form: &str, rules: &str) -> String {
    match number {
        refusal::TEXT => format!("{form}, {NUMBERS}, not {:?}", line.text),
        _ => rules.to_string(),
    }
}
