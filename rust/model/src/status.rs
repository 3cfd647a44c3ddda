//! Document 01, the end of "The small drive": the status program.

use crate::mailbox::request::number;
use crate::map::Map;
use crate::partition::Partition;
use crate::refusal::Refusal;
use crate::slot;

/// "The small drive": what the status program prints for this standard input.
pub fn output(input: &[u8]) -> Vec<u8> {
    printed(input, table)
}

/// What a program prints for the status program's standard input: this text of a drive, or
/// the refusal.
pub(crate) fn printed(input: &[u8], text: fn(&Map, &[u32]) -> String) -> Vec<u8> {
    let text = match read(input) {
        Ok((map, cells)) => text(&map, &cells),
        Err(refusal) => format!("refused {}\n", refusal.number()),
    };
    text.into_bytes()
}

/// "The small drive": "a u16 map length, the map, C cells, C marks, each a
/// little-endian u32". The refusals stand in the order of the document. The
/// marks must be there, but nothing that is printed depends on them.
fn read(input: &[u8]) -> Result<(Map, Vec<u32>), Refusal> {
    let (length, rest) = match input {
        [low, high, rest @ ..] => (usize::from(u16::from_le_bytes([*low, *high])), rest),
        _ => return Err(Refusal::WrongLength),
    };
    if length > 256 {
        return Err(Refusal::BadMap);
    }
    if rest.len() < length {
        return Err(Refusal::WrongLength);
    }
    let (image, rest) = rest.split_at(length);
    let map = Map::read(image).ok_or(Refusal::BadMap)?;
    if rest.len() != 4 * map.cells() + 4 * map.cells() {
        return Err(Refusal::WrongLength);
    }
    let cells = rest.chunks_exact(4).map(number).take(map.cells()).collect();
    Ok((map, cells))
}

/// "a header, one line per partition (number, cells, state, short pairs), then
/// `hek` and the active slot's partition if the HEK is available, else `none`".
fn table(map: &Map, cells: &[u32]) -> String {
    let mut text = String::from("part cells state short\n");
    for (number, entry) in map.entries().iter().enumerate() {
        let partition = Partition::of(map, number, cells);
        let (state, short) = (partition.state(), partition.short_pairs());
        text += &format!("{number} {} {state} {short}\n", entry.n);
    }
    match slot::active_slot(map, cells) {
        Some(number) if slot::hek_available(map, cells) => text + &format!("hek {number}\n"),
        _ => text + "hek none\n",
    }
}
