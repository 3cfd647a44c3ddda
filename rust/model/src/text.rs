//! Document 02, P2, "Write the map": the text that the chip planners type, and the image
//! that it becomes.

use crate::image::{entry, Image};
use crate::lent::{Lent, PARTITIONS};
use crate::map::{broken_rules, Entry};
use crate::refusal::{self, Refusal};
use std::str;

/// P2: "The text becomes an image with E = 8".
const E: u16 = 8;

/// P2: what a text says, "one partition a line: first cell, cells, kind, flags, after a
/// first line with C and B". No rule of the map is checked.
#[derive(Clone, Debug, PartialEq, Eq)]
pub struct Fields {
    /// C and B.
    pub first_line: [u16; 2],
    /// First cell, cells, kind and flags of each partition.
    pub partitions: Vec<[u16; 4]>,
}

impl Fields {
    /// P2: the fields of a text of "that form", none of any other: "each line ended by a
    /// line feed".
    pub fn read(text: &[u8]) -> Option<Fields> {
        let mut lines = str::from_utf8(text).ok()?.strip_suffix('\n')?.split('\n');
        let first_line = numbers(lines.next()?)?;
        Some(Fields { first_line, partitions: lines.map(numbers).collect::<Option<_>>()? })
    }

    /// P2: "8 bytes and 8 more per partition line".
    pub fn bytes(&self) -> usize {
        8 + 8 * self.partitions.len()
    }

    /// P2: the image with these fields, good or bad. None has a field that its place in
    /// the image cannot hold: no map at all, then, has these fields.
    pub fn image(&self) -> Option<Vec<u8>> {
        let byte = |number: u16| u8::try_from(number).ok();
        let of_line = |[first, n, kind, flags]: [u16; 4]| -> Option<Entry> {
            Some(entry(first, n, byte(kind)?, byte(flags)?))
        };
        let entries = self.partitions.iter().copied().map(of_line).collect::<Option<Vec<_>>>()?;
        let [cells, bound] = self.first_line;
        u16::try_from(entries.len()).ok()?;
        Some(Image { cells, bound, entries_at: E, entries }.bytes())
    }

    /// P2: "an image is written exactly when some valid map has those fields". The rules
    /// ask nothing of E that an image with E = 8 does not keep.
    fn valid_image(&self) -> Option<Vec<u8>> {
        self.image().filter(|image| broken_rules(image).is_empty())
    }
}

/// P2: the numbers of a line, parted by "single spaces".
fn numbers<const N: usize>(line: &str) -> Option<[u16; N]> {
    let numbers: Vec<u16> = line.split(' ').map(number).collect::<Option<_>>()?;
    numbers.try_into().ok()
}

/// P2: "all decimal without leading zeros and at most 65,535": a number is spelled as it
/// would be printed, and in no other way.
fn number(word: &str) -> Option<u16> {
    word.parse().ok().filter(|number: &u16| number.to_string() == word)
}

/// P2: the refusals that apply to a text and an output buffer of this length, "in this
/// order: 16 text not of that form or output buffer too short, 1 the map would break a
/// rule". Where the text has not that form, there is no map to judge.
pub fn applying(text: &[u8], room: usize) -> Vec<Refusal> {
    let fields = Fields::read(text);
    let has_room = fields.as_ref().map_or(false, |fields| fields.bytes() <= room);
    let breaks_rule = fields.map_or(false, |fields| fields.valid_image().is_none());
    refusal::that_apply([(Refusal::BadText, !has_room), (Refusal::BadMap, breaks_rule)])
}

/// P2: the image in the output buffer: the refusal or 0 and the image's bytes, and
/// everything lent as the call leaves it. "A refusal writes nothing, nor any call past
/// the image."
pub fn write(before: &Lent, text: &[u8]) -> ([u32; 2], Lent) {
    let mut after = before.clone();
    if let Some(number) = refusal::first(&applying(text, before.output.len())) {
        return ([number, 0], after);
    }
    let image = Fields::read(text).and_then(|fields| fields.valid_image());
    let image = image.expect("it is not refused");
    after.output[..image.len()].copy_from_slice(&image);
    ([0, image.len() as u32], after)
}

/// What the program `make_map` writes for this standard input, to standard output and to
/// standard error. Its buffer is that of 16 partitions.
pub fn output(input: &[u8]) -> [Vec<u8>; 2] {
    let lent = Lent { output: vec![0; 8 + 8 * PARTITIONS], ..Lent::default() };
    match write(&lent, input) {
        ([0, bytes], after) => [after.output[..bytes as usize].to_vec(), vec![]],
        ([number, _], _) => [vec![], format!("refused {number}\n").into_bytes()],
    }
}
