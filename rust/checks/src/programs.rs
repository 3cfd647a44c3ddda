//! The programs `status` and `why`, which read the same standard input, against the model, over
//! generated inputs, whole and damaged; and `make_map`, which reads a text.

use crate::random::Random;
use crate::tally::Tally;
use crate::{drives, maps, runner};
use model::{Drive, Image};

/// The programs by their names, each with what the model says that it prints.
pub const PROGRAMS: [(&str, fn(&[u8]) -> Vec<u8>); 2] =
    [("status", model::status::output), ("why", model::why::output)];

/// What the lines of a table can say. A partition's line says its state, and an erased one's
/// its short pairs too: 0, or 1 where the indicator is short. The state's head stands for a
/// whole table.
const KINDS: &str = "state, refused 1, refused 2, erased 0, erased 1, torn, blank, programmed, \
                     hek N, hek none";

/// What the line of `why` can say besides a refusal, which is the table's too.
const REASONS: [&str; 5] =
    ["hek available", "no slot", "every slot is erased", "is blank", "is torn"];

/// Everything that a run has to meet.
pub fn possible() -> Vec<String> {
    KINDS.split(", ").chain(REASONS).map(str::to_string).collect()
}

/// Runs both programs on the inputs numbered from 0 up to `count`, on all cores, and fails the
/// test at an output that is not the model's, or where the two do not agree.
pub fn with_model(count: usize, input: impl Fn(usize) -> Vec<u8> + Sync) -> Tally {
    Tally::over(count, |tally, number| {
        let input = input(number);
        let [table, line] = PROGRAMS.map(|(name, model)| {
            let (expected, printed) = (model(&input), printed(name, &input));
            let expected = String::from_utf8_lossy(&expected);
            assert_eq!(printed, expected, "{name}, input {number}: {input:02X?}");
            printed
        });
        assert!(agree(&table, &line), "input {number}: {line}{table}{input:02X?}");
        let reasons = REASONS.into_iter().filter(|reason| line.contains(reason));
        tally.add(table.lines().map(kind).chain(reasons).map(str::to_string));
    })
}

/// What `make_map` writes for a text that arrives in these pieces, to standard output and to
/// standard error. Fails the test where that is not the model's.
pub fn map_made(pieces: &[&[u8]]) -> [Vec<u8>; 2] {
    let text = pieces.concat();
    let made = runner::streams(&runner::program("make_map"), pieces);
    assert_eq!(made, model::text::output(&text), "\"{}\"", text.escape_ascii());
    made
}

/// What a program prints for an input.
pub fn printed(name: &str, input: &[u8]) -> String {
    let printed = runner::run(&runner::program(name), &[input]);
    String::from_utf8_lossy(&printed).into_owned()
}

/// What `status` and `why` print for an input.
pub fn both(input: &[u8]) -> [String; 2] {
    PROGRAMS.map(|(name, _)| printed(name, input))
}

/// Whether the table of `status` and the line of `why` tell the same of a drive: they are the
/// same refusal; or the HEK is available in both or in neither, and a slot that the line names
/// is in that state.
pub fn agree(table: &str, line: &str) -> bool {
    if [table, line].iter().any(|printed| printed.starts_with("refused")) {
        return table == line;
    }
    let available = !table.ends_with("\nhek none\n");
    let is_listed = |slot: (&str, &str)| table.lines().any(|line| listed(line) == Some(slot));
    available == (line == "hek available\n") && named(line).map_or(true, is_listed)
}

/// The partition of the slot that a line of `why` names, and its state.
fn named(line: &str) -> Option<(&str, &str)> {
    let (partition, state) = line.split_once(", partition ")?.1.split_once(", is ")?;
    Some((partition, state.split_once(':')?.0))
}

/// The partition of a line of the table, and its state.
fn listed(line: &str) -> Option<(&str, &str)> {
    match line.split(' ').collect::<Vec<_>>()[..] {
        [partition, _, state, _] => Some((partition, state)),
        _ => None,
    }
}

fn kind(line: &str) -> &str {
    match (line.strip_prefix("hek "), line.find("erased")) {
        (Some("none"), _) => "hek none",
        (Some(_), _) => "hek N",
        (None, Some(erased)) => &line[erased..],
        (None, None) => listed(line).map_or(line, |(_, state)| state),
    }
}

/// A generated input. The number chooses among the kinds in turn and seeds what
/// is drawn, so each input can be made again by its number alone.
pub fn numbered(number: usize) -> Vec<u8> {
    const SEED: u64 = 0x5EED_0059_0060_0064;
    let random = &mut Random::numbered(SEED, number);
    let kind = number % 20;
    let drive = match kind {
        8 => of(random, maps::largest),
        9..=13 | 18 => damaged_drive(random),
        _ => of(random, maps::good),
    };
    let whole = drive.status_input();
    match kind {
        0..=13 => whole,
        14 => resized(&whole, random.below(whole.len())),
        15 => resized(&whole, random.pick(&lengths_around_boundaries(&drive))),
        // Something behind it, a single byte most of the time.
        16 => {
            let more = random.pick(&[1, 1, 1, 2, 4, 8, 4096]);
            [whole, random.bytes(more)].concat()
        }
        17 => wrong_length(random, &drive, whole),
        // Two things wrong at once: the order of the refusals decides.
        18 => {
            let map_end = 2 + drive.image.len();
            resized(&whole, random.between(map_end.saturating_sub(6), whole.len() + 2))
        }
        _ => garbage(random),
    }
}

/// A drive over a map of this sort.
pub fn of(random: &mut Random, map: fn(&mut Random) -> Image) -> Drive {
    let image = map(random).bytes();
    drives::over(random, image)
}

fn damaged_drive(random: &mut Random) -> Drive {
    let good = maps::good(random);
    let image = maps::damaged(random, good);
    drives::over(random, image)
}

/// The input at each length around each boundary of its format: the start, the
/// end of the map, of the cells, of the marks, and a few bytes more than that.
pub fn around_boundaries(drive: &Drive) -> Vec<Vec<u8>> {
    let whole = drive.status_input();
    lengths_around_boundaries(drive).into_iter().map(|length| resized(&whole, length)).collect()
}

fn lengths_around_boundaries(drive: &Drive) -> Vec<usize> {
    let map_end = 2 + drive.image.len();
    let cells_end = map_end + 4 * drive.cells.len();
    let marks_end = cells_end + 4 * drive.marks.len();
    let around = |boundary: usize| boundary - 5..=boundary + 5;
    let ends = [map_end, cells_end, marks_end].into_iter().flat_map(around);
    (0..=4).chain(ends).collect()
}

/// The input cut to this length, or made longer by zeros.
fn resized(input: &[u8], length: usize) -> Vec<u8> {
    let mut input = input.to_vec();
    input.resize(length, 0);
    input
}

/// A whole input whose length field says something else than the map's length.
fn wrong_length(random: &mut Random, drive: &Drive, mut whole: Vec<u8>) -> Vec<u8> {
    let (right, any) = (drive.image.len() as u16, random.bits() as u16);
    let wrong = random.pick(&[right - 1, right + 1, right.swap_bytes(), 0, 255, 256, 257, any]);
    whole[..2].copy_from_slice(&wrong.to_le_bytes());
    whole
}

/// Bytes that mean nothing, half of them behind a length field in range.
fn garbage(random: &mut Random) -> Vec<u8> {
    let count = random.below(600);
    let mut input = random.bytes(count);
    if count >= 2 && random.one_in(2) {
        input[1] = 0;
    }
    input
}
