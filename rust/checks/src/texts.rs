//! Generated texts of maps (document 02, P2): good ones, ones damaged at every kind of place, and
//! the room that is lent for the image.

mod damages;

use crate::maps;
use crate::random::Random;
use crate::tally;
use damages::{CHANGED, DAMAGES};
use model::map::{broken_rules, Rule};
use model::text::Fields;
use model::{entry, Image, HARDWARE};

/// The lines of a text, each by its words.
type Words = Vec<Vec<String>>;

/// What a kind of damage leaves of the form.
#[derive(Clone, Copy, Debug, PartialEq, Eq)]
pub enum Form {
    /// The text still has it, whatever its numbers say.
    Kept,
    /// The text has it no longer.
    Broken,
    /// One or the other.
    Either,
}

/// A text, what was done to it, and the bytes that are lent for its image.
pub struct Text {
    pub bytes: Vec<u8>,
    /// The names of the damage and of the room.
    pub kinds: [&'static str; 2],
    pub form: Form,
    pub room: usize,
}

/// The room that is lent for an image that needs so many bytes.
type Room = fn(&mut Random, usize) -> usize;

/// Most have enough.
const ROOMS: &[tally::Row<Room>] = &[
    ("room for it and no more", |_, need| need),
    ("room for it and no more", |_, need| need),
    ("room for a byte more", |_, need| need + 1),
    ("room for 16 partitions", |_, _| 136),
    ("room for 16 partitions", |_, _| 136),
    ("room for much more", |random, need| need + random.between(2, 300)),
    ("room short by one", |_, need| need - 1),
    ("room for a partition less", |_, need| need.saturating_sub(8)),
    ("room of 8", |_, _| 8),
    ("no room", |_, _| 0),
    ("any room", |random, need| random.below(need)),
];

/// The rules that no text can break: its image has E = 8, no filler, the right length and zeros.
const NOT_OF_A_TEXT: [Rule; 4] =
    [Rule::EntriesOffset, Rule::Filler, Rule::Length, Rule::EntryZeros];

impl Text {
    /// A text and its room. The number chooses the damage in turn, but of one in three, and seeds
    /// what is drawn, so each can be made again by its number alone.
    pub fn numbered(number: usize) -> Text {
        const SEED: u64 = 0x5EED_0002_0016_0001;
        made(&mut Random::numbered(SEED, number), number)
    }

    /// Any of them.
    pub fn any(random: &mut Random) -> Text {
        let number = random.below(DAMAGES.len());
        made(random, number)
    }

    /// What is met in it: its kinds, and what P2 says that comes of it.
    pub fn met(&self) -> Vec<String> {
        let mut met: Vec<String> = self.kinds.map(str::to_string).to_vec();
        met.extend(outcomes(&self.bytes, self.room));
        met
    }
}

/// Everything that a run over all numbers has to meet.
pub fn possible() -> Vec<String> {
    let mut keys = tally::names(ROOMS);
    keys.dedup();
    keys.extend(DAMAGES.iter().map(|(name, ..)| name.to_string()));
    keys.extend(["16 for the form", "16 for the room", "16 before 1"].map(str::to_string));
    keys.extend(["1 for a kind or flags over 255", "1 for some rules"].map(str::to_string));
    let rules = Rule::ALL.into_iter().filter(|rule| !NOT_OF_A_TEXT.contains(rule));
    keys.extend(rules.map(|rule| format!("1 for {rule:?} alone")));
    keys.extend((1..=16).map(|count| format!("written with {count}")));
    keys
}

fn made(random: &mut Random, number: usize) -> Text {
    let in_turn = DAMAGES[number % DAMAGES.len()];
    let (name, form, damage) = if random.one_in(3) { CHANGED } else { in_turn };
    let map = random.pick(&[maps::good, maps::compact, maps::compact, maps::small, maps::small]);
    let image = map(random);
    let bytes = damage(random, image);
    let (room_name, room) = room(random, &bytes);
    Text { bytes, kinds: [name, room_name], form, room }
}

/// The room that is lent for the image of a text, by its name and its bytes.
pub fn room(random: &mut Random, text: &[u8]) -> (&'static str, usize) {
    let lines = text.iter().filter(|byte| **byte == b'\n').count();
    let (name, room) = random.pick(ROOMS);
    (name, room(random, 8 * lines.max(1)))
}

/// What comes of a text with so much room, by the model.
fn outcomes(text: &[u8], room: usize) -> Vec<String> {
    let fields = match Fields::read(text) {
        Some(fields) => fields,
        None => return vec!["16 for the form".to_string()],
    };
    let broken = fields.image().map(|image| broken_rules(&image));
    let good = broken.as_ref().map_or(false, Vec::is_empty);
    if fields.bytes() > room {
        let before = (!good).then(|| "16 before 1".to_string());
        return ["16 for the room".to_string()].into_iter().chain(before).collect();
    }
    vec![match broken.as_deref() {
        None => "1 for a kind or flags over 255".to_string(),
        Some([]) => format!("written with {}", fields.partitions.len()),
        Some([rule]) => format!("1 for {rule:?} alone"),
        Some(_) => "1 for some rules".to_string(),
    }]
}

/// The text of a map.
pub fn spelled(image: &Image) -> Vec<u8> {
    joined(&words(image))
}

/// The words of a map's text.
fn words(Image { cells, bound, entries, .. }: &Image) -> Words {
    let spelled = |numbers: &[u16]| numbers.iter().map(u16::to_string).collect();
    let mut lines = vec![spelled(&[*cells, *bound])];
    lines.extend(entries.iter().map(|e| spelled(&[e.first, e.n, e.kind.into(), e.flags.into()])));
    lines
}

/// The text of these words.
fn joined(lines: &Words) -> Vec<u8> {
    lines.iter().map(|words| words.join(" ") + "\n").collect::<String>().into_bytes()
}

/// So many partitions of four cells, one behind the other as far as 2,048 cells go, then over
/// again; bound 60.
pub fn row(count: usize) -> Image {
    let made = |number: usize| entry((4 * number % 2048) as u16, 4, HARDWARE, 0);
    Image { cells: 2048, bound: 60, entries_at: 8, entries: (0..count).map(made).collect() }
}
