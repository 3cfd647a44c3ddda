//! What is done to the text of a good map, each kind of it with what it leaves of the form.

use super::Form::{self, Broken, Either, Kept};
use super::{joined, row, spelled, words, Words};
use crate::maps;
use crate::random::Random;
use model::Image;

/// A kind of damage by its name, what it leaves of the form, and the text that it makes of a map.
pub type Damage = (&'static str, Form, fn(&mut Random, Image) -> Vec<u8>);

/// The damage that breaks the rules of the map one by one. It leaves the text as it was where the
/// same is drawn again, or a field that is the image's alone: E or the zero bytes.
pub const CHANGED: Damage =
    ("a field or the order drawn anew", Kept, |random, map| spelled(&changed(random, map)));

/// Every kind of damage.
pub const DAMAGES: &[Damage] = &[
    CHANGED,
    ("no damage", Kept, |_, map| spelled(&map)),
    ("a field or the order drawn anew, twice", Kept, |random, map| {
        let once = changed(random, map);
        spelled(&changed(random, once))
    }),
    ("a number of 65,535", Kept, |random, map| number(random, map, |_, _| 65_535)),
    ("kind over 255", Kept, |random, map| over_255(random, map, 2)),
    ("flags over 255", Kept, |random, map| over_255(random, map, 3)),
    ("C and B exchanged", Kept, |_, map| lines(map, |lines| lines[0].reverse())),
    ("two words of a partition exchanged", Kept, |random, map| {
        let (at, one) = (random.between(1, map.entries.len()), random.below(3));
        lines(map, |lines| lines[at].swap(one, one + 1))
    }),
    ("partitions in another order", Kept, |random, map| {
        let at = random.below(map.entries.len());
        lines(map, |lines| lines[1..].rotate_left(at))
    }),
    ("no partition line", Kept, |_, map| lines(map, |lines| lines.truncate(1))),
    ("one partition line", Kept, |_, map| lines(map, |lines| lines.truncate(2))),
    ("16 partition lines", Kept, |_, _| spelled(&row(16))),
    ("17 partition lines", Kept, |_, _| spelled(&row(17))),
    ("18 partition lines or more", Kept, |random, _| spelled(&row(random.between(18, 40)))),
    ("a number of 65,536 or more", Broken, |random, map| {
        number(random, map, |random, old| 65_536 + random.pick(&[0, old]))
    }),
    ("a number of six digits", Broken, |random, map| {
        let any = random.between(100_000, 999_999) as u64;
        number(random, map, |random, old| random.pick(&[any, 131_072 + old, 100_000, 999_999]))
    }),
    ("a number past 32 or 64 bits", Broken, |random, map| {
        let past = random.pick(&[1_u128 << 32, 1 << 64, 1 << 96]);
        word(random, map, |word| (past + word.parse::<u128>().unwrap_or(0)).to_string())
    }),
    ("a leading zero", Broken, |random, map| {
        let zeros = random.pick(&["0", "0", "00", "00000"]);
        word(random, map, |word| format!("{zeros}{word}"))
    }),
    ("a sign", Broken, |random, map| {
        let sign = random.pick(&["+", "-"]);
        word(random, map, |word| format!("{sign}{word}"))
    }),
    ("a digit more", Either, |random, map| {
        let (at, digit) = (random.bits() as usize, random.below(10).to_string());
        word(random, map, |word| {
            let (front, back) = word.split_at(at % (word.len() + 1));
            [front, &digit, back].concat()
        })
    }),
    ("a digit fewer", Either, |random, map| word(random, map, |word| word[1..].to_string())),
    ("a space doubled", Broken, |random, map| at_a(random, map, b' ', b"  ")),
    ("a space left out", Broken, |random, map| at_a(random, map, b' ', b"")),
    ("a space before a line", Broken, |random, map| at_a_line(random, map, b" ")),
    ("a space behind a line", Broken, |random, map| at_a(random, map, b'\n', b" \n")),
    ("a tab for a space", Broken, |random, map| at_a(random, map, b' ', b"\t")),
    ("a line feed for a space", Broken, |random, map| at_a(random, map, b' ', b"\n")),
    ("a space for a line feed", Broken, |random, map| at_a(random, map, b'\n', b" ")),
    ("a line feed doubled", Broken, |random, map| at_a(random, map, b'\n', b"\n\n")),
    ("a line feed left out", Broken, |random, map| at_a(random, map, b'\n', b"")),
    ("a line feed first", Broken, |_, map| [b"\n", &spelled(&map)[..]].concat()),
    ("the last line feed left out", Broken, |_, map| {
        let text = spelled(&map);
        text[..text.len() - 1].to_vec()
    }),
    ("\\r\\n at one line", Broken, |random, map| at_a(random, map, b'\n', b"\r\n")),
    ("\\r\\n at every line", Broken, |_, map| {
        String::from_utf8_lossy(&spelled(&map)).replace('\n', "\r\n").into_bytes()
    }),
    ("a byte order mark", Broken, |_, map| [b"\xEF\xBB\xBF", &spelled(&map)[..]].concat()),
    ("a word more", Broken, |random, map| {
        let at = random.below(map.entries.len() + 1);
        lines(map, |lines| lines[at].push("0".to_string()))
    }),
    ("a word fewer", Broken, |random, map| {
        let at = random.below(map.entries.len() + 1);
        lines(map, |lines| drop(lines[at].pop()))
    }),
    ("the first line left out", Broken, |_, map| {
        lines(map, |lines| lines.drain(..1).for_each(drop))
    }),
    ("the first line elsewhere", Broken, |random, map| {
        let at = random.between(1, map.entries.len());
        lines(map, |lines| lines[..=at].rotate_left(1))
    }),
    ("the first line twice", Broken, |_, map| {
        lines(map, |lines| lines.insert(0, lines[0].clone()))
    }),
    ("a byte beside the digits", Broken, |random, map| {
        let byte = random.pick(b"/:");
        put(random, map, byte)
    }),
    ("a byte past ASCII", Broken, |random, map| {
        let byte = random.byte() | 0x80;
        put(random, map, byte)
    }),
    ("a zero byte behind", Broken, |_, map| [&spelled(&map)[..], b"\0"].concat()),
    ("an empty text", Broken, |_, _| vec![]),
    ("a bit flipped", Either, |random, map| {
        let mut text = spelled(&map);
        let at = random.below(text.len());
        text[at] ^= 1 << random.below(8);
        text
    }),
    ("cut short", Either, |random, map| {
        let text = spelled(&map);
        text[..random.below(text.len())].to_vec()
    }),
    ("any digits, spaces and line feeds", Either, |random, _| {
        (0..random.below(40)).map(|_| random.pick(b"0123456789 \n")).collect()
    }),
    ("any bytes", Either, |random, _| {
        let count = random.below(40);
        random.bytes(count)
    }),
];

/// The map with a field or the order of its entries drawn anew.
fn changed(random: &mut Random, mut map: Image) -> Image {
    maps::damage_field(random, &mut map);
    map
}

/// The text with its lines changed.
fn lines(map: Image, change: impl FnOnce(&mut Words)) -> Vec<u8> {
    let mut lines = words(&map);
    change(&mut lines);
    joined(&lines)
}

/// The text with any word changed.
fn word(random: &mut Random, map: Image, change: impl FnOnce(&str) -> String) -> Vec<u8> {
    lines(map, |lines| {
        let line = random.below(lines.len());
        let word = random.below(lines[line].len());
        lines[line][word] = change(&lines[line][word]);
    })
}

/// The text with any number changed.
fn number(random: &mut Random, map: Image, change: impl Fn(&mut Random, u64) -> u64) -> Vec<u8> {
    let mut own = Random::new(random.bits());
    let changed = |word: &str| change(&mut own, word.parse().expect("a number")).to_string();
    word(random, map, changed)
}

/// The text with the kind or flags of a partition over 255, by their place in its line. Of most of
/// them the low byte is as it was.
fn over_255(random: &mut Random, map: Image, place: usize) -> Vec<u8> {
    let line = random.between(1, map.entries.len());
    let (high, any) = (256 * random.between(1, 255) as u64, random.between(256, 65_535) as u64);
    lines(map, |lines| {
        let old: u64 = lines[line][place].parse().expect("a number");
        lines[line][place] = random.pick(&[256, 256 + old, high + old, any, 65_535]).to_string();
    })
}

/// The text with other bytes in place of one of its spaces or line feeds.
fn at_a(random: &mut Random, map: Image, byte: u8, new: &[u8]) -> Vec<u8> {
    let text = spelled(&map);
    let places: Vec<usize> = (0..text.len()).filter(|at| text[*at] == byte).collect();
    let at = random.pick(&places);
    [&text[..at], new, &text[at + 1..]].concat()
}

/// The text with more bytes before one of its lines.
fn at_a_line(random: &mut Random, map: Image, more: &[u8]) -> Vec<u8> {
    let line = random.below(map.entries.len() + 1);
    let text = spelled(&map);
    let begins: Vec<&[u8]> = text.split_inclusive(|byte| *byte == b'\n').collect();
    [begins[..line].concat(), more.to_vec(), begins[line..].concat()].concat()
}

/// The text with a byte in place of one of its own, or before it.
fn put(random: &mut Random, map: Image, byte: u8) -> Vec<u8> {
    let mut text = spelled(&map);
    let at = random.below(text.len());
    if random.one_in(2) {
        text[at] = byte;
    } else {
        text.insert(at, byte);
    }
    text
}
