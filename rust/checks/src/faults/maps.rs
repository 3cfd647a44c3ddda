//! Faults of a map that is written.

use model::{text, Call, KeyBlock, Lent, Model, Refusal, Said};

/// Faults of document 02's P2.
pub const OF_MAPS: [&str; 15] = [
    "a leading zero accepted",
    "a number in 16 bits",
    "the low byte of kind and flags taken",
    "a doubled space accepted",
    "\\r\\n accepted",
    "a missing last line feed accepted",
    "an empty last line accepted",
    "no partition line for another form",
    "a seventeenth partition for another form",
    "1 before 16",
    "room asked for one partition less",
    "C and B exchanged",
    "E of 128",
    "a refusal writes",
    "a byte behind the image written",
];

/// The text that a fault takes for another one.
pub(super) fn taken_for(fault: &str, text: &[u8]) -> Vec<u8> {
    let text = match std::str::from_utf8(text) {
        Ok(text) => text,
        Err(_) => return text.to_vec(),
    };
    match fault {
        "a leading zero accepted" => each_word(text, |_, _, word| {
            let digits = word.trim_start_matches('0');
            if digits.is_empty() { &word[..word.len().min(1)] } else { digits }.to_string()
        }),
        "a number in 16 bits" => each_word(text, |_, _, word| {
            word.parse().map_or(word.to_string(), |number: u64| (number % 65_536).to_string())
        }),
        "the low byte of kind and flags taken" => each_word(text, |line, place, word| {
            let number = word.parse().ok().filter(|_| line > 0 && place > 1);
            number.map_or(word.to_string(), |number: u64| (number % 256).to_string())
        }),
        "a doubled space accepted" => text.replace("  ", " "),
        "\\r\\n accepted" => text.replace("\r\n", "\n"),
        "a missing last line feed accepted" if !text.ends_with('\n') => format!("{text}\n"),
        "an empty last line accepted" => text.replace("\n\n", "\n"),
        _ => text.to_string(),
    }
    .into_bytes()
}

/// The text with each word changed, by its line and its place in it.
fn each_word(text: &str, change: fn(usize, usize, &str) -> String) -> String {
    let line = |(line, words): (usize, &str)| {
        let words = words.split(' ').enumerate().map(|(place, word)| change(line, place, word));
        words.collect::<Vec<_>>().join(" ")
    };
    text.split('\n').enumerate().map(line).collect::<Vec<_>>().join("\n")
}

/// What is said of a map that is written, none if it is right; what it left is changed.
pub(super) fn written(
    fault: &str,
    text: &[u8],
    [refusal, bytes]: [u32; 2],
    lent: &mut Lent,
) -> Option<Said> {
    let lines = text.iter().filter(|byte| **byte == b'\n').count();
    match (fault, refusal) {
        ("no partition line for another form", 1) if lines == 1 => return said([16, 0]),
        ("a seventeenth partition for another form", 1) if lines > 17 => return said([16, 0]),
        ("1 before 16", 16)
            if text::applying(text, lent.output.len()).contains(&Refusal::BadMap) =>
        {
            return said([1, 0]);
        }
        ("room asked for one partition less", 16) => {
            let room = lent.output.len();
            let mut more = Lent { output: vec![0; room + 8], ..Lent::default() };
            let said = Model.answer(&mut more, &Call::WriteMap(text.to_vec()));
            lent.output.copy_from_slice(&more.output[..room]);
            return Some(said);
        }
        ("the answer: the model says Written(", 16) => return said([1, 0]),
        ("C and B exchanged", 0) => lent.output[2..6].rotate_left(2),
        ("E of 128", 0) => lent.output[6] = 128,
        ("output byte 8: ", 0) => lent.output[8] ^= 1,
        ("a refusal writes", 1 | 16) => lent.output.iter_mut().take(1).for_each(flip),
        ("a byte behind the image written", 0) => {
            lent.output.iter_mut().skip(bytes as usize).take(1).for_each(flip);
        }
        _ => {}
    }
    None
}

fn said(written: [u32; 2]) -> Option<Said> {
    Some(Said::Written(written))
}

fn flip(byte: &mut u8) {
    *byte ^= 1;
}
