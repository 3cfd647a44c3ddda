//! Document 02, P2: the text of a map becomes an image. The small drive's map byte for byte,
//! through the library, the program `make_map` and `make_drive`; generated texts, good ones and
//! ones damaged at every kind of place, through the library, as safe Rust and as C call it; and
//! texts of more lines than 16 bits count.

use checks::archive::Archive;
use checks::calls::difference;
use checks::faults::{Faulty, OF_MAPS};
use checks::proved::Proved;
use checks::random::Random;
use checks::runner::{in_repository, program, streams};
use checks::small::{MAP, MAP_TEXT};
use checks::tally::Tally;
use checks::texts::{self, Form, Text};
use model::text::Fields;
use model::{Call, Drive, KeyBlock, Lent, Model, Said};
use sciambrunola::LONGEST_IMAGE;
use std::fs;

/// Texts of a run, and those in which a fault has to be found.
const TEXTS: usize = 400_000;
const FEW: usize = 20_000;
/// Each kind of damage and each outcome has to be met so often.
const LEAST: usize = 100;

/// A buffer that holds anything, with this room.
fn lent(seed: usize, room: usize) -> Lent {
    Lent { output: Random::new(seed as u64).bytes(room), ..Lent::default() }
}

/// Both ways to call the library.
fn both() -> [Box<dyn KeyBlock>; 2] {
    [Box::new(Proved), Box::<Archive>::default()]
}

/// What a key block answers and leaves in a buffer, or where it differs from the model: in the
/// answer, or in any byte of the buffer.
fn compared(block: &mut dyn KeyBlock, number: usize) -> Result<(Text, Said, Lent), String> {
    let text = Text::numbered(number);
    let (call, before) = (Call::WriteMap(text.bytes.clone()), lent(number, text.room));
    let (mut expected, mut found) = (before.clone(), before);
    let said = Model.answer(&mut expected, &call);
    let answered = block.answer(&mut found, &call);
    match difference((said, &expected), (answered, &found)) {
        Some(what) => Err(format!("text {number}, room {}: {call}\n{what}", text.room)),
        None => Ok((text, said, found)),
    }
}

/// "reading that image gives the same fields": the library's own reading, of every partition.
fn reads_back(text: &[u8], image: &[u8]) -> bool {
    let Fields { first_line: [cells, bound], partitions } = Fields::read(text).expect("the form");
    let drive = Drive { image: image.to_vec(), ..Drive::default() };
    let mut lent = Lent { drive, ..Lent::default() };
    let count = partitions.len() as u32;
    let mut told = |number| Proved.answer(&mut lent, &Call::Partition(number));
    let same = partitions.iter().zip(0..).all(|(fields, number)| {
        let [cells, bound] = [cells, bound].map(u32::from);
        let [first, n, kind, flags] = fields.map(u32::from);
        told(number) == Said::Fields([0, count, cells, bound, first, n, kind, flags])
    });
    same && told(count).refusal() == Some(7) && image.get(6..8) == Some(&[8, 0])
}

#[test]
fn library_is_the_models_on_generated_texts_damaged_at_every_kind_of_place() {
    let total = Tally::over(TEXTS, |tally, number| {
        for block in &mut both() {
            let (text, said, after) =
                compared(block.as_mut(), number).unwrap_or_else(|found| panic!("{found}"));
            // What the damage says, whatever the model does.
            let has_form = Fields::read(&text.bytes).is_some();
            let expected = text.form == Form::Either || has_form == (text.form == Form::Kept);
            assert!(expected, "text {number}, {:?}: {:?}", text.kinds, text.form);
            if let Said::Written([0, bytes]) = said {
                assert!(reads_back(&text.bytes, &after.output[..bytes as usize]), "text {number}");
            }
        }
        tally.add(Text::numbered(number).met());
    });
    total.check((TEXTS, "texts"), texts::possible(), LEAST);
}

#[test]
fn every_fault_is_found() {
    let compare = |fault| (0..FEW).try_for_each(|n| compared(&mut Faulty(fault), n).map(drop));
    assert_eq!(compare("none"), Ok(()));
    for fault in OF_MAPS {
        assert!(compare(fault).is_err(), "not found: {fault}");
    }
}

/// What the library answers, the same both ways, and the buffer that it leaves.
fn asked(text: &[u8], room: usize) -> ([u32; 2], Vec<u8>) {
    let call = Call::WriteMap(text.to_vec());
    let [safe, c] = both().map(|mut block| {
        let mut lent = lent(0, room);
        (block.answer(&mut lent, &call), lent.output)
    });
    assert_eq!(safe, c);
    match safe {
        (Said::Written(written), output) => (written, output),
        (other, _) => panic!("{other:?}"),
    }
}

/// A refusal with this number, and the buffer as it was.
fn check_refused(text: &[u8], room: usize, number: u32) {
    let expected = ([number, 0], lent(0, room).output);
    assert!(asked(text, room) == expected, "{number} for {} bytes, room {room}", text.len());
}

#[test]
fn the_small_drives_text_is_its_map_byte_for_byte_and_makes_the_status_programs_input() {
    for room in [24, 25, LONGEST_IMAGE] {
        let (written, output) = asked(MAP_TEXT.as_bytes(), room);
        assert_eq!((written, &output[..24]), ([0, 24], &MAP[..]));
        assert_eq!(output[24..], lent(0, room).output[24..], "room {room}");
    }
    for room in [0, 7, 8, 16, 23] {
        check_refused(MAP_TEXT.as_bytes(), room, 16);
    }
    assert_eq!(streams(&program("make_map"), &[MAP_TEXT.as_bytes()]), [MAP.to_vec(), vec![]]);
    let read =
        |path| fs::read(in_repository(path)).unwrap_or_else(|error| panic!("{path}: {error}"));
    let text = String::from_utf8(read("drives/programmed.txt")).expect("the sample is a text");
    let drive = drives::Drive::read(&text).expect("the sample is a drive");
    assert_eq!((drive.image(), drive.bytes()), (&MAP[..], read("crates/status/stdin")));
}

/// 17 partitions are 1 with room for them, and so are as many as 16 bits cannot count; a count in
/// 16 bits would ask for the last rooms.
#[test]
fn more_lines_than_a_map_has_are_1_with_the_room_and_16_without() {
    for count in [17, 18, 255, 256, 257, 65_535, 65_536, 65_537, 65_552] {
        let text = texts::spelled(&texts::row(count));
        for room in [8 + 8 * count, 9 + 8 * count] {
            check_refused(&text, room, 1);
        }
        for room in [0, 8, LONGEST_IMAGE, 8 * count, 7 + 8 * count] {
            check_refused(&text, room, 16);
        }
        for room in [count % 65_536, count % 256].map(|low| 8 + 8 * low) {
            check_refused(&text, room, if room < 8 + 8 * count { 16 } else { 1 });
        }
    }
}
