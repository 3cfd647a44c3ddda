//! The sample drives of `drives/`: what `status` and `why` print for each, or the mistake that
//! `make_drive` finds in it, is what stands beside it; and what an erasure, a cut or ZEROIZE is
//! said to have told or left is what the library tells and leaves.

use checks::calls::commands::low_bits;
use checks::programs::{both, map_made, printed, PROGRAMS};
use checks::proved::Proved;
use checks::runner::in_repository;
use drives::Drive;
use model::{Answer, Call, Command, Cut, Erase, KeyBlock, Lent, Map, Said};
use std::collections::BTreeSet;
use std::fs;

/// The samples of other drives than the small one, with the partitions that were erased.
const OF_OTHERS: [(&str, &[usize]); 5] = [
    ("customers_number", &[0]),
    ("older_guide", &[0, 1]),
    ("torn_slot_first", &[0]),
    ("torn_slot_second", &[0, 1]),
    ("two_slots", &[0, 3, 4]),
];

/// The samples that no erasure has touched.
const UNTOUCHED: [&str; 3] = ["fresh", "no_slot", "programmed"];

/// The names of the files in `drives/` that end so.
fn names(ending: &str) -> BTreeSet<String> {
    let files = fs::read_dir(in_repository("drives")).expect("the samples' folder can be read");
    let names = files.map(|file| file.expect("the folder can be read").file_name());
    let names = names.map(|name| name.into_string().expect("a file's name is text"));
    names.filter_map(|name| name.strip_suffix(ending).map(str::to_string)).collect()
}

/// A file in `drives/`.
fn text(file: &str) -> String {
    let path = in_repository("drives").join(file);
    fs::read_to_string(&path).unwrap_or_else(|error| panic!("{}: {error}", path.display()))
}

fn drive(name: &str) -> Drive {
    Drive::read(&text(&format!("{name}.txt"))).unwrap_or_else(|error| panic!("{name}: {error}"))
}

/// The samples with a mistake, which are no drives.
fn mistaken() -> BTreeSet<String> {
    names(".mistake")
}

/// The samples that are drives.
fn samples() -> BTreeSet<String> {
    &names(".txt") - &mistaken()
}

#[test]
fn programs_print_what_stands_beside_each_text_which_begins_with_what_happened() {
    for (program, _) in PROGRAMS {
        assert_eq!(samples(), names(&format!(".{program}")));
        for name in samples() {
            let printed = printed(program, &drive(&name).bytes());
            assert_eq!(printed, text(&format!("{name}.{program}")), "{name}, {program}");
        }
    }
    for name in names(".txt") {
        assert!(text(&format!("{name}.txt")).starts_with("# "), "{name}: what happened");
    }
}

#[test]
fn make_drive_tells_the_mistake_that_stands_beside_a_text() {
    assert_eq!(mistaken(), BTreeSet::from(["refused_map".to_string()]));
    for name in mistaken() {
        let mistake = Drive::read(&text(&format!("{name}.txt"))).expect_err("it has a mistake");
        assert_eq!(format!("make_drive: {mistake}\n"), text(&format!("{name}.mistake")), "{name}");
    }
}

/// The map's lines begin with a digit, and no others do.
#[test]
fn make_map_makes_the_map_of_each_text_from_its_lines() {
    for name in samples() {
        let whole = text(&format!("{name}.txt"));
        let of_map = |line: &&str| line.starts_with(|first: char| first.is_ascii_digit());
        let lines: String = whole.split_inclusive('\n').filter(of_map).collect();
        assert_eq!(
            map_made(&[lines.as_bytes()]),
            [drive(&name).image().to_vec(), vec![]],
            "{name}"
        );
    }
}

/// Its slot is not secret: flags 5, at byte 13, and all else is the small drive's.
#[test]
fn programs_refuse_the_bytes_of_the_refused_map() {
    let right = text("refused_map.txt").replace("0 6 0 5\n", "0 6 0 7\n");
    let mut small = model::drive::Drive::small();
    assert_eq!(Drive::read(&right).map(|drive| drive.bytes()), Ok(small.status_input()));
    small.image[13] = 5;
    assert_eq!(both(&small.status_input()), ["refused 1\n"; 2]);
}

/// A row is `| name | what happened | lines of the table | line of why |`, the name and
/// each of the lines in backticks; each output's last line is the last of its column. A sample
/// with a mistake has no output.
#[test]
fn table_has_a_row_for_each_sample_and_quotes_its_outputs() {
    let readme = text("README.md");
    let rows = readme.lines().filter_map(|line| line.strip_prefix("| `"));
    let mut named = BTreeSet::new();
    for row in rows {
        let columns: Vec<&str> = row.trim_end_matches(" |").split(" | ").collect();
        let [name, _, table, line]: [&str; 4] = columns.try_into().expect("four columns");
        let name = name.strip_suffix('`').expect("the name is in backticks");
        for (program, column) in [("status", table), ("why", line)] {
            let is_drive = !mistaken().contains(name);
            let output = if is_drive { text(&format!("{name}.{program}")) } else { String::new() };
            let quoted: Vec<&str> = column.split('`').skip(1).step_by(2).collect();
            assert!(quoted.iter().all(|quote| output.lines().any(|line| line == *quote)), "{name}");
            assert_eq!(quoted.last().copied(), output.lines().last(), "{name}, {program}");
        }
        assert!(named.insert(name.to_string()), "{name} twice");
    }
    assert_eq!(named, names(".txt"));
}

/// A sample's map and marks with these cells, to be lent.
fn lent(sample: &Drive, cells: &[u32]) -> Lent {
    let (image, marks) = (sample.image().to_vec(), sample.marks().to_vec());
    let drive = model::drive::Drive { image, cells: cells.to_vec(), marks };
    Lent { drive, ..Lent::default() }
}

/// The cells that a call leaves, on a sample's map and marks.
fn left(sample: &Drive, cells: &[u32], partition: u32, cut: Option<Cut>) -> Vec<u32> {
    let mut lent = lent(sample, cells);
    Proved.answer(&mut lent, &Call::Erase(Erase { partition, cut }));
    lent.drive.cells
}

/// "every ZEROIZE told all ones": of the slot's three pairs, and of partition 1's two single cells
/// and two pairs. The new fuses are told as they are, but for the slot, which is secret.
#[test]
fn each_word_of_the_board_on_the_older_guide_is_told_as_all_ones() {
    let sample = drive("older_guide");
    let mut lent = lent(&sample, &[0; 12]);
    let of_slot = [(0, 64, 0), (2, 64, 0), (4, 64, 0)];
    let others = [(6, 32, 27), (7, 32, 32), (8, 64, 64), (10, 64, 64)];
    for (cell, width, new_fuses) in of_slot.into_iter().chain(others) {
        let said = Proved.answer(&mut lent, &Call::Direct(Command::Zeroize { cell }));
        let told = Answer::Word { word: low_bits(width), new_fuses };
        assert_eq!(said, Said::Answer(told), "cell {cell}");
    }
    assert_eq!(lent.drive.cells, sample.cells());
}

/// Every other sample is one that an erasure of the small drive's slot leaves, with the sample's
/// stuck fuses: accepted or refused, or cut at the burn and with the low fuses that its name says.
#[test]
fn erasures_of_the_small_drive_leave_the_samples_cells() {
    let small = drive("programmed");
    assert_eq!(small.bytes(), model::drive::Drive::small().status_input());
    let other = |name: &String| OF_OTHERS.iter().any(|(other, _)| other == name);
    let samples = samples().into_iter().filter(|name| !other(name));
    for name in samples.filter(|name| !UNTOUCHED.contains(&name.as_str())) {
        let sample = drive(&name);
        assert_eq!(sample.image(), small.image(), "{name}");
        let cut = name.strip_prefix("cut_").and_then(|cut| cut.split_once("_at_"));
        let number = |digits: &str| digits.parse().expect("a number in the name");
        let cut = cut.map(|(k, low)| Cut { k: number(k), mask: low_bits(number(low)) });
        assert_eq!(left(&sample, small.cells(), 0, cut), sample.cells(), "{name}");
    }
}

#[test]
fn erasures_of_other_drives_leave_the_samples_cells() {
    for (name, partitions) in OF_OTHERS {
        let sample = drive(name);
        let map = Map::read(sample.image()).unwrap_or_else(|| panic!("{name}: a bad map"));
        let mut cells = sample.cells().to_vec();
        for &partition in partitions {
            cells[map.entries()[partition].range()].fill(0);
            cells = left(&sample, &cells, partition as u32, None);
        }
        assert_eq!(cells, sample.cells(), "{name}");
    }
}
