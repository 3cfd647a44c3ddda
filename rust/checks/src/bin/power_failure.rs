//! What a power failure leaves: the erasure of the small drive's slot, cut at each of its burns
//! with several parts of the word burned, and erased again. Played on the proved key block, on the
//! drives of cases 2, 4 and 5 of document 01, "The small drive", and where every fuse of the
//! indicator is stuck. After the last erasure the slot is erased if no pair is short or the first
//! short cell is 4, the indicator's; otherwise it is torn, or, after 15, what it was.

use checks::calls::commands::low_bits;
use checks::small::{self, SLOT};
use model::erasure::order;
use model::{fuse, Cut, Lent, Part, Word};

/// Parts of a word that may have burned when the power fails: 59 and 60 fuses
/// are those around the bound.
const MASKS: [(&str, u32); 5] =
    [("none", 0), ("low 32", 32), ("low 59", 59), ("low 60", 60), ("all 64", 64)];

fn main() {
    table("no stuck fuse", &[]);
    table("mark 1F on cell 1: word 0 cannot have more than 59 ones", &[(1, 0x1F)]);
    table("mark 1F on cell 5: the indicator cannot have more than 59 ones", &[(5, 0x1F)]);
    let stuck = "mark FFFFFFFF on cells 4 and 5: the indicator cannot have a one";
    table(stuck, small::INDICATOR_STUCK);
}

/// A header, and a line for each burn and mask.
fn table(drive: &str, marks: &[(usize, u32)]) {
    println!("small drive, bound 60, {drive}");
    let names = ["burn", "word", "mask", "answer", "word after", "state", "short", "hek"];
    println!("{} erased again: state", row(names));
    let map = small::stuck(marks).drive.map().expect("the small drive's map is good");
    for (k, word) in (0..).zip(order(&map, SLOT as usize)) {
        for (name, bits) in MASKS {
            let cut = Cut { k, mask: low_bits(bits) };
            println!("{}", line(small::stuck(marks), cut, word, name));
        }
    }
}

/// The drive after a cut, what the next erasure answers, and the slot's state after that.
fn line(mut lent: Lent, cut: Cut, (cell, word): (usize, Word), mask: &str) -> String {
    let answered = small::text(small::erase(&mut lent, Some(cut)));
    let after = format!("{:016X}", fuse::word(&lent.drive.cells, cell, word.size));
    let (state, short, hek) = small::slot(&lent);
    let part = match word.part {
        Part::Data => "data",
        Part::Digest => "digest",
        Part::Indicator => "indicator",
    };
    let (k, word, short) = (cut.k.to_string(), format!("{part} {cell}"), short.to_string());
    let columns = [k.as_str(), &word, mask, &answered, &after, state, &short, &hek];
    let row = row(columns);
    let again = small::text(small::erase(&mut lent, None));
    let (state, ..) = small::slot(&lent);
    format!("{row} {again}: {state}")
}

fn row([k, word, mask, answer, after, state, short, hek]: [&str; 8]) -> String {
    format!("{k:<4} {word:<11} {mask:<6} {answer:<27} {after:<16} {state:<10} {short:<5} {hek:<4}")
}
