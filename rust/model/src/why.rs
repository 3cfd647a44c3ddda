//! Document 02, P1, "Tell the desk why": why a drive offers no key, and the line that the
//! program `why` prints.

use crate::drive::Drive;
use crate::map::Map;
use crate::partition::{Partition, State};
use crate::{fuse, reading, refusal, status};

/// P1: "She wants the reason", of a blank or torn slot "both with the partition".
#[derive(Clone, Copy, Debug, PartialEq, Eq)]
pub enum Reason {
    /// "none when the HEK is available"
    Available,
    /// "the map has no slot"
    NoSlot,
    /// "it has some and all are erased"
    AllErased,
    /// "the active slot is blank"
    Blank {
        /// The active slot's partition.
        partition: u32,
    },
    /// "or it is torn"
    Torn {
        /// The active slot's partition.
        partition: u32,
        /// "its first short pair", named by its first cell in the whole array. P4: "P1 passes
        /// over the indicator when it names a short pair."
        cell: u32,
        /// "that pair's ones"
        ones: u32,
    },
}

/// P1: the reason, or the number of the refusal.
pub fn why(drive: &Drive) -> Result<Reason, u32> {
    match (drive.map(), refusal::first(&reading::applying(drive))) {
        (Some(map), None) => Ok(reason(&map, &drive.cells)),
        (_, number) => Err(number.expect("a bad map is refused")),
    }
}

/// P1: "Each is given exactly when it holds, and none when the HEK is available. Walk the
/// slots until the first that is not erased."
fn reason(map: &Map, cells: &[u32]) -> Reason {
    let mut walked = Reason::NoSlot;
    for (number, _) in map.entries().iter().enumerate().filter(|(_, entry)| entry.slot()) {
        let (slot, partition) = (Partition::of(map, number, cells), number as u32);
        match slot.state() {
            State::Erased => walked = Reason::AllErased,
            State::Programmed => return Reason::Available,
            State::Blank => return Reason::Blank { partition },
            State::Torn => {
                let first = slot.lowest_short_besides_indicator();
                let first = first.expect("a torn slot has a short pair besides its indicator");
                let ones = fuse::ones([cells[first], cells[first + 1]]);
                return Reason::Torn { partition, cell: first as u32, ones };
            }
        }
    }
    walked
}

/// What the program `why` prints for this standard input, which is the status program's.
pub fn output(input: &[u8]) -> Vec<u8> {
    status::printed(input, line)
}

/// The reason as a line for the desk, which sees "hek none" in the status program's table:
/// this line goes on from there, in words of ours.
fn line(map: &Map, cells: &[u32]) -> String {
    let active = |partition| format!("none: the active slot, partition {partition}, is");
    let told = match reason(map, cells) {
        Reason::Available => "available".to_string(),
        Reason::NoSlot => "none: the map has no slot".to_string(),
        Reason::AllErased => "none: every slot is erased".to_string(),
        Reason::Blank { partition } => active(partition) + " blank: it holds no seed",
        Reason::Torn { partition, cell, ones } => {
            let pair = format!(" torn: the pair at cell {cell} has {ones} of 64 fuses set");
            active(partition) + &pair + &format!(", at least {} are needed", map.bound())
        }
    };
    format!("hek {told}\n")
}
