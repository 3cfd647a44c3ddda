//! Document 01, "The small drive", with everything that a call is lent, and what
//! the programs that play on it ask the proved key block and print.

use crate::lent;
use crate::proved::Proved;
use model::{
    Call, Cut, Drive, Erase, Erasure, KeyBlock, Lent, Mail, Order, Reply, Request, Said, Values,
};
use sciambrunola::States;

/// The partition that is a slot; the other one is software.
pub const SLOT: u32 = 0;

/// Its map as the text of document 02, P2.
pub const MAP_TEXT: &str = "12 60\n0 6 0 7\n6 6 1 0\n";

/// The image of its map.
pub const MAP: &[u8; 24] = &[
    0x02, 0x00, 0x0C, 0x00, 0x3C, 0x00, 0x08, 0x00, // P, C, B, E
    0x00, 0x00, 0x06, 0x00, 0x00, 0x07, 0x00, 0x00, // first, n, kind, flags, two zero bytes
    0x06, 0x00, 0x06, 0x00, 0x01, 0x00, 0x00, 0x00,
];

/// Every fuse of the slot's indicator stuck: none of it can be set.
pub const INDICATOR_STUCK: &[(usize, u32)] = &[(4, u32::MAX), (5, u32::MAX)];

/// The drive with no key held and stuck fuses: cells, each with its mark.
pub fn stuck(marks: &[(usize, u32)]) -> Lent {
    let mut drive = Drive::small();
    marks.iter().for_each(|(cell, mark)| drive.marks[*cell] = *mark);
    lent::of(drive)
}

/// What the proved key block answers to the slot's erasure, cut or not.
pub fn erase(lent: &mut Lent, cut: Option<Cut>) -> Said {
    Proved.answer(lent, &Call::Erase(Erase { partition: SLOT, cut }))
}

/// The slot's state and its short pairs, and the partition that the HEK comes from.
pub fn slot(lent: &Lent) -> (&'static str, u32, String) {
    let Drive { image, cells, marks } = &lent.drive;
    let (state, short_pairs) = match sciambrunola::states(image, cells, marks) {
        States::Listed(listing) => listing.get(SLOT).expect("the map has a slot"),
        States::Refused(number) => panic!("the states are refused with {number}"),
    };
    let mut asked = lent.clone();
    Proved.answer(&mut asked, &Call::Mailbox(Request::of(Mail::Fsta, &Values::default())));
    let hek = match response(&asked, 20)[3..] {
        [slot, 1] => slot.to_string(),
        _ => "none".to_string(),
    };
    (state.name(), short_pairs, hek)
}

/// The fields of a response of so many bytes.
pub fn response(lent: &Lent, length: usize) -> Vec<u32> {
    let field = |bytes: &[u8]| u32::from_le_bytes([bytes[0], bytes[1], bytes[2], bytes[3]]);
    lent.response[..length].chunks_exact(4).map(field).collect()
}

/// What an erasure or the mailbox said.
pub fn text(said: Said) -> String {
    let (length, order) = match said {
        Said::Erasure(Erasure::Erased { short_pairs, first_short, burns, new_fuses }) => {
            let first = first_short.map_or(String::new(), |cell| format!(", first {cell}"));
            return format!("short {short_pairs}{first}, burns {burns}, new fuses {new_fuses}");
        }
        Said::Erasure(Erasure::Cut { burns, new_fuses }) => {
            return format!("cut, burns {burns}, new fuses {new_fuses}");
        }
        Said::Erasure(Erasure::Refused { number, burns }) => {
            return format!("refused {number}, burns {burns}");
        }
        Said::Reply(Reply::Accepted { length, order }) => (length, order),
        Said::Taken(Ok(())) => return "taken".to_string(),
        other => return other.refusal().map_or(format!("{other:?}"), |n| format!("refused {n}")),
    };
    match order {
        Order::None => format!("{length} bytes, no order"),
        Order::Clear { timeout } => format!("{length} bytes, clear, timeout {timeout}"),
        Order::Load { place, .. } => format!("{length} bytes, load, place {place}"),
        Order::Unload { place, .. } => format!("{length} bytes, unload, place {place}"),
    }
}
