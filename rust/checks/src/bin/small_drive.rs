//! Document 01, "The small drive": its cases, and the messages of document 02's P6, played on the
//! proved key block, with a line for each call: what it is asked and answers, the fields of the
//! response, and the slot as it then stands.

use checks::calls::commands::low_bits;
use checks::proved::Proved;
use checks::small::{erase, response, slot, stuck, text};
use model::{Call, Cut, EngineReply, KeyBlock, Lent, Mail, Reply, Request, Said, Values};
use Ask::{CutAt, Done, Erase, Send};

/// What is asked for.
#[derive(Clone, Copy)]
enum Ask {
    /// A mailbox command with a partition, a timeout, a tag or a handle.
    Send(Mail, u32),
    /// The engine's reply to the order of such a command.
    Done,
    /// The erasure of the slot.
    Erase,
    /// The same cut at a burn, with so many low bits burned.
    CutAt(u32, u32),
}

const FERS_0: Ask = Send(Mail::Fers, 0);
const FSTA: Ask = Send(Mail::Fsta, 0);

/// The number of the case, a cell and the mark on it, and what is asked for.
const CASES: [(usize, (usize, u32), &[Ask]); 12] = [
    (1, (0, 0), &[FSTA]),
    (2, (0, 0), &[FERS_0]),
    (2, (0, 0), &[Erase]),
    (3, (1, 0x0F), &[FERS_0]),
    (4, (1, 0x1F), &[FERS_0, FSTA]),
    (5, (5, 0x1F), &[FERS_0]),
    (6, (0, 0), &[CutAt(0, 59)]),
    (6, (0, 0), &[CutAt(0, 60)]),
    (7, (0, 0), &[CutAt(1, 32), FERS_0]),
    (8, (0, 0), &[Send(Mail::Fers, 1)]),
    (8, (0, 0), &[Send(Mail::Fers, 2)]),
    (9, (0, 0), &[Send(Mail::Clkc, 1000)]),
];

fn main() {
    for (number, (cell, mark), asked) in CASES {
        let mut lent = stuck(&[(cell, mark)]);
        for ask in asked {
            println!("case {number}, mark {mark:02X} on cell {cell}: {}", line(&mut lent, *ask));
        }
    }
    // Sixteen loads and a seventeenth, a held tag, place 3's tag unloaded, a load; "each order is
    // answered done".
    let mut lent = stuck(&[]);
    let loads = (100..117).chain([107]).map(|tag| (Mail::Klod, tag));
    for (command, tag) in loads.chain([(Mail::Kunl, 103), (Mail::Klod, 117)]) {
        println!("case 10: {}", line(&mut lent, Send(command, tag)));
        if lent.cache.awaited.is_some() {
            println!("case 10: {}", line(&mut lent, Done));
        }
    }
    // A handle is rotated, and is no handle any more.
    for (command, handle) in [(Mail::Ehdl, 0), (Mail::Rhpk, 9), (Mail::Rhpk, 9), (Mail::Ehdl, 0)] {
        println!("table: {}", line(&mut lent, Send(command, handle)));
    }
}

/// Asks the key block, and tells all that followed.
fn line(lent: &mut Lent, ask: Ask) -> String {
    let (asked, said) = match ask {
        Send(command, number) => mail(lent, command, number),
        Done => {
            let done = Call::EngineReply(EngineReply::Done);
            ("engine done".to_string(), Proved.answer(lent, &done))
        }
        Erase => ("erasure".to_string(), erase(lent, None)),
        CutAt(k, low) => {
            let cut = Cut { k, mask: low_bits(low) };
            (format!("erasure cut at {k}, low {low} bits"), erase(lent, Some(cut)))
        }
    };
    let fields = match said {
        Said::Reply(Reply::Accepted { length, .. }) => format!(" {:X?}", response(lent, length)),
        _ => String::new(),
    };
    let (answer, (state, short, hek)) = (text(said), slot(lent));
    let cells = &lent.drive.cells[..6];
    format!("{asked}: {answer}{fields}; {state}, {short} short, hek {hek}, {cells:X?}")
}

fn mail(lent: &mut Lent, command: Mail, number: u32) -> (String, Said) {
    let (tag, values) = (number.into(), Values::default());
    let (values, given) = match command {
        Mail::Clkc => (Values { timeout: number, ..values }, format!("timeout {number}")),
        Mail::Fers => (Values { partition: number, ..values }, format!("partition {number}")),
        Mail::Fsta => (values, "status".to_string()),
        Mail::Ehdl => (values, "list".to_string()),
        Mail::Rhpk => (Values { handle: number, ..values }, format!("handle {number}")),
        Mail::Klod | Mail::Kunl => (Values { tag, ..values }, format!("tag {number}")),
    };
    let request = Request::of(command, &values);
    let asked = format!("{} {:08X}, {given}", command.name(), request.right_chksum());
    (asked, Proved.answer(lent, &Call::Mailbox(request)))
}
