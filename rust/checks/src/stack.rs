//! The stack that each call of the key block uses, in bytes: as C makes it, and through the safe
//! Rust function, its frame and everything under it included. The second says something in an
//! optimised build alone; of the first the archive decides, however these tests are built.

mod cases;
pub mod table;

use crate::archive::Archive;
use crate::painted::{depth, larger};
use crate::proved::{self, Proved};
use crate::{calls, context};
use cases::Case;
use model::{Call, Cut, Drive, Erase, KeyBlock, Lent, Request, Said};
use sciambrunola::{
    direct, engine_reply, erase, erase_cut, mailbox, make_table, partition, restart, states, why,
    write_map, Command, Context,
};

/// The bytes of stack that a call uses, or the most that some calls do.
#[derive(Clone, Copy, Debug)]
pub struct Used {
    /// Made as C makes it: below its stack arguments, the return address included.
    pub c: usize,
    /// Through the safe Rust function, all of its arguments included.
    pub safe_rust: usize,
}

/// The most that the cases of each row use, the rows by their names and in the table's order.
pub fn of_every_row() -> Vec<(String, Used)> {
    let mut rows: Vec<(String, Used)> = vec![];
    for case in cases::all() {
        let (name, Used { c, safe_rust }) = (named(&case), of(&case));
        match rows.iter_mut().find(|(row, _)| *row == name) {
            Some((_, most)) => {
                *most = Used { c: most.c.max(c), safe_rust: most.safe_rust.max(safe_rust) }
            }
            None => rows.push((name, Used { c, safe_rust })),
        }
    }
    rows
}

/// The row that a call counts under: its name. The mailbox alone has rows for refused commands;
/// there `other` is a code of no command.
pub fn row(call: &Call, said: Said) -> String {
    match (call, said.refusal()) {
        (Call::Mailbox(_), Some(_)) => format!("{} refused", call.name()),
        _ => call.name().to_string(),
    }
}

/// The row of a case, which is measured only if it comes to what it should, on both sides.
fn named(Case { comes_to, lent, call }: &Case) -> String {
    let blocks: [&mut dyn KeyBlock; 2] = [&mut Archive::default(), &mut Proved];
    let said = blocks.map(|block| block.answer(&mut lent.clone(), call));
    for said in said {
        let (came, cells) = (calls::came(call, said), lent.drive.cells.len());
        assert_eq!(came, *comes_to, "the call that is measured, on {cells} cells, is another");
    }
    row(call, said[0])
}

fn of(Case { lent, call, .. }: &Case) -> Used {
    Used { c: as_c_calls(lent, call).2, safe_rust: through_wrapper(lent, call) }
}

/// A call as C makes it: what it said, what it left, and its stack.
pub fn as_c_calls(before: &Lent, call: &Call) -> (Said, Lent, usize) {
    let mut came_to = None;
    let bytes = larger(|paint| {
        let (mut after, mut block) = (before.clone(), Archive { paint, ..Archive::default() });
        let said = block.answer(&mut after, call);
        came_to = Some((said, after));
        block.stack.len()
    });
    let (said, after) = came_to.expect("the call was made");
    (said, after, bytes)
}

/// The stack of the safe Rust function. Each has a closure of its own, so that none is measured
/// in a frame that another one needs; its whole answer is kept, so that no part is left out.
fn through_wrapper(lent: &Lent, call: &Call) -> usize {
    match call {
        Call::Partition(number) => {
            measured(lent, |Lent { drive, .. }, _| partition(&drive.image, *number))
        }
        Call::States => measured(lent, |Lent { drive: Drive { image, cells, marks }, .. }, _| {
            states(image, cells, marks)
        }),
        Call::Why => measured(lent, |Lent { drive: Drive { image, cells, marks }, .. }, _| {
            why(image, cells, marks)
        }),
        Call::Place(number) => measured(lent, |_, context| context.place(*number as usize)),
        Call::WriteMap(text) => measured(lent, |Lent { output, .. }, _| write_map(text, output)),
        Call::Direct(command) => of_direct(lent, proved::given(*command)),
        Call::Erase(erase) => of_erasure(lent, *erase),
        Call::Mailbox(request) => of_mailbox(lent, request),
        Call::EngineReply(reply) => {
            let reply = proved::handed(*reply);
            measured(lent, |_, context| engine_reply(context, reply))
        }
        Call::MakeTable { handles, algorithms } => {
            measured(lent, |_, context| make_table(context, handles, algorithms))
        }
        Call::Restart => measured(lent, |_, context| restart(context)),
    }
}

fn of_direct(lent: &Lent, command: Command) -> usize {
    measured(lent, |Lent { drive: Drive { image, cells, marks }, .. }, context| {
        direct(image, cells, marks, context, command)
    })
}

fn of_erasure(lent: &Lent, Erase { partition, cut }: Erase) -> usize {
    match cut {
        None => measured(lent, |Lent { drive: Drive { image, cells, marks }, .. }, context| {
            erase(image, cells, marks, context, partition)
        }),
        Some(Cut { k, mask }) => measured(lent, |Lent { drive, .. }, context| {
            let Drive { image, cells, marks } = drive;
            erase_cut(image, cells, marks, context, partition, k, mask)
        }),
    }
}

fn of_mailbox(lent: &Lent, Request { code, bytes }: &Request) -> usize {
    measured(lent, |Lent { drive, response, block, .. }, context| {
        let Drive { image, cells, marks } = drive;
        mailbox(image, cells, marks, context, *code, bytes, response, block)
    })
}

/// The stack of a call that finds what is lent, its cache and its table as a context.
fn measured<T>(lent: &Lent, call: impl Fn(&mut Lent, &mut Context) -> T) -> usize {
    let new = || (lent.clone(), context::of(lent), None);
    depth(new, |(lent, context, answer)| *answer = Some(call(lent, context)))
}
