//! The proved key block, called through its safe Rust functions: the one place
//! that makes a `Said` from their answers to a `Call`.

use crate::context;
use model::{
    Answer, Call, Command, Cut, Drive, EngineReply, Erase, Erasure, KeyBlock, Lent, Order, Reason,
    Reply, Said, PARTITIONS,
};
use sciambrunola as proved;
use sciambrunola::{Context, Fields, States};

/// The proved key block.
pub struct Proved;

impl KeyBlock for Proved {
    fn answer(&mut self, lent: &mut Lent, call: &Call) -> Said {
        let mut context = context::of(lent);
        let said = answer(lent, &mut context, call);
        context::take_back(lent, &context);
        said
    }
}

/// The same with a context that the caller keeps, in place of the lent cache and table.
#[inline]
pub fn answer(lent: &mut Lent, context: &mut Context, call: &Call) -> Said {
    let Drive { image, cells, marks } = &mut lent.drive;
    match call {
        Call::Partition(number) => Said::Fields(fields(proved::partition(image, *number))),
        Call::States => Said::Listing(match proved::states(image, cells, marks) {
            States::Refused(number) => [number, 0],
            States::Listed(listing) => listed(lent, &listing),
        }),
        Call::Why => Said::Reason(reason_of(proved::why(image, cells, marks))),
        Call::WriteMap(text) => Said::Written(written(proved::write_map(text, &mut lent.output))),
        Call::Place(number) => Said::Place(context::place(context.place(*number as usize)).told()),
        Call::Direct(command) => {
            Said::Answer(answer_of(proved::direct(image, cells, marks, context, given(*command))))
        }
        Call::Erase(Erase { partition, cut }) => Said::Erasure(erasure_of(match *cut {
            None => proved::erase(image, cells, marks, context, *partition),
            Some(Cut { k, mask }) => {
                proved::erase_cut(image, cells, marks, context, *partition, k, mask)
            }
        })),
        Call::Mailbox(request) => {
            let (code, bytes) = (request.code, &request.bytes);
            let Lent { block, response, .. } = lent;
            Said::Reply(reply_of(proved::mailbox(
                image, cells, marks, context, code, bytes, response, block,
            )))
        }
        Call::EngineReply(reply) => Said::Taken(proved::engine_reply(context, handed(*reply))),
        Call::MakeTable { handles, algorithms } => {
            Said::Made(proved::make_table(context, handles, algorithms))
        }
        Call::Restart => {
            proved::restart(context);
            Said::Nothing
        }
    }
}

fn fields(told: Fields) -> [u32; 8] {
    match told {
        Fields::Refused(number) => [number, 0, 0, 0, 0, 0, 0, 0],
        Fields::Partition { partitions, cells, bound, first, length, kind, flags } => {
            [0, partitions, cells, bound, first, length, kind, flags]
        }
    }
}

/// Puts down what is listed where the archive's own call would.
fn listed(lent: &mut Lent, listing: &proved::Listing) -> [u32; 2] {
    for partition in 0..PARTITIONS {
        if let Some((state, short_pairs)) = listing.get(partition as u32) {
            (lent.states[partition], lent.short_pairs[partition]) = (state as u32, short_pairs);
        }
    }
    [0, listing.len()]
}

fn written(told: Result<usize, u32>) -> [u32; 2] {
    match told {
        Ok(bytes) => [0, bytes as u32],
        Err(number) => [number, 0],
    }
}

fn reason_of(reason: proved::Reason) -> Result<Reason, u32> {
    Ok(match reason {
        proved::Reason::Available => Reason::Available,
        proved::Reason::NoSlot => Reason::NoSlot,
        proved::Reason::AllErased => Reason::AllErased,
        proved::Reason::Blank { partition } => Reason::Blank { partition },
        proved::Reason::Torn { partition, cell, ones } => Reason::Torn { partition, cell, ones },
        proved::Reason::Refused(number) => return Err(number),
    })
}

/// The wrapper's own command.
pub fn given(command: Command) -> proved::Command {
    match command {
        Command::Read { cell } => proved::Command::Read { cell },
        Command::Write { cell, value } => proved::Command::Write { cell, value },
        Command::Zeroize { cell } => proved::Command::Zeroize { cell },
    }
}

/// The wrapper's own reply of the engine.
pub fn handed(reply: EngineReply) -> proved::EngineReply {
    match reply {
        EngineReply::Done => proved::EngineReply::Done,
        EngineReply::TimedOut => proved::EngineReply::TimedOut,
        EngineReply::Failed(vendor) => proved::EngineReply::Failed(vendor),
    }
}

fn answer_of(answer: proved::Answer) -> Answer {
    match answer {
        proved::Answer::Word { word, new_fuses } => Answer::Word { word, new_fuses },
        proved::Answer::Done => Answer::Done,
        proved::Answer::Withheld => Answer::Withheld,
        proved::Answer::Refused(number) => Answer::Refused(number),
    }
}

fn erasure_of(erasure: proved::Erasure) -> Erasure {
    match erasure {
        proved::Erasure::Ended { short_pairs, first_short, burns, new_fuses } => {
            Erasure::Erased { short_pairs, first_short, burns, new_fuses }
        }
        proved::Erasure::Cut { burns, new_fuses } => Erasure::Cut { burns, new_fuses },
        proved::Erasure::Refused { number, burns } => Erasure::Refused { number, burns },
    }
}

fn reply_of(reply: proved::Reply) -> Reply {
    match reply {
        proved::Reply::Refused(number) => Reply::Refused(number),
        proved::Reply::Accepted { length, order } => Reply::Accepted {
            length,
            order: match order {
                proved::Order::None => Order::None,
                proved::Order::Clear { timeout } => Order::Clear { timeout },
                proved::Order::Load { place, timeout } => Order::Load { place, timeout },
                proved::Order::Unload { place, timeout } => Order::Unload { place, timeout },
            },
        },
    }
}
