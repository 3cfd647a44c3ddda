//! The plain Rust as a key block.

use crate::plain::{self, Buffers, Drive, Entry, Erased, Header, Kept};
use model::{Call, Erase, Erasure, KeyBlock, Lent, Model, Reply, Said, State, PARTITIONS};

/// The plain Rust. It has no direct commands, no cuts, no restart, no making of a table and no
/// call for a place: those are the model's own.
pub struct Plain;

impl KeyBlock for Plain {
    #[inline]
    fn answer(&mut self, lent: &mut Lent, call: &Call) -> Said {
        let Lent { drive, cache, table, response, block, output, .. } = lent;
        let mut drive = Drive { image: &drive.image, cells: &mut drive.cells, marks: &drive.marks };
        match call {
            Call::Partition(number) => Said::Fields(fields(drive.image, *number)),
            Call::States => Said::Listing(list(lent)),
            Call::Why => Said::Reason(plain::why(drive.image, drive.cells, drive.marks)),
            Call::WriteMap(text) => Said::Written(match plain::write_map(text, output) {
                Ok(bytes) => [0, bytes as u32],
                Err(number) => [number, 0],
            }),
            Call::Erase(Erase { partition, cut: None }) => {
                Said::Erasure(match plain::erase(&mut drive, cache, *partition) {
                    Ok(Erased { short_pairs, first_short, burns, new_fuses }) => {
                        Erasure::Erased { short_pairs, first_short, burns, new_fuses }
                    }
                    Err(number) => Erasure::Refused { number, burns: (number == 15).into() },
                })
            }
            Call::Mailbox(request) => {
                let buffers = Buffers { request: &request.bytes, response, block };
                let kept = Kept { keys: cache, table };
                let told = plain::mailbox(&mut drive, kept, request.code, buffers);
                Said::Reply(match told {
                    Ok((length, order)) => Reply::Accepted { length, order },
                    Err(number) => Reply::Refused(number),
                })
            }
            Call::EngineReply(reply) => Said::Taken(plain::engine_reply(cache, *reply)),
            _ => Model.answer(lent, call),
        }
    }
}

fn fields(image: &[u8], number: u32) -> [u32; 8] {
    match plain::partition(image, number) {
        Err(number) => [number, 0, 0, 0, 0, 0, 0, 0],
        Ok((Header { partitions, cells, bound, .. }, Entry { first, length, kind, flags })) => {
            let [partitions, cells, bound, first, length] =
                [partitions, cells, bound, first, length].map(u32::from);
            [0, partitions, cells, bound, first, length, kind.into(), flags.into()]
        }
    }
}

fn list(lent: &mut Lent) -> [u32; 2] {
    let mut listed = [(State::Erased, 0); PARTITIONS];
    let drive = &lent.drive;
    match plain::states(&drive.image, &drive.cells, &drive.marks, &mut listed) {
        Err(number) => [number, 0],
        Ok(partitions) => {
            for (i, (state, short_pairs)) in listed[..partitions as usize].iter().enumerate() {
                (lent.states[i], lent.short_pairs[i]) = (*state as u32, *short_pairs);
            }
            [0, partitions]
        }
    }
}
