//! Document 01, and P1, P2, P5 and P6 of document 02: every call of the key block, what it answers,
//! and the model as one key block among others.

use crate::direct::{self, Answer, Command};
use crate::engine::{self, EngineReply};
use crate::erasure::{self, Erase, Erasure};
use crate::lent::Lent;
use crate::mailbox::request::Request;
use crate::mailbox::{self, fields, Reply};
use crate::refusal::Refusal;
use crate::why::{self, Reason};
use crate::{cache, handles, reading, text};
use std::fmt;

/// A call, with all that it is given besides what is lent.
#[derive(Clone, Debug)]
pub enum Call {
    /// "The map of the fuses": the fields of the partition of this number.
    Partition(u32),
    /// "Burning and counting": the states and short pairs of all partitions.
    States,
    /// Document 02, P1: why the drive offers no key.
    Why,
    /// "Active slot and key cache": what this place of the cache is.
    Place(u32),
    /// Document 02, P2: the image of the map that this text says.
    WriteMap(Vec<u8>),
    /// "Direct commands"
    Direct(Command),
    /// "Erasing a partition"
    Erase(Erase),
    /// "Mailbox"
    Mailbox(Request),
    /// Document 02, P5: "the drive hands us the engine's reply".
    EngineReply(EngineReply),
    /// Document 02, P6: a fresh table, of these handles with their algorithms.
    #[allow(missing_docs)]
    MakeTable { handles: Vec<u32>, algorithms: Vec<u32> },
    /// "Active slot and key cache": "A restart empties the cache".
    Restart,
}

/// What a call answered. The calls of document 01 that only read answer numbers, and so
/// does the writing of a map, in the order of the C header: of a refusal all but its number
/// are 0.
#[derive(Clone, Copy, Debug, PartialEq, Eq)]
pub enum Said {
    /// Refusal or 0, P, C, B, first cell, n, kind, flags.
    Fields([u32; 8]),
    /// Refusal or 0, P.
    Listing([u32; 2]),
    /// The reason, or the number of the refusal.
    Reason(Result<Reason, u32>),
    /// 0 for an empty place, 1 for a held, 2 for a waiting or 3 for an unsure one, and its tag.
    Place([u64; 2]),
    /// Refusal or 0, the image's bytes.
    Written([u32; 2]),
    /// What a direct command answers.
    Answer(Answer),
    /// What an erasure answers.
    Erasure(Erasure),
    /// What the mailbox answers.
    Reply(Reply),
    /// The engine's reply is taken, or the number of the refusal.
    Taken(Result<(), u32>),
    /// The table is made, or the number of the refusal.
    Made(Result<(), u32>),
    /// A restart answers nothing.
    Nothing,
}

/// Whatever can be called: it answers, and changes what it is lent.
pub trait KeyBlock {
    /// Makes a call.
    fn answer(&mut self, lent: &mut Lent, call: &Call) -> Said;
}

/// The model, whose answers are the right ones.
#[derive(Clone, Copy)]
pub struct Model;

impl KeyBlock for Model {
    fn answer(&mut self, lent: &mut Lent, call: &Call) -> Said {
        let (said, after) = match call {
            Call::Partition(number) => {
                return Said::Fields(reading::numbers(&lent.drive.image, *number));
            }
            Call::Why => return Said::Reason(why::why(&lent.drive)),
            Call::Place(number) => return Said::Place(lent.cache.place(*number).told()),
            Call::States => told(reading::list(lent), Said::Listing),
            Call::WriteMap(text) => told(text::write(lent, text), Said::Written),
            Call::Direct(command) => told(direct::direct(lent, *command), Said::Answer),
            Call::Erase(erase) => told(erasure::erase(lent, *erase), Said::Erasure),
            Call::Mailbox(request) => told(mailbox::mailbox(lent, request), Said::Reply),
            Call::EngineReply(reply) => told(engine::reply(lent, *reply), Said::Taken),
            Call::MakeTable { handles, algorithms } => {
                told(handles::make(lent, handles, algorithms), Said::Made)
            }
            Call::Restart => (Said::Nothing, cache::restart(lent)),
        };
        *lent = after;
        said
    }
}

/// What was said as one of the answers, and what was left.
fn told<T>((said, after): (T, Lent), answer: fn(T) -> Said) -> (Said, Lent) {
    (answer(said), after)
}

impl Call {
    /// The document's name of the command; `other` for a code of none.
    pub fn name(&self) -> &'static str {
        match self {
            Call::Partition(_) => "fields",
            Call::States => "states",
            Call::Why => "why",
            Call::Place(_) => "place",
            Call::WriteMap(_) => "write map",
            Call::Direct(Command::Read { .. }) => "READ",
            Call::Direct(Command::Write { .. }) => "WRITE",
            Call::Direct(Command::Zeroize { .. }) => "ZEROIZE",
            Call::Erase(Erase { cut: None, .. }) => "erasure",
            Call::Erase(Erase { cut: Some(_), .. }) => "cut erasure",
            Call::Mailbox(request) => request.command().map_or("other", fields::Command::name),
            Call::EngineReply(_) => "engine reply",
            Call::MakeTable { .. } => "make table",
            Call::Restart => "restart",
        }
    }

    /// "Refusal numbers": every refusal that applies, in the order in which they are checked.
    pub fn applying(&self, before: &Lent) -> Vec<Refusal> {
        match self {
            Call::Partition(number) => reading::applying_to_fields(&before.drive.image, *number),
            Call::States | Call::Why => reading::applying(&before.drive),
            Call::WriteMap(text) => text::applying(text, before.output.len()),
            Call::Direct(command) => direct::applying(before, *command),
            Call::Erase(erase) => erasure::applying(before, *erase),
            Call::Mailbox(request) => mailbox::applying(before, request),
            Call::EngineReply(_) => engine::applying(before),
            Call::MakeTable { handles, algorithms } => {
                handles::applying(before, handles, algorithms)
            }
            Call::Place(_) | Call::Restart => vec![],
        }
    }
}

impl Said {
    /// The number that the call was refused with, if it was.
    pub fn refusal(self) -> Option<u32> {
        match self {
            Said::Fields([number, ..]) => Some(number),
            Said::Listing([number, _]) | Said::Written([number, _]) => Some(number),
            Said::Reason(Err(number)) | Said::Answer(Answer::Refused(number)) => Some(number),
            Said::Erasure(Erasure::Refused { number, .. }) => Some(number),
            Said::Reply(Reply::Refused(number)) => Some(number),
            Said::Taken(Err(number)) | Said::Made(Err(number)) => Some(number),
            _ => None,
        }
        .filter(|number| *number != 0)
    }
}

/// The name and all that the call was given.
impl fmt::Display for Call {
    fn fmt(&self, f: &mut fmt::Formatter) -> fmt::Result {
        match self {
            Call::Mailbox(Request { code, bytes }) => {
                write!(f, "{} (code {code:08X}), request {bytes:02X?}", self.name())
            }
            Call::WriteMap(text) => write!(f, "map, text \"{}\"", text.escape_ascii()),
            _ => write!(f, "{self:X?}"),
        }
    }
}
