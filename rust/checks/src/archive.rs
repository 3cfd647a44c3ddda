//! The archive as C calls it, each function by its address and its arguments as words,
//! on a painted stack: the safe Rust calls keep an answer's other numbers on refusal, the
//! arrays past the map's partitions and the numbers of a place to themselves, and have
//! frames of their own.

use crate::context;
use crate::painted::left_by_c;
use model::{
    Answer, Call, Command, Cut, Drive, EngineReply, Erase, Erasure, KeyBlock, Lent, Order, Reason,
    Reply, Request, Said,
};
use sciambrunola::{Context, NO_CELL};

/// The proved key block, with the paint of its stack.
#[derive(Default)]
pub struct Archive {
    pub paint: u8,
    /// What the last call left below its arguments.
    pub stack: Vec<u8>,
}

// As the header declares them, but for their parameters: their addresses are taken.
extern "C" {
    fn sci_partition();
    fn sci_write_map();
    fn sci_states();
    fn sci_why();
    fn sci_cache_place();
    fn sci_read();
    fn sci_write();
    fn sci_zeroize();
    fn sci_erase();
    fn sci_erase_cut();
    fn sci_restart();
    fn sci_mailbox();
    fn sci_engine_reply();
    fn sci_make_table();
}

type Function = unsafe extern "C" fn();

/// A place in the archive's code.
pub fn code() -> u64 {
    sci_write as *const () as u64
}

impl Archive {
    /// Calls a function, and gives the numbers of the struct that it answers. One of more
    /// than two words is written where the first argument says.
    ///
    /// # Safety
    /// The arguments are those that the header asks for.
    unsafe fn call(&mut self, function: Function, mut words: Vec<u64>, large: bool) -> [u32; 8] {
        // What a call does not write shows.
        let mut told = [0xDEAD_BEEF; 8];
        if large {
            words.insert(0, told.as_mut_ptr() as u64);
        }
        let (registers, stack) = left_by_c(self.paint, function as *const (), &words);
        if !large {
            let halves = registers.map(|word| [word as u32, (word >> 32) as u32]);
            told[..4].copy_from_slice(&halves.concat());
        }
        self.stack = stack;
        told
    }
}

impl KeyBlock for Archive {
    fn answer(&mut self, lent: &mut Lent, call: &Call) -> Said {
        let mut context = context::of(lent);
        let (function, words) = arguments(lent, &mut context, call);
        let large = matches!(
            call,
            Call::Partition(_) | Call::Why | Call::Direct(_) | Call::Erase(_) | Call::Mailbox(_)
        );
        // SAFETY: every pointer is that of a part of `lent`, of the context, of the request,
        // of the text or of the handles, which outlive the call and overlap nowhere; where the
        // header asks for a count, it follows.
        let told = unsafe { self.call(function, words, large) };
        context::take_back(lent, &context);
        said(call, told)
    }
}

/// What C is told of a place of this context: its kind and its tag.
pub fn place(context: &Context, number: u32) -> Said {
    let words = vec![context as *const Context as u64, number.into()];
    // SAFETY: the pointer is that of a borrowed context, which is only read.
    let told = unsafe { Archive::default().call(sci_cache_place, words, false) };
    said(&Call::Place(number), told)
}

/// A drive, each pointer with its count, and the context.
fn lent_words(Drive { image, cells, marks }: &mut Drive, context: &mut Context) -> [u64; 7] {
    [
        image.as_ptr() as u64,
        image.len() as u64,
        cells.as_mut_ptr() as u64,
        cells.len() as u64,
        marks.as_ptr() as u64,
        marks.len() as u64,
        context as *mut Context as u64,
    ]
}

/// The function of a call, and its arguments in the header's order.
fn arguments(lent: &mut Lent, context: &mut Context, call: &Call) -> (Function, Vec<u64>) {
    let drive = lent_words(&mut lent.drive, context);
    let Lent { response, block, output, .. } = lent;
    let with = |words: &[u64], more: &[u64]| [words, more].concat();
    match call {
        Call::Partition(number) => (sci_partition, with(&drive[..2], &[low(number)])),
        Call::States => {
            let lists = [lent.states.as_mut_ptr() as u64, lent.short_pairs.as_mut_ptr() as u64];
            (sci_states, with(&drive[..6], &lists))
        }
        Call::Why => (sci_why, drive[..6].to_vec()),
        Call::WriteMap(text) => {
            let output = [output.as_mut_ptr() as u64, output.len() as u64];
            (sci_write_map, with(&run(text), &output))
        }
        Call::Place(number) => (sci_cache_place, with(&drive[6..], &[low(number)])),
        Call::Direct(Command::Read { cell }) => (sci_read, with(&drive, &[low(cell)])),
        Call::Direct(Command::Write { cell, value }) => {
            (sci_write, with(&drive, &[low(cell), *value]))
        }
        Call::Direct(Command::Zeroize { cell }) => (sci_zeroize, with(&drive, &[low(cell)])),
        Call::Erase(Erase { partition, cut: None }) => (sci_erase, with(&drive, &[low(partition)])),
        Call::Erase(Erase { partition, cut: Some(Cut { k, mask }) }) => {
            (sci_erase_cut, with(&drive, &[low(partition), low(k), *mask]))
        }
        Call::Mailbox(Request { code, bytes }) => {
            let response = [response.as_mut_ptr() as u64, response.len() as u64];
            let block = [block.as_mut_ptr() as u64, block.len() as u64];
            (sci_mailbox, [&drive[..], &[low(code)], &run(bytes), &response, &block].concat())
        }
        Call::EngineReply(reply) => {
            (sci_engine_reply, with(&drive[6..], &numbers(*reply).map(|number| low(&number))))
        }
        Call::MakeTable { handles, algorithms } => {
            (sci_make_table, [&drive[6..], &run(handles), &run(algorithms)].concat())
        }
        Call::Restart => (sci_restart, drive[6..].to_vec()),
    }
}

/// A number as an argument: what stands above its 32 bits is nobody's.
fn low(number: &u32) -> u64 {
    u64::from(*number) | 0xDEAD_BEEF << 32
}

/// The pointer of what is only read, and its count.
fn run<T>(numbers: &[T]) -> [u64; 2] {
    [numbers.as_ptr() as u64, numbers.len() as u64]
}

/// The engine's reply and the vendor's number, which is looked at by nobody. A reply of any number
/// but the first two is a failure, 0 too: here that is 3, or the vendor's own.
fn numbers(reply: EngineReply) -> [u32; 2] {
    match reply {
        EngineReply::Done => [1, 0xDEAD_BEEF],
        EngineReply::TimedOut => [2, 0xDEAD_BEEF],
        EngineReply::Failed(vendor @ (1 | 2)) => [3, vendor],
        EngineReply::Failed(vendor) => [vendor, vendor],
    }
}

/// The answer by the numbers of its struct. What the header says to be 0 has to be.
fn said(call: &Call, told: [u32; 8]) -> Said {
    let order = |order, place, timeout| match order {
        0 if (place, timeout) == (0, 0) => Order::None,
        1 if place == 0 => Order::Clear { timeout },
        2 => Order::Load { place, timeout },
        3 => Order::Unload { place, timeout },
        _ => panic!("{call} is answered {told:X?}"),
    };
    match (call, told) {
        (Call::Partition(_), _) => Said::Fields(told),
        // Between a place's kind and its tag are four bytes of no meaning.
        (Call::Place(_), [kind, _, low, high, ..]) => Said::Place([kind.into(), word(low, high)]),
        (Call::States, [refusal, partitions, ..]) => Said::Listing([refusal, partitions]),
        (Call::Why, _) => Said::Reason(reason(told)),
        (Call::WriteMap(_), [refusal, bytes, ..]) => Said::Written([refusal, bytes]),
        (Call::EngineReply(_), [number, ..]) => Said::Taken(unless_refused(number)),
        (Call::MakeTable { .. }, [number, ..]) => Said::Made(unless_refused(number)),
        (Call::Restart, _) => Said::Nothing,
        (Call::Direct(_), _) => Said::Answer(answer(told)),
        (Call::Erase(_), _) => Said::Erasure(erasure(told)),
        (Call::Mailbox(_), [0, length, which, place, timeout, ..]) => {
            let (length, order) = (length as usize, order(which, place, timeout));
            Said::Reply(Reply::Accepted { length, order })
        }
        (Call::Mailbox(_), [number, 0, 0, 0, 0, ..]) => Said::Reply(Reply::Refused(number)),
        _ => panic!("{call} is answered {told:X?}"),
    }
}

fn word(low: u32, high: u32) -> u64 {
    u64::from(low) | u64::from(high) << 32
}

/// The same of a direct command, whose last number has four bytes of no meaning behind it.
fn answer(told: [u32; 8]) -> Answer {
    match told {
        [0, 0, low, high, new_fuses, ..] => Answer::Word { word: word(low, high), new_fuses },
        [1, 0, 0, 0, 0, ..] => Answer::Done,
        [2, 0, 0, 0, 0, ..] => Answer::Withheld,
        [3, number, 0, 0, 0, ..] => Answer::Refused(number),
        _ => panic!("a direct command is answered {told:X?}"),
    }
}

/// The same of an erasure.
fn erasure(told: [u32; 8]) -> Erasure {
    match told {
        [0, 0, short_pairs, first, burns, new_fuses, ..] => {
            let first_short = (first != NO_CELL).then_some(first);
            Erasure::Erased { short_pairs, first_short, burns, new_fuses }
        }
        [1, 0, 0, 0, burns, new_fuses, ..] => Erasure::Cut { burns, new_fuses },
        [2, number, 0, 0, burns, 0, ..] => Erasure::Refused { number, burns },
        _ => panic!("an erasure is answered {told:X?}"),
    }
}

/// What is answered by a refusal's number, or by 0, alone.
fn unless_refused(number: u32) -> Result<(), u32> {
    if number == 0 {
        Ok(())
    } else {
        Err(number)
    }
}

/// The same of a reason.
fn reason(told: [u32; 8]) -> Result<Reason, u32> {
    match told {
        [0, 0, 0, 0, 0, ..] => Ok(Reason::Available),
        [1, 0, 0, 0, 0, ..] => Ok(Reason::NoSlot),
        [2, 0, 0, 0, 0, ..] => Ok(Reason::AllErased),
        [3, 0, partition, 0, 0, ..] => Ok(Reason::Blank { partition }),
        [4, 0, partition, cell, ones, ..] => Ok(Reason::Torn { partition, cell, ones }),
        [5, number, 0, 0, 0, ..] => Err(number),
        _ => panic!("why is answered {told:X?}"),
    }
}
