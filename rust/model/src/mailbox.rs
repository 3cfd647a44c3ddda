//! Document 01, "Mailbox", as P5, P6 and P8 of document 02 change it.

pub mod block;
pub mod fields;
pub mod request;
pub mod sum;

use crate::cache::{Awaited, Place};
use crate::erasure::{self, Erase, Erasure};
use crate::handles::Handle;
use crate::lent::Lent;
use crate::refusal::{self, Refusal};
use crate::slot;
use block::BLOCK_BYTES;
use fields::{Command, Field};
use request::Request;

/// P6: "The smallest response buffer becomes 40 bytes".
pub const LEAST_RESPONSE: usize = 40;

/// "Mailbox": the engine order, "none, or clear with the timeout, or load or
/// unload with place and timeout".
#[derive(Clone, Copy, Debug, PartialEq, Eq)]
#[allow(missing_docs)]
pub enum Order {
    None,
    Clear { timeout: u32 },
    Load { place: u32, timeout: u32 },
    Unload { place: u32, timeout: u32 },
}

/// "Mailbox": "Besides the response length the answer holds the engine order".
#[derive(Clone, Copy, Debug, PartialEq, Eq)]
pub enum Reply {
    /// Refused with this number.
    Refused(u32),
    /// Carried out.
    Accepted {
        /// The bytes of the response.
        length: usize,
        /// The engine order.
        order: Order,
    },
}

/// What a command orders, and the response's fields "after reserved".
type Done = (Order, Vec<u32>);

/// "Mailbox": the reply, and everything lent as the command leaves it.
pub fn mailbox(before: &Lent, request: &Request) -> (Reply, Lent) {
    let mut after = before.clone();
    let reply = match refusal::first(&applying(before, request)) {
        None => carry_out(&mut after, request).expect("every field of the command is there"),
        // "Fuses, cache, block and response stay as they were, and the engine order
        // is none."
        Some(number) => Reply::Refused(number),
    };
    (reply, after)
}

/// "Mailbox": a request to which no refusal applies; none is for a request
/// without its fields, which is refused.
fn carry_out(lent: &mut Lent, request: &Request) -> Option<Reply> {
    let (order, fields) = match request.command()? {
        Command::Clkc => clear(lent, request)?,
        Command::Klod => load(lent, request)?,
        Command::Kunl => unload(lent, request)?,
        Command::Fers => erase(lent, request)?,
        Command::Fsta => status(lent)?,
        Command::Ehdl => list(lent)?,
        Command::Rhpk => (Order::None, vec![lent.table.rotate(request.handle()?)?]),
    };
    // "every response chksum, fips_status (0), reserved (0)"
    let mut response = vec![0; 12];
    response.extend(fields.into_iter().flat_map(u32::to_le_bytes));
    let chksum = sum::response_chksum(&response);
    sum::put_chksum(&mut response, chksum);
    // "Response bytes past the response keep their values."
    lent.response[..response.len()].copy_from_slice(&response);
    Some(Reply::Accepted { length: response.len(), order })
}

/// CLKC: "clear; block all zero". P5: "every held or unsure place under a clear, waits until the
/// reply", which is awaited though no place was held.
fn clear(lent: &mut Lent, request: &Request) -> Option<Done> {
    for place in &mut lent.cache.places {
        if let Place::Held(tag) | Place::Unsure(tag) = *place {
            *place = Place::Waiting(tag);
        }
    }
    lent.cache.awaited = Some(Awaited::Clear);
    lent.block = vec![0; BLOCK_BYTES];
    Some((Order::Clear { timeout: request.number(Field::CmdTimeout)? }, vec![]))
}

/// KLOD answers its place: "the lowest empty place, freed ones included". P5: "A load's place
/// waits".
fn load(lent: &mut Lent, request: &Request) -> Option<Done> {
    let (tag, timeout) = (request.tag()?, request.number(Field::CmdTimeout)?);
    let place = lent.cache.lowest_empty()?;
    lent.cache.places[place] = Place::Waiting(tag);
    lent.cache.awaited = Some(Awaited::Load);
    lent.block = block::load(request.find(Field::Mek)?, tag);
    let place = place as u32;
    Some((Order::Load { place, timeout }, vec![place]))
}

/// KUNL: "as load with MEK zero". "KUNL frees the lowest place that holds its tag." P5: "The place
/// of an unload [...] waits until the reply".
fn unload(lent: &mut Lent, request: &Request) -> Option<Done> {
    let (tag, timeout) = (request.tag()?, request.number(Field::CmdTimeout)?);
    let place = lent.cache.lowest_holding(tag)?;
    lent.cache.places[place] = Place::Waiting(tag);
    lent.cache.awaited = Some(Awaited::Unload);
    lent.block = block::load(&[0; 64], tag);
    Some((Order::Unload { place: place as u32, timeout }, vec![]))
}

/// FERS answers "short pairs, first short cell", and by P8 the new fuses: "FERS carries it as a
/// last field (24 bytes)". "Uncut and cut erasures, FERS among them, are one run". None if the
/// erasure is refused.
fn erase(lent: &mut Lent, request: &Request) -> Option<Done> {
    let partition = request.partition()?;
    let (erasure, after) = erasure::erase(lent, Erase { partition, cut: None });
    *lent = after;
    match erasure {
        Erasure::Erased { short_pairs, first_short, new_fuses, .. } => {
            let first_short = first_short.unwrap_or(0xFFFF_FFFF);
            Some((Order::None, vec![short_pairs, first_short, new_fuses]))
        }
        _ => None,
    }
}

/// FSTA answers "active slot's partition or 0xFFFFFFFF, HEK available 1 or 0".
fn status(lent: &Lent) -> Option<Done> {
    let (map, cells) = (lent.drive.map()?, &lent.drive.cells);
    let active = slot::active_slot(&map, cells).map_or(0xFFFF_FFFF, |number| number as u32);
    Some((Order::None, vec![active, slot::hek_available(&map, cells).into()]))
}

/// EHDL answers "count, then handle and algorithm for each".
fn list(lent: &Lent) -> Option<Done> {
    let handles = lent.table.listed()?;
    let each = |handle: &Handle| [handle.number, handle.algorithm];
    let count = handles.len() as u32;
    Some((Order::None, [count].into_iter().chain(handles.iter().flat_map(each)).collect()))
}

/// "Refusal numbers": every refusal that applies to the request, each tested by
/// itself. A test with nothing to go by does not apply: an unknown code has no
/// length and names no command, a request that ends too early lacks the field, the HEK is not
/// looked for without a good map and C cells, and no handle is looked for in a table whose count is
/// not 1 to 3.
pub fn applying(lent: &Lent, request: &Request) -> Vec<Refusal> {
    let command = request.command();
    let exact = |command: Command| fields::length(command.request_fields());
    let not_its_length = |command| request.bytes.len() != exact(command);
    let wrong = |chksum| chksum != request.right_chksum();
    let mut tests = vec![
        (Refusal::BadMap, lent.drive.map().is_none()),
        (Refusal::WrongLength, lengths_are_wrong(lent)),
        (Refusal::UnknownCode, command.is_none()),
        (Refusal::RequestLength, command.map_or(false, not_its_length)),
        (Refusal::WrongChksum, request.chksum().map_or(false, wrong)),
        (Refusal::ReservedNotZero, request.reserved().map_or(false, |reserved| reserved != 0)),
    ];
    if let Some(partition) = request.partition() {
        tests.extend(erasure::partition_tests(lent, Erase { partition, cut: None }));
    }
    let held = request.tag().map(|tag| lent.cache.lowest_holding(tag).is_some());
    // "KUNL finds a waiting or unsure tag but is refused on it", with 17 or 18.
    let other_than_fsta = command.map_or(false, |command| command != Command::Fsta);
    let loads_or_unloads = matches!(command, Some(Command::Klod | Command::Kunl));
    tests.extend([
        (Refusal::ReplyAwaited, other_than_fsta && lent.cache.waits()),
        (Refusal::PlaceUnsure, loads_or_unloads && lent.cache.any_unsure()),
    ]);
    match command {
        Some(Command::Klod) => tests.extend([
            (Refusal::HekNotAvailable, hek_is_missing(lent)),
            (Refusal::TagHeld, held == Some(true)),
            (Refusal::NoEmptyPlace, lent.cache.lowest_empty().is_none()),
        ]),
        Some(Command::Kunl) => tests.push((Refusal::TagNotHeld, held == Some(false))),
        Some(Command::Rhpk) => tests.extend(handle_tests(lent, request)),
        _ => {}
    }
    refusal::that_apply(tests)
}

/// P6: "20 no such handle, 21 numbers used up".
fn handle_tests(lent: &Lent, request: &Request) -> [(Refusal, bool); 2] {
    let there = lent.table.listed().is_some();
    let missing = |handle| lent.table.lowest_with(handle).is_none();
    [
        (Refusal::NoHandle, there && request.handle().map_or(false, missing)),
        (Refusal::NumbersUsedUp, there && lent.table.next().is_none()),
    ]
}

/// "cells or marks not C long; for the mailbox also block not 128 or response buffer under 20
/// bytes"; P6: "The smallest response buffer becomes 40 bytes, and a table count outside 1 to 3 is
/// refused (both 2)."
fn lengths_are_wrong(lent: &Lent) -> bool {
    lent.drive.lengths_are_wrong()
        || lent.block.len() != BLOCK_BYTES
        || lent.response.len() < LEAST_RESPONSE
        || lent.table.listed().is_none()
}

/// "HEK not available"
fn hek_is_missing(lent: &Lent) -> bool {
    let drive = &lent.drive;
    drive.map_with_cells().map_or(false, |map| !slot::hek_available(&map, &drive.cells))
}
