//! Document 01, "Mailbox", with the engine block; document 02, P5, P6 and P8.

use super::fuses::active_slot;
use super::map::Map;
use super::{cache, erasure, handles, Drive, Refusal};
use model::{Cache, Order, State, Table};

/// What is kept between calls.
pub struct Kept<'a> {
    /// The key cache.
    pub keys: &'a mut Cache,
    /// The table of handles.
    pub table: &'a mut Table,
}

/// What the mailbox is lent besides.
pub struct Buffers<'a> {
    /// The request.
    pub request: &'a [u8],
    /// The response buffer.
    pub response: &'a mut [u8],
    /// The engine block.
    pub block: &'a mut [u8],
}

const NONE: u32 = 0xFFFF_FFFF;

/// Carries out a mailbox command, and answers the length of its response and
/// the order for the engine.
#[inline(never)]
pub fn mailbox(
    drive: &mut Drive,
    kept: Kept,
    code: u32,
    buffers: Buffers,
) -> Result<(usize, Order), Refusal> {
    let map = drive.map()?;
    if buffers.block.len() != 128 || buffers.response.len() < 40 {
        return Err(2);
    }
    handles::judge(kept.table)?;
    judge_request(code, buffers.request)?;
    carry_out(&map, drive, kept, code, buffers)
}

/// What each command does, by its own refusals.
fn carry_out(
    map: &Map,
    drive: &mut Drive,
    kept: Kept,
    code: u32,
    buffers: Buffers,
) -> Result<(usize, Order), Refusal> {
    let Buffers { request, response, block } = buffers;
    let keys = &mut *kept.keys;
    match &code.to_be_bytes() {
        b"CLKC" => {
            cache::clear(keys)?;
            write_block(block, &[], 0);
            Ok((respond(response, &[]), Order::Clear { timeout: u32_at(request, 8) }))
        }
        b"KLOD" => {
            let place = cache::load(map, drive.cells, keys, tag_of(request))?;
            write_block(block, &request[20..], tag_of(request));
            Ok((respond(response, &[place]), Order::Load { place, timeout: u32_at(request, 8) }))
        }
        b"KUNL" => {
            let place = cache::unload(keys, tag_of(request))?;
            write_block(block, &[], tag_of(request));
            Ok((respond(response, &[]), Order::Unload { place, timeout: u32_at(request, 8) }))
        }
        _ => Ok((tell(map, drive, kept, code, request, response)?, Order::None)),
    }
}

/// What each command does that has no order, and the length of its response.
fn tell(
    map: &Map,
    drive: &mut Drive,
    Kept { keys, table }: Kept,
    code: u32,
    request: &[u8],
    response: &mut [u8],
) -> Result<usize, Refusal> {
    Ok(match &code.to_be_bytes() {
        b"FERS" => {
            let entry = erasure::judge(map, keys, u32_at(request, 8))?;
            cache::judge_idle(keys)?;
            let erased = erasure::run(map, drive, entry)?;
            let first_short = erased.first_short.unwrap_or(NONE);
            respond(response, &[erased.short_pairs, first_short, erased.new_fuses])
        }
        b"EHDL" => {
            cache::judge_idle(keys)?;
            let (fields, count) = handles::list(table);
            respond(response, &fields[..count])
        }
        b"RHPK" => {
            cache::judge_idle(keys)?;
            respond(response, &[handles::rotate(table, u32_at(request, 8))?])
        }
        _ => {
            let active = active_slot(map, drive.cells);
            let told = |(slot, state)| [slot, (state == State::Programmed).into()];
            respond(response, &active.map_or([NONE, 0], told))
        }
    })
}

/// Refusals 3 to 6.
fn judge_request(code: u32, request: &[u8]) -> Result<(), Refusal> {
    let length = match &code.to_be_bytes() {
        b"CLKC" | b"FERS" | b"RHPK" => 12,
        b"KLOD" => 84,
        b"KUNL" => 20,
        b"FSTA" | b"EHDL" => 8,
        _ => return Err(3),
    };
    if request.len() != length {
        return Err(4);
    }
    let sum = sum(&code.to_le_bytes()).wrapping_add(sum(&request[4..]));
    if u32_at(request, 0) != 0_u32.wrapping_sub(sum) {
        return Err(5);
    }
    if u32_at(request, 4) != 0 {
        return Err(6);
    }
    Ok(())
}

/// Builds the engine block of a key, which may be none, and a tag; then writes it.
fn write_block(block: &mut [u8], key: &[u8], tag: u64) {
    let mut built = [0; 128];
    built[..key.len()].copy_from_slice(key);
    built[64..72].copy_from_slice(&tag.to_le_bytes());
    block.copy_from_slice(&built);
}

/// Writes a response with these fields after reserved, and answers its length.
fn respond(response: &mut [u8], fields: &[u32]) -> usize {
    let length = 12 + 4 * fields.len();
    response[4..12].fill(0);
    for (bytes, field) in response[12..length].chunks_exact_mut(4).zip(fields) {
        bytes.copy_from_slice(&field.to_le_bytes());
    }
    let chksum = 0_u32.wrapping_sub(sum(&response[4..length]));
    response[..4].copy_from_slice(&chksum.to_le_bytes());
    length
}

fn sum(bytes: &[u8]) -> u32 {
    bytes.iter().fold(0, |sum, byte| sum.wrapping_add(u32::from(*byte)))
}

fn tag_of(request: &[u8]) -> u64 {
    u64::from(u32_at(request, 12)) | u64::from(u32_at(request, 16)) << 32
}

fn u32_at(bytes: &[u8], at: usize) -> u32 {
    u32::from_le_bytes([bytes[at], bytes[at + 1], bytes[at + 2], bytes[at + 3]])
}
