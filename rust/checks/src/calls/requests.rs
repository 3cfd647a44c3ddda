//! Generated requests of the mailbox, right ones and ones with some things wrong, and its buffers.

use crate::random::Random;
use model::mailbox::block::BLOCK_BYTES;
use model::mailbox::sum;
use model::{Mail, Request, Values};

/// What is wrong with a request: its code, its length, its chksum, its reserved.
type Wrong = [bool; 4];

/// A request of this command with a tag of these, this partition and this handle, one in
/// four with something wrong.
pub fn generated(
    random: &mut Random,
    command: Mail,
    tags: &[u64],
    partition: u32,
    handle: u32,
) -> Request {
    let values = Values { partition, handle, ..good_values(random, tags) };
    let spoiled = random.one_in(4);
    let wrong = [(); 4].map(|()| spoiled && random.one_in(3));
    request(random, command, values, wrong)
}

/// FERS of this partition with nothing wrong.
pub fn fers(partition: u32) -> Request {
    Request::of(Mail::Fers, &Values { partition, ..Values::default() })
}

/// FERS of this partition with anything wrong but the code, or nothing.
pub fn spoiled_fers(random: &mut Random, partition: u32) -> Request {
    let values = Values { partition, ..Values::default() };
    let [length, chksum, reserved] = [(); 3].map(|()| random.one_in(2));
    request(random, Mail::Fers, values, [false, length, chksum, reserved])
}

fn request(random: &mut Random, command: Mail, mut values: Values, wrong: Wrong) -> Request {
    let [code, length, chksum, reserved] = wrong;
    if reserved {
        values.reserved = random.pick(&[1, 0x100, 0x8000_0000, 0xFFFF_FFFF]);
    }
    let right = Request::of(command, &values);
    let mut request = right.clone();
    if code {
        request.code = wrong_code(random, command);
    }
    if length {
        let (length, filler) = (wrong_length(random, right.bytes.len()), random.pick(&[0, 0xFF]));
        request.bytes.resize(length, filler);
    }
    put_chksum(random, &mut request, &right, chksum);
    request
}

fn good_values(random: &mut Random, tags: &[u64]) -> Values {
    let mut mek = [0; 64];
    mek.iter_mut().for_each(|byte| *byte = random.byte());
    let any = random.cell();
    let timeout = random.pick(&[0, 1, 1000, u32::MAX, any]);
    Values { timeout, tag: random.pick(tags), mek, ..Values::default() }
}

/// Another code: of no command, or of another one.
fn wrong_code(random: &mut Random, command: Mail) -> u32 {
    let code = command.code();
    let other = random.pick(&Mail::ALL).code();
    let any = random.cell();
    random.pick(&[code.swap_bytes(), code ^ 1, code ^ 0x2000_0000, 0, any, other, other])
}

/// Another length: a bit more or less, nothing, or another command's.
fn wrong_length(random: &mut Random, right: usize) -> usize {
    let any = random.below(100);
    random.pick(&[right - 1, right + 1, right + 1, right + 4, 0, 3, 4, 8, 12, 20, 84, any])
}

/// Puts a chksum in, if there is room for it: the right one for the request as
/// it now is, or a wrong one.
fn put_chksum(random: &mut Random, request: &mut Request, unspoiled: &Request, wrong: bool) {
    if request.bytes.len() < 4 {
        return;
    }
    let (right, any) = (request.right_chksum(), random.cell());
    let (without_code, stale) = (sum::response_chksum(&request.bytes), unspoiled.right_chksum());
    let near = [right.wrapping_add(1), right.wrapping_sub(1), without_code, without_code, stale];
    let far = [right.wrapping_neg(), right.swap_bytes(), right ^ 0x8000_0000, 0, any];
    let wrongs = [near, far].concat();
    let chksum = if wrong { random.pick(&wrongs) } else { right };
    sum::put_chksum(&mut request.bytes, chksum);
}

/// A block and a response buffer of right lengths, which hold anything.
pub fn buffers(random: &mut Random) -> (Vec<u8>, Vec<u8>) {
    let length = random.pick(&[40, 40, 40, 41, 44, 60]);
    (random.bytes(BLOCK_BYTES), random.bytes(length))
}

/// Makes the block longer or shorter, or the response buffer too short.
pub fn damage_buffers(random: &mut Random, block: &mut Vec<u8>, response: &mut Vec<u8>) {
    match random.below(2) {
        0 => block.resize(random.pick(&[0, 64, 127, 129, 256]), 0xBB),
        _ => response.resize(random.pick(&[0, 12, 20, 24, 32, 36, 39]), 0xAA),
    }
}
