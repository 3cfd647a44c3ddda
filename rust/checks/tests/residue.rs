//! What a call leaves in the dead stack: no cell of a secret partition as it was before the
//! call or as it is after it, no half of a WRITE's value, and no four bytes of a MEK. Every
//! call is made as C makes it, under two paints.

use checks::archive::{self, Archive};
use checks::calls::{self, Scene};
use checks::painted::{left_by_c, PAINTS};
use checks::random::Random;
use checks::small;
use checks::tally::Tally;
use model::{Answer, Call, Command, Drive, Erase, KeyBlock, Lent};
use model::{Mail, Reply, Request, Said, Values};
use std::collections::HashSet;
use std::ops::Range;
use std::ptr;

const DRIVES: usize = 1_500;
/// Every outcome of every call has to be met so often.
const LEAST: usize = 3;

/// Bytes that nothing looked for has: the paints, and those of small numbers and addresses' ends.
const COMMON: [u8; 4] = [0x00, 0xFF, 0xA5, 0x5A];
/// Nothing that a call is lent is so long, nor is its code or a stack.
const NEAR: u64 = 1 << 24;

/// Four bytes that are known by their value.
type Four = [u8; 4];

/// The cells of each secret partition of a drive, and whether it ends with an indicator.
fn secret(drive: &Drive) -> Vec<(Range<usize>, bool)> {
    let map = drive.map_with_cells();
    let entries = map.map_or(vec![], |map| map.entries().to_vec());
    let secret = entries.into_iter().filter(|entry| entry.secret());
    secret.map(|entry| (entry.range(), entry.zeroizable())).collect()
}

/// Gives the cells of secret partitions values that they are known by, but for the
/// indicator, which decides what a call comes to, and for data without a set fuse, which
/// hold nothing: a blank slot stays blank.
fn make_known(random: &mut Random, drive: &mut Drive) {
    for (range, indicator) in secret(drive) {
        let end = range.end - if indicator { 2 } else { 0 };
        let (data, digest) = (range.start..end - 2, end - 2..end);
        let blank = drive.cells[data].iter().all(|cell| *cell == 0);
        for cell in if blank { digest } else { range.start..end } {
            while !is_telling(&drive.cells[cell].to_le_bytes()) {
                drive.cells[cell] = random.cell();
            }
        }
    }
}

/// Whether four bytes are known by their value: no number that a call works with, by
/// chance, has them.
fn is_telling(four: &Four) -> bool {
    let ones = u32::from_le_bytes(*four).count_ones();
    (6..=26).contains(&ones) && four.iter().all(|byte| !COMMON.contains(byte))
}

/// What must not be left by a call on a drive with these secret partitions, by what it was
/// lent, what it left and what it said.
fn known(
    secret: &[(Range<usize>, bool)],
    call: &Call,
    before: &Lent,
    after: &Lent,
    said: Said,
) -> HashSet<Four> {
    let halves = |word: u64| [word as u32, (word >> 32) as u32].map(u32::to_le_bytes);
    let cells = secret.iter().flat_map(|(range, _)| range.clone());
    let both = |cell| [before, after].map(|lent| lent.drive.cells.get(cell).copied());
    let mut known: HashSet<Four> = cells.flat_map(both).flatten().map(u32::to_le_bytes).collect();
    match call {
        Call::Direct(Command::Write { value, .. }) => known.extend(halves(*value)),
        // The MEK is what follows the tag; no other request is so long.
        Call::Mailbox(request) => {
            let mek = request.bytes.get(20..).unwrap_or(&[]);
            known.extend(mek.windows(4).map(|w| [w[0], w[1], w[2], w[3]]));
        }
        _ => {}
    }
    // No secret are a word that the call shows, and the mask of a cut, which stands for the
    // power failure: an empty word is that mask afterwards.
    let told = match (call, said) {
        (_, Said::Answer(Answer::Word { word, .. })) => word,
        (Call::Erase(Erase { cut: Some(cut), .. }), _) => cut.mask,
        _ => 0,
    };
    known.retain(|four| is_telling(four) && !halves(told).contains(four));
    known
}

/// The known bytes in a stack, each with its place below the call. An aligned number near
/// one of the addresses is an address, and not what it looks like.
fn found(known: &HashSet<Four>, stack: &[u8], addresses: &[u64]) -> Vec<(Four, usize)> {
    let number = |end: usize| {
        let eight = stack.len().checked_sub(end).and_then(|at| stack[at..].get(..8));
        eight.map_or(0, |eight| u64::from_le_bytes(eight.try_into().expect("eight bytes")))
    };
    let is_address = |end| addresses.iter().any(|place| number(end).abs_diff(*place) < NEAR);
    let fours = stack.windows(4).enumerate().map(|(at, w)| ([w[0], w[1], w[2], w[3]], at));
    fours
        .filter(|(four, _)| known.contains(four))
        .map(|(four, at)| (four, stack.len() - at))
        .filter(|(_, down)| ![*down, down - 3].iter().any(|byte| is_address((byte + 7) / 8 * 8)))
        .collect()
}

/// Makes a call under a paint, and fails where it has left something. Gives what it said,
/// what it left of what it was lent, and whether there was anything to look for.
fn searched(
    secret: &[(Range<usize>, bool)],
    call: &Call,
    before: &Lent,
    paint: u8,
) -> (Said, Lent, bool) {
    let (mut after, mut block) = (before.clone(), Archive { paint, ..Archive::default() });
    let said = block.answer(&mut after, call);
    let known = known(secret, call, before, &after, said);
    let addresses = [archive::code(), after.drive.marks.as_ptr() as u64, &after as *const _ as u64];
    let found = found(&known, &block.stack, &addresses);
    assert_eq!(found, [], "bytes, and how far below the call: {call}, {said:?}");
    (said, after, !known.is_empty())
}

#[test]
fn no_call_leaves_a_secret() {
    let with_secrets = |came: &String| format!("{came} with secrets");
    let total = Tally::over(DRIVES, |tally, number| {
        let mut scene = Scene::on(number, make_known);
        let secret = secret(scene.drive());
        for _ in 0..scene.calls {
            let (call, before) = scene.next_call();
            let [(said, after, any), _] =
                PAINTS.map(|paint| searched(&secret, &call, &before, paint));
            let came = calls::came(&call, said);
            tally.add(any.then(|| with_secrets(&came)).into_iter().chain([came]));
            scene.go_on(after);
        }
    });
    let mut possible = calls::outcomes();
    possible.extend(calls::outcomes().iter().map(with_secrets));
    total.check((100_000, "calls, their stacks searched"), possible, LEAST);
}

#[test]
fn cells_values_and_meks_are_known_and_what_is_shown_is_not() {
    let (before, mut after) = (small::stuck(&[]), small::stuck(&[]));
    (after.drive.cells[0], after.drive.cells[6]) = (0x1234_5678, 0x8765_4321);
    let set = |call: &Call, said| known(&[(0..6, true)], call, &before, &after, said);
    let four = |number: u32| number.to_le_bytes();
    let write = Call::Direct(Command::Write { cell: 0, value: 0x6789_ABCD_1357_9BDF });
    let written = [0x1234_5678, 0x6789_ABCD, 0x1357_9BDF].map(four);
    assert_eq!(set(&write, Said::Answer(Answer::Done)), HashSet::from(written));
    let shown = Said::Answer(Answer::Word { word: 0x1234_5678, new_fuses: 0 });
    assert_eq!(set(&Call::Direct(Command::Zeroize { cell: 0 }), shown), HashSet::new());
    let values = Values { mek: [0x17; 64], ..Values::default() };
    let load = Call::Mailbox(Request::of(Mail::Klod, &values));
    let loaded = [0x1234_5678, 0x1717_1717].map(four);
    assert_eq!(set(&load, Said::Reply(Reply::Refused(2))), HashSet::from(loaded));
}

#[test]
fn a_planted_word_is_found() {
    const WORD: u64 = 0x1234_5678_9ABC_DEF1;
    let halves = [0x9ABC_DEF1, 0x1234_5678].map(u32::to_le_bytes);
    for paint in PAINTS {
        // SAFETY: the function takes a word.
        let (_, stack) = unsafe { left_by_c(paint, plant as *const (), &[!WORD]) };
        for half in halves {
            assert!(!found(&HashSet::from([half]), &stack, &[]).is_empty());
            assert!(found(&HashSet::from([half.map(|byte| !byte)]), &stack, &[]).is_empty());
        }
    }
}

/// Leaves the word in its dead frame whose complement it is given.
extern "C" fn plant(complement: u64) {
    let mut frame = [0_u64; 4];
    // SAFETY: the word is borrowed. A volatile write is not left out.
    unsafe { ptr::write_volatile(&mut frame[2], !complement) };
}
