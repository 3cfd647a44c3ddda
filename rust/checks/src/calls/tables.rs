//! Generated tables of handles, fresh and damaged ones, and what is asked of them.

use crate::random::Random;
use model::{Call, Handle, Table, HANDLES};

/// The greatest number that a handle has.
const MOST: u64 = u32::MAX as u64;

/// Numbers of handles for a sequence: next to each other, so that one that is given may be in a
/// table already which is not fresh; some are the last ones.
pub fn numbers(random: &mut Random) -> Vec<u32> {
    let any = random.cell();
    let first = random.pick(&[0, 1, any, any, any, u32::MAX - 5]);
    (0..6).map(|more| first.wrapping_add(more)).collect()
}

/// A fresh table three times in eight; otherwise none, or any.
pub fn any(random: &mut Random, numbers: &[u32]) -> Table {
    let (handles, algorithms) = fresh(random, numbers);
    match random.below(8) {
        0 => Table::default(),
        1 => Table { count: 0, ..damaged(random, numbers) },
        2..=4 => damaged(random, numbers),
        _ => Table::fresh(&handles, &algorithms).expect("they are distinct"),
    }
}

/// One to three handles, some perhaps the same, others past the count, and any number as the
/// greatest: much of this no call leaves.
fn damaged(random: &mut Random, numbers: &[u32]) -> Table {
    let some = if random.one_in(2) { numbers } else { &numbers[..2] };
    let handle = |_| Handle { number: random.pick(some), algorithm: algorithm(random) };
    let handles = [(); HANDLES].map(handle);
    let (one, any) = (random.pick(numbers).into(), random.bits());
    let greatest = random.pick(&[one, one, one, 0, MOST - 1, MOST, MOST + 1, MOST + 4, any]);
    Table { count: random.between(1, HANDLES) as u64, handles, greatest }
}

/// Gives a table a count that it cannot have.
pub fn damage(random: &mut Random, table: &mut Table) {
    let any = random.bits();
    table.count = random.pick(&[0, 0, 4, 5, MOST + 1, MOST + 2, u64::MAX, any.max(4)]);
}

/// One to three distinct handles, the largest of them at any place, and their algorithms.
pub fn fresh(random: &mut Random, numbers: &[u32]) -> (Vec<u32>, Vec<u32>) {
    let count = random.between(1, HANDLES);
    (distinct(random, numbers, count), algorithms(random, count))
}

/// So many of the numbers.
fn distinct(random: &mut Random, numbers: &[u32], count: usize) -> Vec<u32> {
    let mut numbers = numbers.to_vec();
    let by = random.below(numbers.len());
    numbers.rotate_left(by);
    numbers.swap(0, random.below(count.max(1)));
    numbers.truncate(count);
    numbers
}

fn algorithms(random: &mut Random, count: usize) -> Vec<u32> {
    (0..count).map(|_| algorithm(random)).collect()
}

fn algorithm(random: &mut Random) -> u32 {
    let any = random.cell();
    random.pick(&[0, 1, 2, 1 << 31, u32::MAX, any])
}

/// The making of a table, half of the time with something wrong: too few or too many handles or
/// algorithms, or a handle twice.
pub fn making(random: &mut Random, numbers: &[u32]) -> Call {
    let (mut handles, mut algorithms) = fresh(random, numbers);
    let count = random.pick(&[0, 4, 5]);
    match random.below(8) {
        0 => (handles, algorithms) = (distinct(random, numbers, count), vec![1; count]),
        1 => drop(algorithms.pop()),
        2 => algorithms.push(0),
        3 => {
            handles.insert(random.below(handles.len() + 1), random.pick(&handles));
            algorithms.push(0);
        }
        _ => {}
    }
    Call::MakeTable { handles, algorithms }
}

/// A handle to ask for: mostly one that the table has, now and then one past its count, or another.
pub fn handle(random: &mut Random, table: &Table, numbers: &[u32]) -> u32 {
    let (past, other, any) =
        (random.pick(&table.handles).number, random.pick(numbers), random.cell());
    match table.listed() {
        Some(listed) if !random.one_in(4) => random.pick(listed).number,
        _ => random.pick(&[past, past, other, any]),
    }
}
