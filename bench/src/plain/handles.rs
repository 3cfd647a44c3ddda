//! Document 02, P6: the table of handles.

use super::Refusal;
use model::Table;

/// Whether there is a table: refusal 2.
pub fn judge(table: &Table) -> Result<(), Refusal> {
    if !(1..=3).contains(&table.count) {
        return Err(2);
    }
    Ok(())
}

/// EHDL's fields, and how many of them there are.
pub fn list(table: &Table) -> ([u32; 7], usize) {
    let count = table.count as usize;
    let mut fields = [0; 7];
    fields[0] = count as u32;
    for (pair, handle) in fields[1..].chunks_exact_mut(2).zip(&table.handles[..count]) {
        pair.copy_from_slice(&[handle.number, handle.algorithm]);
    }
    (fields, 1 + 2 * count)
}

/// Gives the lowest handle of this number the next one: refusals 20 and 21.
pub fn rotate(table: &mut Table, number: u32) -> Result<u32, Refusal> {
    let mut listed = table.handles[..table.count as usize].iter_mut();
    let handle = listed.find(|handle| handle.number == number).ok_or(20_u32)?;
    if table.greatest >= 0xFFFF_FFFF {
        return Err(21);
    }
    table.greatest += 1;
    handle.number = table.greatest as u32;
    Ok(handle.number)
}
