//! Whole walls and the decoder: a cover for the proved calls of `libwall_bytes.a`.
use crate::{BLANK, Entry, Refusal, answer, archive};

/// Runs a whole wall from a sheet, with an entry for each column.
pub fn wall(sheet: &[u8], row: &mut [Entry]) -> Result<(), Refusal> {
    let (out, len) = Entry::slice(row);
    answer(unsafe { archive::column_wall(sheet.as_ptr(), sheet.len(), out, len) })
}

/// The same of a posting by column `poster`.
pub fn posting_wall(poster: u32, sheet: &[u8], row: &mut [Entry]) -> Result<(), Refusal> {
    let (out, len) = Entry::slice(row);
    answer(unsafe { archive::posting_wall(poster, sheet.as_ptr(), sheet.len(), out, len) })
}

/// The polynomial of degree at most d that meets at least n - t of n points, its constant term first, or none.
pub fn decode(n: u32, points: &[u16]) -> Result<Option<[u16; 4]>, Refusal> {
    let mut out = [BLANK; 4];
    answer(unsafe { archive::column_decode(n, points.as_ptr(), points.len(), out.as_mut_ptr(), out.len()) })?;
    Ok((out[0] != BLANK).then_some(out))
}
