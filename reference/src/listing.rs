//! What the wall programs print.
use crate::Refusal;
use crate::sizes::Protocol;
use crate::wall::{Entry, Sheet};
use std::fmt::Write;

/// The listing of a sheet, or `refused` and a number.
pub fn listing(protocol: Protocol, bytes: &[u8]) -> String {
    lines(protocol, bytes).unwrap_or_else(|Refusal(number)| format!("refused {number}\n"))
}

fn lines(protocol: Protocol, bytes: &[u8]) -> Result<String, Refusal> {
    let sheet = Sheet::read(protocol, bytes, None)?;
    let s = sheet.sizes;
    let mut row = [Entry::default(); 31];
    sheet.run(&mut row[..s.n])?;
    let mut text = format!("wall {} {} t {} d {} blocks {} rounds {}\n", s.n, s.m, s.t, s.d, s.blocks, s.rounds(protocol));
    for (number, entry) in (1..).zip(&row[..s.n]) {
        text += &line(number, entry, s.m);
    }
    Ok(text)
}

fn line(number: usize, entry: &Entry, m: usize) -> String {
    if entry.mark == 1 {
        return format!("{number} unsound\n");
    }
    let mut text = format!("{number} sound grade {} bit {} record ", entry.grade, entry.vote);
    match entry.record {
        None => text += "none",
        Some(record) => record[..m].iter().for_each(|byte| write!(text, "{byte:02x}").expect("a string takes all")),
    }
    text + "\n"
}
