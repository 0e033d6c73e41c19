//! A whole wall of 31 columns, records of 32 bytes, ten of them unsound.
use crate::timing::{self, Row};
use locker_column::{Entry, MOST_COLUMNS};
use reference::calls::{self, ENTRY_BYTES};
use reference::sizes::Protocol;
use std::hint::black_box;
use trial::random::Random;
use trial::records::Camps;
use trial::walls::{Mood, Plan};

/// Sheets of a wall of n columns and m bytes with t unsound ones, one for each way to divide the records.
pub fn sheets(n: usize, m: usize, mood: Mood, random: &Random) -> Vec<Vec<u8>> {
    let plan = |camps| Plan { n, m, posting: false, camps, mood, fewer: 0, kings: false, liar_posts: false };
    Camps::ALL.into_iter().map(|camps| plan(camps).case(random).sheet).collect()
}

/// The proved run and the reference's, on bytes.
pub fn row<'a>(name: String, n: usize, sheets: &'a [Vec<u8>]) -> Row<'a> {
    let mut entries = [Entry::default(); MOST_COLUMNS];
    let proved = move || {
        for sheet in sheets {
            locker_column::wall(black_box(sheet), &mut entries[..n]).expect("a sheet of the trial");
            black_box(&entries);
        }
    };
    let mut bytes = [0; MOST_COLUMNS * ENTRY_BYTES];
    let reference = move || {
        for sheet in sheets {
            assert_eq!(calls::wall(Protocol::Agreement, black_box(sheet), &mut bytes[..n * ENTRY_BYTES]), 0);
            black_box(&bytes);
        }
    };
    Row::new(name, sheets.len(), vec![Box::new(proved), Box::new(reference)])
}

pub fn table(random: &Random) {
    let sheets = Mood::ALL.map(|mood| (mood, sheets(31, 32, mood, random)));
    let rows = sheets.iter().map(|(mood, sheets)| row(format!("{mood:?}"), 31, sheets)).collect();
    timing::print(&["reference"], "µs", 1e3, &timing::measured(rows, 30));
}
