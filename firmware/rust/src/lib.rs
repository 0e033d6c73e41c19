//! A column of a parcel locker wall, for Rust: a safe cover for the proved calls of `libcolumn_bytes.a`.
//!
//! What the calls do is said in `include/column.h` and proved in `crates/column_bytes_c`. Nothing is tested here: every length and every number is answered
//! by the call itself. What Rust can say and C cannot is added: that slices do not overlap, whose a state is, that a refusal must be looked at, and that
//! there may be no record. Depend on it by its path; the archive is looked for in target/staticlib of this repository, or in the directory that
//! COLUMN_ARCHIVE names. The feature `walls` adds whole walls and the decoder, of `include/wall.h`, which tests and tools call.
#![no_std]

#[cfg(feature = "walls")]
mod walls;

use core::fmt;
#[cfg(feature = "walls")]
pub use walls::{decode, posting_wall, wall};

/// What a value of a message is when nothing is said.
pub const BLANK: u16 = 65535;

/// The length of a state, the largest wall, the longest record and the longest slice of messages of a round.
pub const STATE_BYTES: usize = place::KEPT + 64;
pub const MOST_COLUMNS: usize = 31;
pub const MOST_BYTES: usize = 32;
pub const MOST_VALUES: usize = 992;

/// Where each part of a state starts: where the one before it ends. The version, the protocol and the poster's number stand before these.
pub mod place {
    pub const N: usize = 3;
    pub const M: usize = N + 1;
    pub const OWN: usize = M + 1;
    pub const STAGE: usize = OWN + 1;
    pub const ROUND: usize = STAGE + 1;
    pub const GRADE: usize = ROUND + 1;
    pub const VOTE: usize = GRADE + 1;
    pub const FIRM: usize = VOTE + 1;
    pub const PROPOSAL: usize = FIRM + 1;
    pub const RECORD: usize = PROPOSAL + 2;
    pub const AGREEMENTS: usize = RECORD + 32;
    pub const REPORTS: usize = AGREEMENTS + 31;
    pub const KEPT: usize = REPORTS + 31;
}

/// The calls themselves, as the headers declare them, for a program that has to lend slices of any length.
pub mod archive {
    #[link(name = "column_bytes", kind = "static")]
    unsafe extern "C" {
        pub safe fn column_rounds(protocol: u32, n: u32) -> usize;
        pub safe fn column_values(protocol: u32, n: u32, m: u32, round: u32) -> usize;
        pub fn column_fresh(n: u32, m: u32, own: u32, record: *const u8, record_len: usize, state: *mut u8, state_len: usize) -> u8;
        pub fn posting_fresh(n: u32, m: u32, own: u32, poster: u32, record: *const u8, record_len: usize, state: *mut u8, state_len: usize) -> u8;
        pub fn column_speak(state: *mut u8, state_len: usize, out: *mut u16, out_len: usize) -> u8;
        pub fn column_listen(state: *mut u8, state_len: usize, inbox: *const u16, inbox_len: usize) -> u8;
        pub fn column_outcome(state: *const u8, state_len: usize, out: *mut u8, out_len: usize) -> u8;
    }

    #[cfg(feature = "walls")]
    #[link(name = "wall_bytes", kind = "static")]
    unsafe extern "C" {
        pub fn column_wall(sheet: *const u8, sheet_len: usize, row: *mut u8, row_len: usize) -> u8;
        pub fn posting_wall(poster: u32, sheet: *const u8, sheet_len: usize, row: *mut u8, row_len: usize) -> u8;
        pub fn column_decode(n: u32, points: *const u16, points_len: usize, out: *mut u16, out_len: usize) -> u8;
    }
}

/// Why a call was refused. It has changed nothing.
#[derive(Clone, Copy, PartialEq, Eq, Debug)]
pub struct Refusal(u8);

impl Refusal {
    /// The number that document 01 gives it, 1 to 11.
    pub fn number(self) -> u8 {
        self.0
    }
}

impl fmt::Display for Refusal {
    fn fmt(&self, f: &mut fmt::Formatter<'_>) -> fmt::Result {
        let meaning = match self.0 {
            1 => "a wall has 4 to 31 columns",
            2 => "a record has 1 to 32 bytes",
            3 => "there is no column of this number",
            4 => "a slice has not the length that it must have",
            5 => "a mark is neither 0 nor 1",
            6 => "more columns are marked unsound than a wall can bear",
            7 => "the column has spoken in this round and is to listen",
            8 => "the column is to speak before it listens",
            9 => "the column has not ended",
            10 => "the column has ended",
            _ => "the bytes are no state, or one out of its ranges",
        };
        write!(f, "refused {}: {meaning}", self.0)
    }
}

impl core::error::Error for Refusal {}

fn answer(number: u8) -> Result<(), Refusal> {
    if number == 0 { Ok(()) } else { Err(Refusal(number)) }
}

/// What a column came to: its grade and last vote, and the record that it ended on.
#[repr(C)]
#[derive(Clone, Copy, PartialEq, Eq, Debug, Default)]
pub struct Entry {
    mark: u8,
    pub grade: u8,
    pub vote: u8,
    has_record: u8,
    record: [u8; MOST_BYTES],
}

impl Entry {
    fn slice(entries: &mut [Entry]) -> (*mut u8, usize) {
        (entries.as_mut_ptr().cast(), size_of_val(entries))
    }

    /// Whether it is of a column that the sheet marks unsound; then there is nothing else in it.
    pub fn is_unsound(&self) -> bool {
        self.mark != 0
    }

    /// The record in 32 places, zeros past its m bytes; none where the column ended on none.
    pub fn record(&self) -> Option<&[u8; MOST_BYTES]> {
        (self.has_record != 0).then_some(&self.record)
    }
}

/// What a column runs, by the number that its state has.
#[derive(Clone, Copy, PartialEq, Eq, Debug)]
pub enum Protocol {
    /// Agreement on one record (Protocol 3.14).
    Agreement = 0,
    /// One column posts its record to all others (Protocol 3.11).
    Posting = 1,
}

/// A column: its state, in the bytes of `struct column_state`, which tells what it runs.
pub struct Column {
    state: [u8; STATE_BYTES],
}

impl Column {
    /// Column `own` of a wall of n columns that runs an agreement, with a record of m bytes.
    pub fn fresh(n: u32, m: u32, own: u32, record: &[u8]) -> Result<Column, Refusal> {
        let mut state = [0; STATE_BYTES];
        answer(unsafe { archive::column_fresh(n, m, own, record.as_ptr(), record.len(), state.as_mut_ptr(), state.len()) })?;
        Ok(Column { state })
    }

    /// Column `own` of a wall of n columns on which column `poster` posts its record of m bytes; another's record is not kept.
    pub fn posting(n: u32, m: u32, own: u32, poster: u32, record: &[u8]) -> Result<Column, Refusal> {
        let mut state = [0; STATE_BYTES];
        answer(unsafe { archive::posting_fresh(n, m, own, poster, record.as_ptr(), record.len(), state.as_mut_ptr(), state.len()) })?;
        Ok(Column { state })
    }

    /// Writes the messages of the round, one for each column by its number.
    pub fn speak(&mut self, out: &mut [u16]) -> Result<(), Refusal> {
        answer(unsafe { archive::column_speak(self.state.as_mut_ptr(), self.state.len(), out.as_mut_ptr(), out.len()) })
    }

    /// Reads the messages of the round, one from each column by its number.
    pub fn listen(&mut self, inbox: &[u16]) -> Result<(), Refusal> {
        answer(unsafe { archive::column_listen(self.state.as_mut_ptr(), self.state.len(), inbox.as_ptr(), inbox.len()) })
    }

    /// What the column ended on.
    pub fn outcome(&self) -> Result<Entry, Refusal> {
        let mut entry = [Entry::default()];
        let (out, len) = Entry::slice(&mut entry);
        answer(unsafe { archive::column_outcome(self.state.as_ptr(), self.state.len(), out, len) })?;
        Ok(entry[0])
    }

    /// The state, to be stored or sent.
    pub fn bytes(&self) -> &[u8; STATE_BYTES] {
        &self.state
    }

    /// The column of a state that was stored or sent. Bytes that are none are refused with 11 by every call.
    pub fn from_bytes(state: [u8; STATE_BYTES]) -> Column {
        Column { state }
    }
}

/// The rounds of a run of n columns; 0 where n is not 4 to 31.
pub fn rounds(protocol: Protocol, n: u32) -> usize {
    archive::column_rounds(protocol as u32, n)
}

/// The values of one message in a round of a run; 0 where n is not 4 to 31, m not 1 to 32, or there is no such round.
pub fn values(protocol: Protocol, n: u32, m: u32, round: u32) -> usize {
    archive::column_values(protocol as u32, n, m, round)
}
