//! The calls of include/column.h and include/wall.h: a column's state is 171 bytes that the caller lends, a wall's entry 36.
use crate::Refusal;
use crate::column::{Column, Outcome, Stage};
use crate::decoder;
use crate::sizes::{BLANK, Protocol, Sizes};
use crate::wall::{Entry, Sheet};

pub const STATE_BYTES: usize = 171;
pub const ENTRY_BYTES: usize = 36;

/// 0, or the refusal's number.
fn number(answer: Result<(), Refusal>) -> u8 {
    answer.map_or_else(|refusal| refusal.0, |()| 0)
}

/// The state as its bytes.
pub fn encode(column: &Column) -> [u8; STATE_BYTES] {
    let (stage, round) = match column.stage {
        Stage::ToSpeak(round) => (0, round),
        Stage::ToListen(round) => (1, round),
        Stage::EndedOnNone => (2, 0),
        Stage::EndedOnRecord => (3, 0),
    };
    let (protocol, poster) = match column.protocol {
        Protocol::Agreement => (0, 0),
        Protocol::Posting(s) => (1, s as u8),
    };
    let mut bytes = [0; STATE_BYTES];
    bytes[..6].copy_from_slice(&[2, protocol, poster, column.n, column.m, column.own]);
    bytes[6..11].copy_from_slice(&[stage, round, column.grade, column.vote, column.firm.into()]);
    bytes[11..13].copy_from_slice(&column.proposal.to_le_bytes());
    bytes[13..45].copy_from_slice(&column.record);
    bytes[45..76].copy_from_slice(&column.agreements.map(u8::from));
    bytes[76..107].copy_from_slice(&column.reports.map(u8::from));
    for (bytes, point) in bytes[107..].chunks_exact_mut(2).zip(column.kept) {
        bytes.copy_from_slice(&point.to_le_bytes());
    }
    bytes
}

/// The state that bytes are; refused with 4 for a slice of another length, then with 11.
pub fn decode(bytes: &[u8]) -> Result<Column, Refusal> {
    let no_state = Refusal(11);
    let bytes: &[u8; STATE_BYTES] = bytes.try_into().map_err(|_| Refusal(4))?;
    let [2, protocol, poster, n, m, own, stage, round, grade, vote, firm, ..] = *bytes else { return Err(no_state) };
    let protocol = match (protocol, poster) {
        (0, 0) => Protocol::Agreement,
        (1, _) => Protocol::Posting(poster.into()),
        _ => return Err(no_state),
    };
    let stage = match (stage, round) {
        (0, _) => Stage::ToSpeak(round),
        (1, _) => Stage::ToListen(round),
        (2, 0) => Stage::EndedOnNone,
        (3, 0) => Stage::EndedOnRecord,
        _ => return Err(no_state),
    };
    let flags = &bytes[45..107];
    if firm > 1 || flags.iter().any(|&flag| flag > 1) {
        return Err(no_state);
    }
    let word = |at: usize| u16::from_le_bytes([bytes[at], bytes[at + 1]]);
    Ok(Column {
        protocol,
        n,
        m,
        own,
        record: std::array::from_fn(|i| bytes[13 + i]),
        proposal: word(11),
        stage,
        agreements: std::array::from_fn(|j| flags[j] == 1),
        reports: std::array::from_fn(|j| flags[31 + j] == 1),
        grade,
        vote,
        firm: firm == 1,
        kept: std::array::from_fn(|block| word(107 + 2 * block)),
    })
}

pub fn entry_bytes(entry: &Entry) -> [u8; ENTRY_BYTES] {
    let mut bytes = [0; ENTRY_BYTES];
    bytes[..4].copy_from_slice(&[entry.mark, entry.grade, entry.vote, entry.record.is_some().into()]);
    bytes[4..].copy_from_slice(&entry.record.unwrap_or([0; 32]));
    bytes
}

/// The length of a slice for an answer is asked for after everything else.
fn of_length(slice: usize, length: usize) -> Result<(), Refusal> {
    if slice == length { Ok(()) } else { Err(Refusal(4)) }
}

/// The protocol of a number. Who posts is the same to the rounds of a run and to their values.
fn protocol(number: u32) -> Option<Protocol> {
    match number {
        0 => Some(Protocol::Agreement),
        1 => Some(Protocol::Posting(1)),
        _ => None,
    }
}

/// The rounds of a run; 0 where no protocol has the number, or n is no wall's.
pub fn rounds(number: u32, n: u32) -> usize {
    let (Some(protocol), Ok(sizes)) = (protocol(number), Sizes::of(n, 1)) else { return 0 };
    sizes.rounds(protocol)
}

/// The values of a message in a round; 0 where no protocol has the number, n or m is no wall's, or the run has no such round.
pub fn values(number: u32, n: u32, m: u32, round: u32) -> usize {
    let (Some(protocol), Ok(sizes)) = (protocol(number), Sizes::of(n, m)) else { return 0 };
    sizes.kind(protocol, round as usize).map_or(0, |kind| sizes.values(kind))
}

pub fn fresh(protocol: Protocol, n: u32, m: u32, own: u32, record: &[u8], state: &mut [u8]) -> u8 {
    number(Column::fresh(protocol, n, m, own, record).and_then(|column| {
        of_length(state.len(), STATE_BYTES)?;
        state.copy_from_slice(&encode(&column));
        Ok(())
    }))
}

pub fn speak(state: &mut [u8], out: &mut [u16]) -> u8 {
    on_state(state, |column| column.speak(out))
}

pub fn listen(state: &mut [u8], inbox: &[u16]) -> u8 {
    on_state(state, |column| column.listen(inbox))
}

fn on_state(state: &mut [u8], call: impl FnOnce(&mut Column) -> Result<(), Refusal>) -> u8 {
    number(decode(state).and_then(|mut column| {
        call(&mut column)?;
        state.copy_from_slice(&encode(&column));
        Ok(())
    }))
}

pub fn outcome(state: &[u8], out: &mut [u8]) -> u8 {
    number(decode(state).and_then(|column| {
        let Outcome { grade, vote, record } = column.outcome()?;
        of_length(out.len(), ENTRY_BYTES)?;
        out.copy_from_slice(&entry_bytes(&Entry { mark: 0, grade, vote, record }));
        Ok(())
    }))
}

/// A row whose length is no multiple of 36 holds no entry.
pub fn wall(protocol: Protocol, bytes: &[u8], row: &mut [u8]) -> u8 {
    let room = if row.len().is_multiple_of(ENTRY_BYTES) { row.len() / ENTRY_BYTES } else { 0 };
    number(Sheet::read(protocol, bytes, Some(room)).and_then(|sheet| {
        let mut entries = [Entry::default(); 31];
        sheet.run(&mut entries)?;
        for (bytes, entry) in row.chunks_exact_mut(ENTRY_BYTES).zip(&entries) {
            bytes.copy_from_slice(&entry_bytes(entry));
        }
        Ok(())
    }))
}

pub fn decode_block(n: u32, points: &[u16], out: &mut [u16]) -> u8 {
    number(Sizes::of(n, 1).and_then(|sizes| {
        of_length(points.len(), sizes.n)?;
        of_length(out.len(), 4)?;
        out.copy_from_slice(&decoder::decode(&sizes, points).unwrap_or([BLANK; 4]));
        Ok(())
    }))
}
