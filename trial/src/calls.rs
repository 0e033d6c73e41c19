//! Single calls, with everything that they are handed.
use crate::inboxes::{inbox, on_polynomials};
use crate::random::Random;
use crate::refused::spoil;
use crate::states::{round, sizes, state, state_bytes};
use crate::values::any;
use crate::walls::Plan;
use reference::calls::{ENTRY_BYTES, STATE_BYTES};
use reference::cases::{Call, CallCase, WallCase};
use reference::column::{Column, Stage};
use reference::sizes::{BLANK, Protocol};

/// Any call; `most` bounds the bytes of a record, so that stored cases stay small.
pub fn any_call(most: usize, random: &Random) -> CallCase {
    match random.below(100) {
        0..4 => lengths(random),
        4..10 => fresh(most, random),
        10..28 => in_round(most, false, random),
        28..76 => in_round(most, true, random),
        76..82 => outcome(most, random),
        82..88 => wall(most, random),
        _ => decode(random),
    }
}

/// The length of a slice: mostly the right one.
fn length(right: usize, step: usize, random: &Random) -> usize {
    if random.chance(88) {
        return right;
    }
    random.pick(&[0, 1, right.saturating_sub(1), right + 1, right.saturating_sub(step), right + step, 2 * right])
}

/// A number in a range, or just outside of it, or one that is in range if it is cut to a byte.
fn edge(low: u32, high: u32, random: &Random) -> u32 {
    if random.chance(70) {
        return random.between(low as usize, high as usize) as u32;
    }
    random.pick(&[0, low - 1, low, high, high + 1, 255, 256, 256 + low, 65536 + low, u32::MAX])
}

/// Rounds and values: numbers of any size.
fn lengths(random: &Random) -> CallCase {
    let mut case = CallCase::new(random.pick(&[Call::ColumnRounds, Call::ColumnValues, Call::ColumnValues]));
    let protocol = random.pick(&[0, 0, 0, 1, 1, 1, 2, 255, 256, 257, u32::MAX]);
    case.numbers = [edge(4, 31, random), edge(1, 32, random), edge(1, 38, random), protocol];
    case
}

/// Junk, so that a write to it shows.
pub fn junk(len: usize, random: &Random) -> Vec<u8> {
    (0..len).map(|_| random.byte()).collect()
}

fn fresh(most: usize, random: &Random) -> CallCase {
    let s = sizes(most, random);
    let mut case = CallCase::new(random.pick(&[Call::ColumnFresh, Call::PostingFresh]));
    case.numbers = [s.n as u32, s.m as u32, random.between(1, s.n) as u32, random.between(1, s.n) as u32];
    if random.chance(20) {
        case.numbers[3] = case.numbers[2];
    }
    for _ in 0..random.below(3) {
        let which = random.below(4);
        case.numbers[which] = [edge(4, 31, random), edge(1, 32, random), edge(1, s.n as u32, random), edge(1, s.n as u32, random)][which];
    }
    let m = (case.numbers[1] as usize).min(40);
    case.a = junk(length(m, 1, random), random);
    case.b = junk(length(STATE_BYTES, 1, random), random);
    case
}

/// To speak or to listen, mostly where it is the column's turn.
fn in_round(most: usize, listens: bool, random: &Random) -> CallCase {
    let posting = random.chance(30);
    let mut column = state(most, posting, random);
    if let (Stage::ToSpeak(round) | Stage::ToListen(round), true) = (column.stage, random.chance(90)) {
        column.stage = if listens { Stage::ToListen(round) } else { Stage::ToSpeak(round) };
    }
    let (_, right) = round(&column);
    on_state(listens, &column, state_bytes(&column, random), length(right, column.n.into(), random), random)
}

/// The call to speak or to listen on a state's bytes, with a slice of so many values: what the column may hear in its round, or anything.
pub fn on_state(listens: bool, column: &Column, bytes: Vec<u8>, len: usize, random: &Random) -> CallCase {
    let mut case = CallCase::new(if listens { Call::ColumnListen } else { Call::ColumnSpeak });
    case.b = bytes;
    if listens {
        case.v = inbox(column, round(column).0, random);
    }
    case.v.resize_with(len, || any(random));
    case
}

fn outcome(most: usize, random: &Random) -> CallCase {
    let mut column = state(most, random.chance(50), random);
    if random.chance(80) {
        column.stage = random.pick(&[Stage::EndedOnNone, Stage::EndedOnRecord]);
    }
    asked(state_bytes(&column, random), length(ENTRY_BYTES, 1, random), random)
}

/// The call for the outcome on a state's bytes, with a slice of so many bytes for it.
pub fn asked(bytes: Vec<u8>, len: usize, random: &Random) -> CallCase {
    let mut case = CallCase::new(Call::ColumnOutcome);
    (case.a, case.b) = (bytes, junk(len, random));
    case
}

/// A wall on a row of any length.
fn wall(most: usize, random: &Random) -> CallCase {
    let (n, m) = (random.between(4, 7), random.between(1, most));
    let posting = random.chance(40);
    let mut played = Plan::any(n, m, posting, random).case(random);
    if random.chance(40) {
        played = spoil(played, random);
    }
    on_row(played, length(n * ENTRY_BYTES, ENTRY_BYTES, random), random)
}

/// The call that runs a wall.
pub fn on_row(played: WallCase, row: usize, random: &Random) -> CallCase {
    let mut case = CallCase::new(Call::ColumnWall);
    if let Protocol::Posting(s) = played.protocol {
        (case.call, case.numbers[3]) = (Call::PostingWall, s);
    }
    case.a = played.sheet;
    case.b = junk(row, random);
    case
}

fn decode(random: &Random) -> CallCase {
    let mut case = CallCase::new(Call::ColumnDecode);
    let s = sizes(1, random);
    case.numbers[0] = s.n as u32;
    case.v = on_polynomials(&s, random);
    if random.chance(10) {
        case.numbers[0] = edge(4, 31, random);
    }
    case.v.resize(length(s.n, 1, random), BLANK);
    case.w = (0..length(4, 1, random)).map(|_| any(random)).collect();
    case
}
