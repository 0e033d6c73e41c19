//! States of a column: any round, any values in their ranges, and those that are not.
use crate::random::Random;
use crate::records;
use reference::calls::{STATE_BYTES, encode};
use reference::column::{Column, Stage};
use reference::sizes::{BLANK, Kind, Protocol, Sizes};

pub fn sizes(most: usize, random: &Random) -> Sizes {
    sizes_from(4, most, random)
}

/// A wall of at least so many columns; half of them are not much larger.
fn sizes_from(least: usize, most: usize, random: &Random) -> Sizes {
    let n = if random.chance(50) { random.between(least, least + 6) } else { random.between(least, 31) };
    let m = if random.chance(50) { random.between(1, most.min(6)) } else { random.between(1, most) };
    Sizes::of(n as u32, m as u32).expect("a wall's sizes")
}

/// `count` of the first n flags.
fn flags(n: usize, count: usize, random: &Random) -> [bool; 31] {
    let mut flags = [false; 31];
    random.order(n).into_iter().take(count).for_each(|j| flags[j] = true);
    flags
}

/// A count at a threshold, one below, one above, or anywhere.
pub fn around(threshold: usize, n: usize, random: &Random) -> usize {
    match random.below(8) {
        0..3 => threshold,
        3..6 => threshold - 1,
        6 => (threshold + 1).min(n),
        _ => random.below(n + 1),
    }
}

/// A state in its ranges, at any round; every kind of round comes up, the last the most often.
pub fn state(most: usize, posting: bool, random: &Random) -> Column {
    let turn = random.below(9);
    // In the last rounds, blocks of two bytes and more.
    let s = sizes_from(if turn >= 7 && random.chance(60) { 10 } else { 4 }, most, random);
    let round = match turn {
        0..3 => 1 + turn,
        3..6 if posting => 1 + turn,
        3..6 => 4 + 3 * random.below(s.t + 1) + turn - 3,
        _ => s.rounds(protocol(posting, 1)) - usize::from(turn == 6),
    } as u8;
    let stage = match random.below(10) {
        0 => random.pick(&[Stage::EndedOnNone, Stage::EndedOnRecord]),
        1..6 => Stage::ToListen(round),
        _ => Stage::ToSpeak(round),
    };
    state_at(&s, posting, stage, random)
}

fn protocol(posting: bool, poster: usize) -> Protocol {
    if posting { Protocol::Posting(poster as u32) } else { Protocol::Agreement }
}

/// A state in its ranges, at this stage.
pub fn state_at(s: &Sizes, posting: bool, stage: Stage, random: &Random) -> Column {
    let own = random.between(1, s.n);
    let poster = if random.chance(30) { own } else { random.between(1, s.n) };
    let record = records::any(s.m, random);
    let mut column = Column::fresh(protocol(posting, poster), s.n as u32, s.m as u32, own as u32, &record).expect("it is in range");
    if random.chance(70) {
        // A receiver of a posting, too, holds a record after the first round.
        column.record[..s.m].copy_from_slice(&record);
    }
    column.stage = stage;
    (column.grade, column.vote, column.firm) = (random.below(3) as u8, random.chance(70).into(), random.chance(40));
    column.proposal = random.pick(&[0, 1, BLANK]);
    (column.agreements, column.reports) = agreements_and_reports(s, own - 1, random);
    for point in &mut column.kept[..s.blocks] {
        *point = random.pick(&[BLANK, 0, 256, random.below(257) as u16]);
    }
    column
}

/// As many agreements as land around n - t, and as many reports from agreed columns; now and then not the own one.
fn agreements_and_reports(s: &Sizes, own: usize, random: &Random) -> ([bool; 31], [bool; 31]) {
    let agreements = flags(s.n, around(s.quorum(), s.n, random), random);
    let mut left = around(s.quorum(), s.n, random);
    let silent = random.chance(25);
    let mut reports = [false; 31];
    for j in random.order(s.n) {
        // Those that it does not agree with report too, more often than not.
        reports[j] = !(j == own && silent) && if agreements[j] { left > 0 } else { random.chance(70) };
        left -= usize::from(agreements[j] && reports[j]);
    }
    (agreements, reports)
}

/// How many parts of a state have a range.
pub const RANGES: usize = 13;

/// One part of a state out of its range, or still in it, where its range has no end.
pub fn out_of_range(part: usize, column: &mut Column, random: &Random) {
    let s = Sizes::by_formula(column.n.into(), column.m.into());
    match part {
        0 => column.n = random.pick(&[0, 3, 32, 255]),
        1 => column.m = random.pick(&[0, 33, 255]),
        2 => column.own = random.pick(&[0, column.n.wrapping_add(1), 32, 255]),
        3 => {
            if let Protocol::Posting(s) = &mut column.protocol {
                *s = random.pick(&[u32::from(column.n) + 1, 32, 255]);
            }
        }
        4 => {
            let round = random.pick(&[0, s.rounds(column.protocol) as u8 + 1, 7, 255]);
            column.stage = if random.chance(50) { Stage::ToSpeak(round) } else { Stage::ToListen(round) };
        }
        5 => column.grade = random.pick(&[3, 255]),
        6 => column.vote = random.pick(&[2, 255]),
        7 => column.proposal = random.pick(&[2, 255, 256, 257, 65534]),
        8 => column.kept[random.below(s.blocks.clamp(1, 32))] = random.pick(&[257, 514, 65534]),
        9 => past(&mut column.kept, s.blocks, random.pick(&[0, 256, 65534]), random),
        10 => past(&mut column.record, s.m, random.pick(&[1, 255]), random),
        11 => past(&mut column.agreements, s.n, true, random),
        _ => past(&mut column.reports, s.n, true, random),
    }
}

/// Sets something past the part that is used, just behind it or at the very end.
fn past<T>(array: &mut [T], used: usize, value: T, random: &Random) {
    let last = array.len() - 1;
    if used <= last {
        array[random.pick(&[used, last, random.between(used, last)])] = value;
    }
}

/// In how many ways bytes are made no state.
pub const DAMAGES: usize = 9;

/// Bytes that are no state any more, or another one: also the other protocol without its poster, a poster in an agreement, none in a posting.
pub fn damage(way: usize, bytes: &mut Vec<u8>, random: &Random) {
    match way {
        0 => bytes[0] = random.pick(&[0, 1, 255]),
        1 => bytes[1] = random.pick(&[1 - bytes[1], 2, 255]),
        2 => bytes[2] = random.pick(&[0, 1, 2]),
        3 => bytes[6] = random.pick(&[0, 2, 3, 4, 255]),
        4 => bytes[7] = random.pick(&[0, 1, 255]),
        5 => bytes[10] = 2,
        6 => bytes[random.between(45, 106)] = random.pick(&[2, 255]),
        7 => bytes.truncate(random.pick(&[0, 1, STATE_BYTES - 1])),
        _ => bytes.push(0),
    }
}

/// The bytes of a state, often with something out of its range, now and then bytes that are no state.
pub fn state_bytes(column: &Column, random: &Random) -> Vec<u8> {
    let mut column = *column;
    if random.chance(12) {
        (0..random.between(1, 2)).for_each(|_| out_of_range(random.below(RANGES), &mut column, random));
    }
    let mut bytes = encode(&column).to_vec();
    if random.chance(8) {
        damage(random.below(DAMAGES), &mut bytes, random);
    }
    bytes
}

/// The kind of the round that a column is at, and the length of its slices; after the end as in round 1.
pub fn round(column: &Column) -> (Kind, usize) {
    let s = Sizes::by_formula(column.n.into(), column.m.into());
    let round = match column.stage {
        Stage::ToSpeak(round) | Stage::ToListen(round) => round,
        _ => 1,
    };
    let kind = s.kind(column.protocol, round.into()).expect("the state is in range");
    (kind, s.n * s.values(kind))
}
