//! Each boundary of a single call: every wrong length in every kind of round, every stage, every part of a state out of its range, every refusal before every
//! later one.
use crate::calls::{asked, junk, on_state};
use crate::inboxes::on_polynomials;
use crate::random::Random;
use crate::states::{DAMAGES, RANGES, damage, out_of_range, round, state_at};
use crate::values::any;
use reference::calls::{ENTRY_BYTES, STATE_BYTES, encode};
use reference::cases::{Call, CallCase};
use reference::column::{Column, Stage};
use reference::sizes::{Protocol, Sizes};

pub fn all(random: &Random) -> Vec<CallCase> {
    let mut cases = [runs(), fresh(random), decode(random)].concat();
    for (n, m, posting) in [(4, 1), (7, 3), (10, 3)].into_iter().flat_map(|(n, m)| [(n, m, false), (n, m, true)]) {
        let s = Sizes::of(n, m).expect("a wall's sizes");
        cases.extend(lengths(&s, posting, random));
        cases.extend(stages(&s, posting, random));
        cases.extend(parts(&s, posting, random));
    }
    cases
}

/// The rounds of a run and their values, each number at its ends and past them, some of which are in range if they are cut to a byte.
fn runs() -> Vec<CallCase> {
    let mut cases = vec![];
    for (protocol, n) in [0, 1, 2, 256, 257].into_iter().flat_map(|protocol| [3, 4, 31, 32, 260].map(|n| (protocol, n))) {
        let case = |call, m, round| CallCase { numbers: [n, m, round, protocol], ..CallCase::new(call) };
        let last = Sizes::by_formula(n, 1).rounds(if protocol == 0 { Protocol::Agreement } else { Protocol::Posting(1) }) as u32;
        cases.push(case(Call::ColumnRounds, 0, 0));
        cases.extend([0, 33, 257].map(|m| case(Call::ColumnValues, m, 1)));
        cases.extend([0, 1, 2, last - 1, last, last + 1, 257].map(|round| case(Call::ColumnValues, 32, round)));
    }
    cases
}

/// A round of each kind.
fn rounds(s: &Sizes, posting: bool) -> Vec<u8> {
    if posting {
        return (1..=6).collect();
    }
    let last = s.rounds(Protocol::Agreement) as u8;
    (1..=6).chain([last - 1, last]).collect()
}

fn stage(listens: bool, round: u8) -> Stage {
    if listens { Stage::ToListen(round) } else { Stage::ToSpeak(round) }
}

/// Slices around the right length, in each kind of round.
fn lengths(s: &Sizes, posting: bool, random: &Random) -> Vec<CallCase> {
    let mut cases = vec![];
    for (at, listens) in rounds(s, posting).into_iter().flat_map(|at| [(at, false), (at, true)]) {
        let column = state_at(s, posting, stage(listens, at), random);
        let (_, right) = round(&column);
        for len in [0, 1, right - s.n, right - 1, right, right + 1, right + s.n] {
            cases.push(on_state(listens, &column, encode(&column).to_vec(), len, random));
        }
    }
    cases
}

/// Every call at every stage, with the right length and with none: what the stage refuses comes first.
fn stages(s: &Sizes, posting: bool, random: &Random) -> Vec<CallCase> {
    let ends = [Stage::EndedOnNone, Stage::EndedOnRecord];
    let turns = rounds(s, posting).into_iter().flat_map(|at| [stage(false, at), stage(true, at)]);
    let columns = turns.chain(ends).map(|stage| state_at(s, posting, stage, random));
    columns.flat_map(|column| every_call(&column, encode(&column).to_vec(), random)).collect()
}

/// Every part of a state out of its range, and bytes that are no state.
fn parts(s: &Sizes, posting: bool, random: &Random) -> Vec<CallCase> {
    let mut cases = vec![];
    for part in 0..RANGES + DAMAGES {
        let at = random.pick(&rounds(s, posting));
        let column = state_at(s, posting, random.pick(&[stage(false, at), stage(true, at), Stage::EndedOnRecord]), random);
        let mut changed = column;
        if part < RANGES {
            out_of_range(part, &mut changed, random);
        }
        let mut bytes = encode(&changed).to_vec();
        if part >= RANGES {
            damage(part - RANGES, &mut bytes, random);
        }
        cases.extend(every_call(&column, bytes, random));
    }
    cases
}

/// The calls to speak, to listen and for the outcome, each with the right length and with none; for the outcome also with a byte less and more.
fn every_call(column: &Column, bytes: Vec<u8>, random: &Random) -> Vec<CallCase> {
    let (_, right) = round(column);
    let spoken = [(false, 0), (false, right), (true, 0), (true, right)].map(|(listens, len)| on_state(listens, column, bytes.clone(), len, random));
    let told = [0, ENTRY_BYTES - 1, ENTRY_BYTES, ENTRY_BYTES + 1].map(|len| asked(bytes.clone(), len, random));
    spoken.into_iter().chain(told).collect()
}

/// Each of n, m, own and poster's number and both lengths right or wrong, in all combinations.
fn fresh(random: &Random) -> Vec<CallCase> {
    let mut cases = vec![];
    for (wrong, call) in (0..64).flat_map(|wrong| [(wrong, Call::ColumnFresh), (wrong, Call::PostingFresh)]) {
        let pick = |bit: usize, right: &[u32], other: &[u32]| random.pick(if wrong >> bit & 1 == 0 { right } else { other });
        let mut case = CallCase::new(call);
        case.numbers = [pick(0, &[4, 31], &[3, 32, 260]), pick(1, &[1, 32], &[0, 33, 257]), pick(2, &[1, 4], &[0, 32, 257]), pick(3, &[1, 4], &[0, 32, 257])];
        let m = case.numbers[1].min(40);
        case.a = junk(pick(4, &[m], &[m + 1, m.saturating_sub(1), 0]) as usize, random);
        case.b = junk(pick(5, &[STATE_BYTES as u32], &[0, STATE_BYTES as u32 - 1, STATE_BYTES as u32 + 1]) as usize, random);
        cases.push(case);
    }
    cases
}

/// Walls and lengths at their ends.
fn decode(random: &Random) -> Vec<CallCase> {
    let mut cases = vec![];
    for (n, k) in [3, 4, 10, 31, 32, 260].into_iter().flat_map(|n| (0..16).map(move |k| (n, k))) {
        let s = Sizes::by_formula(if n > 32 { 4 } else { n }, 1);
        let mut case = CallCase::new(Call::ColumnDecode);
        case.numbers[0] = n;
        case.v = on_polynomials(&s, random);
        case.v.resize([s.n, s.n - 1, s.n + 1, 0][k / 4], 0);
        case.w = (0..[4, 3, 5, 0][k % 4]).map(|_| any(random)).collect();
        cases.push(case);
    }
    cases
}
