//! What a column may hear in a round: messages of all columns that land on the round's thresholds, and the points of a block.
use crate::random::Random;
use crate::records;
use crate::states::around;
use crate::values::{NO_BIT, NO_BYTE, NO_POINT, NO_REPORT, any, points};
use reference::column::Column;
use reference::field;
use reference::sizes::{BLANK, Kind, Sizes};

/// Messages of all columns in a round of this kind, by column number. What lies at the own place is anything, or what would tip the count.
pub fn inbox(column: &Column, kind: Kind, random: &Random) -> Vec<u16> {
    let s = Sizes::by_formula(column.n.into(), column.m.into());
    let width = s.values(kind);
    let mut values = match kind {
        Kind::Post(_) => (0..s.n).flat_map(|_| posted(width, random)).collect(),
        Kind::Exchange => (1..=s.n).flat_map(|j| exchanged(&s, column, j, random)).collect(),
        Kind::FirstReport | Kind::SecondReport => {
            let threshold = random.pick(&[s.quorum(), 2 * s.t + 1]);
            counted(s.n, &[(1, around(threshold, s.n, random))], &NO_REPORT, random)
        }
        Kind::Vote | Kind::Proposal => {
            let thresholds = [s.quorum(), s.t + 1];
            let bit = random.below(2) as u16;
            let counts = [bit, 1 - bit].map(|bit| (bit, around(random.pick(&thresholds), s.n, random)));
            counted(s.n, &counts, &NO_BIT, random)
        }
        Kind::King(_) => (0..s.n).map(|_| if random.chance(60) { random.below(2) as u16 } else { any(random) }).collect(),
        Kind::Points => by_block(s.n, (0..s.blocks).map(|_| candidates(&s, random)).collect()),
        Kind::Kept => by_block(s.n, kept(&s, random)),
    };
    if random.chance(40) {
        let own = usize::from(column.own) - 1;
        values[own * width..(own + 1) * width].fill_with(|| if random.chance(50) { random.below(2) as u16 } else { any(random) });
    }
    values
}

/// A poster's record, now and then with a value that is no byte.
fn posted(width: usize, random: &Random) -> Vec<u16> {
    let mut message: Vec<u16> = records::any(width, random).into_iter().map(u16::from).collect();
    if random.chance(40) {
        message[random.below(width)] = random.pick(&NO_BYTE);
    }
    message
}

/// What column j would send if it held the same record, or with one value changed.
fn exchanged(s: &Sizes, column: &Column, j: usize, random: &Random) -> Vec<u16> {
    let record = &column.record[..s.m];
    let mut message = [points(s, record, j), points(s, record, column.own.into())].concat();
    let place = random.below(message.len());
    match random.below(10) {
        0..6 => {}
        6 => message[place] = (message[place] + 1) % 257,
        7 => message[place] = message[place].wrapping_add(257),
        8 => message[place] = random.pick(&NO_POINT),
        _ => message.fill(BLANK),
    }
    message
}

/// One value from each of n columns, `counts` of each of the values, the rest from what is illegal.
fn counted(n: usize, counts: &[(u16, usize)], illegal: &[u16], random: &Random) -> Vec<u16> {
    let mut values: Vec<u16> = (0..n).map(|_| random.pick(illegal)).collect();
    let mut order = random.order(n).into_iter();
    for &(value, count) in counts {
        order.by_ref().take(count).for_each(|j| values[j] = value);
    }
    values
}

/// Points of one block: two or three values around t + 1 times, illegal ones among them.
fn candidates(s: &Sizes, random: &Random) -> Vec<u16> {
    let value = |random: &Random| random.pick(&[0, 1, 255, 256, 257, 65534, random.below(257) as u16, random.below(257) as u16]);
    let counts = [0; 3].map(|_| (value(random), around(s.t + 1, s.n, random)));
    counted(s.n, &counts, &NO_POINT, random)
}

/// Points of all blocks in the last round: those of a record, and one block has a flaw more often than not.
fn kept(s: &Sizes, random: &Random) -> Vec<Vec<u16>> {
    let flawed = random.below(s.blocks);
    let fills = s.m < s.blocks * (s.d + 1);
    let flaw = if fills && random.chance(30) { 0 } else { random.between(1, 5) };
    (0..s.blocks)
        .map(|block| {
            let start = block * (s.d + 1);
            let mut first = coefficients(s.d + 1, random);
            first.iter_mut().skip(s.m - start).for_each(|fill| *fill = 0);
            if block == s.blocks - 1 && flaw == 0 {
                // A byte past the record's end.
                first[random.between(s.m - start, s.d)] = random.between(1, 256) as u32;
            }
            match flaw {
                1 if block == flawed => first[random.below(s.d + 1)] = 256,
                2 if block == flawed => first.push(random.between(1, 256) as u32),
                3 | 4 if block == flawed => return around_quorum(s, &first, &coefficients(s.d + 1, random), random),
                _ => {}
            }
            at_least_quorum(s, &first, random)
        })
        .collect()
}

/// Messages by column number from the points of each block.
fn by_block(n: usize, blocks: Vec<Vec<u16>>) -> Vec<u16> {
    (0..n).flat_map(|j| blocks.iter().map(move |block| block[j])).collect()
}

/// So many coefficients, all of them bytes.
fn coefficients(count: usize, random: &Random) -> Vec<u32> {
    (0..count).map(|_| random.byte().into()).collect()
}

/// n points, around n - t of them on one polynomial, the others on a second one, blank, or anywhere. The first has a coefficient of 256 now and then, or one
/// more than a block has.
pub fn on_polynomials(s: &Sizes, random: &Random) -> Vec<u16> {
    let mut first = coefficients(if random.chance(10) { s.d + 2 } else { s.d + 1 }, random);
    if random.chance(10) {
        first[random.below(s.d + 1)] = 256;
    }
    around_quorum(s, &first, &coefficients(s.d + 1, random), random)
}

fn around_quorum(s: &Sizes, first: &[u32], second: &[u32], random: &Random) -> Vec<u16> {
    let at = |c: &[u32], j: usize| field::value(c.iter().copied(), j as u32 + 1) as u16;
    let count = around(s.quorum(), s.n, random);
    let rest = random.below(4);
    let mut values: Vec<u16> = (0..s.n).map(|j| at(first, j)).collect();
    for j in random.order(s.n).into_iter().skip(count) {
        values[j] = match rest {
            0 => at(second, j),
            1 => random.pick(&NO_POINT),
            2 => random.below(257) as u16,
            _ => random.pick(&[BLANK, at(second, j), random.below(257) as u16, 257 + at(first, j)]),
        };
    }
    values
}

/// Exactly n - t points on the polynomial, or all.
fn at_least_quorum(s: &Sizes, first: &[u32], random: &Random) -> Vec<u16> {
    let count = random.pick(&[s.n, s.quorum()]);
    let mut values: Vec<u16> = (1..=s.n as u32).map(|point| field::value(first.iter().copied(), point) as u16).collect();
    random.order(s.n).into_iter().skip(count).for_each(|j| values[j] = any(random));
    values
}
