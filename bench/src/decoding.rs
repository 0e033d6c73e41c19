//! One decode: the proved decoder and two of Gao's in Rust. First that they give the same answers, then how long each takes.
use crate::gao_tables;
use crate::timing::{self, Row};
use reference::field;
use reference::sizes::Sizes;
use std::hint::black_box;
use trial::random::Random;

type Decode = fn(&Sizes, &[u16]) -> Option<[u16; 4]>;

const SIDES: [Decode; 3] = [proved, reference::decoder::decode, by_tables];

fn proved(sizes: &Sizes, points: &[u16]) -> Option<[u16; 4]> {
    locker_column::decode(sizes.n as u32, points).expect("n points are not refused")
}

fn by_tables(sizes: &Sizes, points: &[u16]) -> Option<[u16; 4]> {
    gao_tables::decode(sizes.n, points)
}

fn sizes(n: usize) -> Sizes {
    Sizes::by_formula(n as u32, 1)
}

fn element(random: &Random) -> u16 {
    random.below(257) as u16
}

fn polynomial(sizes: &Sizes, random: &Random) -> [u16; 4] {
    let mut c = [0; 4];
    c[..=sizes.d].fill_with(|| element(random));
    c
}

/// The value at place i, counted from 0.
fn value(c: &[u16; 4], i: usize) -> u16 {
    field::value(c.iter().map(|&c| c.into()), i as u32 + 1) as u16
}

#[derive(Clone, Copy)]
enum At {
    First,
    Third,
    Random,
}

/// `count` of the n places.
fn places(at: At, count: usize, n: usize, random: &Random) -> Vec<usize> {
    let mut order = match at {
        At::First => (0..n).collect(),
        At::Third => (0..3).flat_map(|start| (start..n).step_by(3)).collect(),
        At::Random => random.order(n),
    };
    order.truncate(count);
    order
}

/// The points of a random polynomial, `count` of them changed.
fn points(at: At, count: usize, sizes: &Sizes, random: &Random, change: fn(u16, &Random) -> u16) -> Vec<u16> {
    let c = polynomial(sizes, random);
    let mut points: Vec<u16> = (0..sizes.n).map(|i| value(&c, i)).collect();
    for i in places(at, count, sizes.n, random) {
        points[i] = change(points[i], random);
    }
    points
}

fn errors(at: At, count: usize, sizes: &Sizes, random: &Random) -> Vec<u16> {
    points(at, count, sizes, random, |value, random| (value + 1 + random.below(256) as u16) % 257)
}

fn blanks(at: At, count: usize, sizes: &Sizes, random: &Random) -> Vec<u16> {
    points(at, count, sizes, random, |_, random| random.pick(&[257, 258, 514, 32768, 65534, 65535]))
}

/// `count` random places on a second polynomial.
fn camps(count: usize, sizes: &Sizes, random: &Random) -> Vec<u16> {
    let second = polynomial(sizes, random);
    let mut points = errors(At::First, 0, sizes, random);
    for i in places(At::Random, count, sizes.n, random) {
        points[i] = value(&second, i);
    }
    points
}

fn noise(sizes: &Sizes, random: &Random) -> Vec<u16> {
    (0..sizes.n).map(|_| element(random)).collect()
}

/// Points of walls of 4, 9 and 31 columns that ask the most of a decoder: t errors, and noise.
pub fn hardest(random: &Random) -> Vec<Vec<u16>> {
    [4, 9, 31].map(sizes).iter().flat_map(|sizes| [errors(At::First, sizes.t, sizes, random), noise(sizes, random)]).collect()
}

/// All decoders give the same answers, and these meet enough places.
pub fn check(random: &Random) {
    let mut answers = [0, 0];
    for n in 4..=31 {
        let sizes = &sizes(n);
        for round in 0..6000 {
            let (count, at) = (random.below(sizes.t + 2), random.pick(&[At::First, At::Third, At::Random]));
            let mut p = match round % 6 {
                0 | 1 => errors(at, count, sizes, random),
                2 => blanks(at, count, sizes, random),
                3 => camps(count, sizes, random),
                4 => camps(random.below(n + 1), sizes, random),
                _ => noise(sizes, random),
            };
            // Every other time blanks and errors together, up to one more than can be corrected.
            if round % 12 > 5 {
                for i in places(At::Random, random.below(sizes.t + 2 - count.min(sizes.t)), n, random) {
                    p[i] = random.pick(&[257, 65534, 65535, element(random)]);
                }
            }
            let [ours, gaos, tables] = SIDES.map(|decode| decode(sizes, &p));
            let meets = |c| (0..n).filter(|&i| value(&c, i) == p[i]).count();
            if ours != gaos || ours != tables || ours.is_some_and(|c| meets(c) < sizes.quorum()) {
                println!("n = {n}, points {p:?}: the proved decoder says {ours:?}, Gao's {gaos:?} and {tables:?}");
                std::process::exit(1);
            }
            answers[ours.is_some() as usize] += 1;
        }
    }
    println!("The same answers for n from 4 to 31: {} polynomials, {} times none.", answers[1], answers[0]);
}

/// Inputs of one kind, one after the other: `some` if they have a polynomial.
fn inputs(count: usize, some: bool, sizes: &Sizes, make: impl Fn() -> Vec<u16>) -> Vec<u16> {
    // Now and then random points do have a polynomial: those are left out.
    let wanted = std::iter::repeat_with(make).filter(|p| SIDES[1](sizes, p).is_some() == some);
    wanted.take(count).collect::<Vec<_>>().concat()
}

pub fn table(n: usize, random: &Random) {
    const INPUTS: usize = 1024;
    type Make = fn(&Sizes, &Random) -> Vec<u16>;
    let cases: [(&str, bool, Make); 8] = [
        ("no errors", true, |s, r| errors(At::First, 0, s, r)),
        ("t errors, first places", true, |s, r| errors(At::First, s.t, s, r)),
        ("t errors, every third place", true, |s, r| errors(At::Third, s.t, s, r)),
        ("t errors, random places", true, |s, r| errors(At::Random, s.t, s, r)),
        ("none (random points)", false, noise),
        ("none (two camps)", false, |s, r| camps(s.n / 2, s, r)),
        ("t blanks, first places", true, |s, r| blanks(At::First, s.t, s, r)),
        ("t + 1 blanks", false, |s, r| blanks(At::Random, s.t + 1, s, r)),
    ];
    let sizes = sizes(n);
    let cases = cases.map(|(name, some, make)| (name, inputs(INPUTS, some, &sizes, || make(&sizes, random))));
    let play = |decode: Decode, inputs: &[u16]| {
        for points in inputs.chunks_exact(n) {
            black_box(decode(black_box(&sizes), black_box(points)));
        }
    };
    let row = |(name, inputs)| Row::new(name, INPUTS, SIDES.map(|decode| Box::new(move || play(decode, inputs)) as Box<dyn FnMut()>).into());
    let coefficients = if sizes.d == 0 { "coefficient" } else { "coefficients" };
    println!("\nn = {n}, t = {}, {} {coefficients}:", sizes.t, sizes.d + 1);
    let rows = timing::measured(cases.iter().map(|(name, inputs)| (*name, &inputs[..])).map(row).collect(), 100);
    timing::print(&["Gao", "Gao by tables and SSE2"], "ns", 1.0, &rows);
}
