//! One call to speak and one to listen, in each kind of round.
use crate::timing::{self, Row};
use locker_column::{Column as Proved, MOST_VALUES};
use reference::calls::{self, STATE_BYTES};
use reference::column::Column;
use reference::sizes::{Kind, Protocol, Sizes};
use std::hint::black_box;
use trial::random::Random;

/// A column of a wall in one round of a run: before it speaks, before it listens, and to what.
pub struct Moment {
    pub kind: Kind,
    pub speaks: Column,
    pub listens: Column,
    pub inbox: Vec<u16>,
}

/// The moments of every sound column in a run. All sound columns hold one record, and t unsound ones, the first, send any points and bits: so that all rounds
/// have their work, the last one wrong points at the first places of every block.
pub fn moments(protocol: Protocol, sizes: &Sizes, random: &Random) -> Vec<Moment> {
    let (n, m) = (sizes.n as u32, sizes.m as u32);
    let record: Vec<u8> = (0..m).map(|_| random.byte()).collect();
    let mut columns: Vec<Column> = (1..=n).map(|own| Column::fresh(protocol, n, m, own, &record).expect("a wall's sizes")).collect();
    let mut moments = vec![];
    for round in 1..=sizes.rounds(protocol) {
        let kind = sizes.kind(protocol, round).expect("the run has this round");
        let values = sizes.values(kind);
        let before = columns.clone();
        let mut mail = vec![vec![0; sizes.n * values]; sizes.n];
        for (j, (column, out)) in columns.iter_mut().zip(&mut mail).enumerate() {
            column.speak(out).expect("it is to speak");
            if j < sizes.t {
                out.fill_with(|| random.below(if values > 1 { 257 } else { 2 }) as u16);
            }
        }
        for (i, column) in columns.iter_mut().enumerate() {
            let inbox: Vec<u16> = mail.iter().flat_map(|out| out[i * values..(i + 1) * values].to_vec()).collect();
            let listens = *column;
            column.listen(&inbox).expect("it is to listen");
            if i >= sizes.t {
                moments.push(Moment { kind, speaks: before[i], listens, inbox });
            }
        }
    }
    moments
}

fn name(kind: Kind) -> &'static str {
    match kind {
        Kind::Post(_) => "post",
        Kind::Exchange => "exchange",
        Kind::FirstReport => "first report",
        Kind::SecondReport => "second report",
        Kind::Vote => "vote",
        Kind::Proposal => "proposal",
        Kind::King(_) => "king",
        Kind::Points => "points",
        Kind::Kept => "kept points",
    }
}

type State = [u8; STATE_BYTES];

/// A side that makes one call at each of the moments, on a state's bytes or on the reference's own struct.
fn side<'a>(moments: &'a [&Moment], states: &'a [State], mut call: impl FnMut(&Moment, State) + 'a) -> Box<dyn FnMut() + 'a> {
    Box::new(move || moments.iter().zip(states).for_each(|(moment, state)| call(moment, *state)))
}

/// The proved call, the reference's on the same bytes, and the reference's on its own struct.
fn speak<'a>(moments: &'a [&Moment], states: &'a [State]) -> Row<'a> {
    let [mut first, mut second, mut third] = [[0; MOST_VALUES]; 3];
    let proved = side(moments, states, move |moment, state| {
        let mut column = Proved::from_bytes(state);
        column.speak(black_box(&mut first[..moment.inbox.len()])).expect("it is to speak");
        black_box(column.bytes());
    });
    let on_bytes = side(moments, states, move |moment, mut state| {
        assert_eq!(calls::speak(&mut state, black_box(&mut second[..moment.inbox.len()])), 0);
        black_box(&state);
    });
    let on_struct = side(moments, states, move |moment, _| {
        let mut column = moment.speaks;
        column.speak(black_box(&mut third[..moment.inbox.len()])).expect("it is to speak");
        black_box(&column);
    });
    Row::new(format!("{}, speak", name(moments[0].kind)), moments.len(), vec![proved, on_bytes, on_struct])
}

fn listen<'a>(moments: &'a [&Moment], states: &'a [State]) -> Row<'a> {
    let proved = side(moments, states, |moment, state| {
        let mut column = Proved::from_bytes(state);
        column.listen(black_box(&moment.inbox)).expect("it is to listen");
        black_box(column.bytes());
    });
    let on_bytes = side(moments, states, move |moment, mut state| {
        assert_eq!(calls::listen(&mut state, black_box(&moment.inbox)), 0);
        black_box(&state);
    });
    let on_struct = side(moments, states, |moment, _| {
        let mut column = moment.listens;
        column.listen(black_box(&moment.inbox)).expect("it is to listen");
        black_box(&column);
    });
    Row::new(format!("{}, listen", name(moments[0].kind)), moments.len(), vec![proved, on_bytes, on_struct])
}

/// A wall of n columns with records of 32 bytes.
pub fn table(n: u32, random: &Random) {
    const KINDS: [&str; 9] = ["post", "exchange", "first report", "second report", "vote", "proposal", "king", "points", "kept points"];
    let sizes = Sizes::by_formula(n, 32);
    let runs = || [Protocol::Posting(n), Protocol::Agreement].into_iter().flat_map(|protocol| moments(protocol, &sizes, random));
    let all: Vec<Moment> = (0..10).flat_map(|_| runs()).collect();
    // The rounds that both protocols have are taken from the agreement.
    let of_kind = |kind| all.iter().filter(move |moment| name(moment.kind) == kind && (kind == "post") == (moment.speaks.protocol != Protocol::Agreement));
    let kinds: Vec<Vec<&Moment>> = KINDS.map(|kind| of_kind(kind).collect()).into();
    let before = |column: fn(&Moment) -> &Column| kinds.iter().map(|moments| moments.iter().map(|moment| calls::encode(column(moment))).collect()).collect();
    let (speaking, listening): (Vec<Vec<State>>, Vec<Vec<State>>) = (before(|moment| &moment.speaks), before(|moment| &moment.listens));
    let states = speaking.iter().zip(&listening);
    let rows = kinds.iter().zip(states).flat_map(|(moments, (speaking, listening))| [speak(moments, speaking), listen(moments, listening)]);
    println!("\nn = {n}, 32 bytes:");
    timing::print(&["reference", "reference on its own struct"], "ns", 1.0, &timing::measured(rows.collect(), 100));
}
