//! How deep the calls go: the bytes of stack that each takes, read off a stack that was painted before.
use crate::decoding;
use crate::rounds::{Moment, moments};
use locker_column::{Column as Proved, Entry, archive};
use reference::calls::{self, ENTRY_BYTES, STATE_BYTES};
use reference::sizes::{Kind, Protocol, Sizes};
use std::hint::black_box;
use std::thread;
use trial::random::Random;
use trial::records::Camps;
use trial::walls::{Mood, Plan};

const PAINTED: usize = 1 << 20;
const PAINT: u8 = 0xa5;

/// The bytes below this function's frame that a call wrote to.
#[inline(never)]
fn depth(call: &mut dyn FnMut()) -> usize {
    let here = 0u8;
    // What this function itself needs stands above the painted bytes.
    let top = (&raw const here).addr() - 256;
    let bottom = top - PAINTED;
    let byte = |address: usize| std::ptr::with_exposed_provenance_mut::<u8>(address);
    // The thread that this runs on has four times as much stack, and nothing lives below this frame.
    unsafe { (bottom..top).for_each(|address| byte(address).write_volatile(PAINT)) };
    call();
    let untouched = unsafe { (bottom..top).take_while(|&address| byte(address).read_volatile() == PAINT).count() };
    PAINTED + 256 - untouched
}

/// The deepest of the calls that are made of the cases. What a caller lends to a call is made before, and counts for nobody.
fn deepest<T: Sync, F: FnMut()>(cases: &[T], call: impl Fn(&T) -> F + Sync) -> usize {
    thread::scope(|scope| {
        let measure = || cases.iter().map(|case| depth(&mut call(case))).max().expect("there is a case");
        let thread = thread::Builder::new().stack_size(4 * PAINTED).spawn_scoped(scope, measure).expect("a thread can be started");
        thread.join().expect("no call panics")
    })
}

/// The deepest call of each side: the proved one, and the reference's.
fn both<T: Sync, F: FnMut(), G: FnMut()>(cases: &[T], proved: impl Fn(&T) -> F + Sync, reference: impl Fn(&T) -> G + Sync) -> [usize; 2] {
    [deepest(cases, proved), deepest(cases, reference)]
}

/// The call that makes a column.
fn fresh(protocol: Protocol) -> [usize; 2] {
    both(
        &[4, 9, 31],
        |&n| {
            let (record, mut state) = ([1; 32], [0; STATE_BYTES]);
            move || {
                let (record, record_len, state, state_len) = (record.as_ptr(), record.len(), state.as_mut_ptr(), state.len());
                let answer = match protocol {
                    Protocol::Agreement => unsafe { archive::column_fresh(n, 32, 1, record, record_len, state, state_len) },
                    Protocol::Posting(poster) => unsafe { archive::posting_fresh(n, 32, 1, poster, record, record_len, state, state_len) },
                };
                assert_eq!(answer, 0);
            }
        },
        |&n| {
            let (record, mut state) = ([1; 32], [0; STATE_BYTES]);
            move || assert_eq!(calls::fresh(protocol, n, 32, 1, &record, &mut state), 0)
        },
    )
}

fn speak(moments: &[Moment]) -> [usize; 2] {
    both(
        moments,
        |moment| {
            let (mut column, mut out) = (Box::new(Proved::from_bytes(calls::encode(&moment.speaks))), vec![0; moment.inbox.len()]);
            move || column.speak(&mut out).expect("it is to speak")
        },
        |moment| {
            let (mut state, mut out) = (calls::encode(&moment.speaks).to_vec(), vec![0; moment.inbox.len()]);
            move || assert_eq!(calls::speak(&mut state, &mut out), 0)
        },
    )
}

fn listen(moments: &[Moment]) -> [usize; 2] {
    both(
        moments,
        |moment| {
            let (mut column, inbox) = (Box::new(Proved::from_bytes(calls::encode(&moment.listens))), moment.inbox.clone());
            move || column.listen(&inbox).expect("it is to listen")
        },
        |moment| {
            let (mut state, inbox) = (calls::encode(&moment.listens).to_vec(), moment.inbox.clone());
            move || assert_eq!(calls::listen(&mut state, &inbox), 0)
        },
    )
}

fn outcome(moments: &[Moment]) -> [usize; 2] {
    let ended: Vec<_> = moments
        .iter()
        .filter(|moment| moment.kind == Kind::Kept)
        .map(|moment| {
            let mut column = moment.listens;
            column.listen(&moment.inbox).expect("it is to listen");
            calls::encode(&column)
        })
        .collect();
    both(
        &ended,
        |&state| {
            let column = Box::new(Proved::from_bytes(state));
            move || {
                black_box(column.outcome().expect("it has ended"));
            }
        },
        |&state| {
            let mut entry = [0; ENTRY_BYTES];
            move || assert_eq!(calls::outcome(&state, &mut entry), 0)
        },
    )
}

/// Walls of 31 columns and 32 bytes.
fn whole_walls(posting: bool, random: &Random) -> [usize; 2] {
    let plan = |camps| Plan { n: 31, m: 32, posting, camps, mood: Mood::Mixed, fewer: 0, kings: false, liar_posts: false };
    let cases = Camps::ALL.map(|camps| plan(camps).case(random));
    both(
        &cases,
        |case| {
            let (protocol, sheet, mut row) = (case.protocol, case.sheet.clone(), vec![Entry::default(); 31]);
            move || {
                let answer = match protocol {
                    Protocol::Agreement => locker_column::wall(&sheet, &mut row),
                    Protocol::Posting(poster) => locker_column::posting_wall(poster, &sheet, &mut row),
                };
                answer.expect("a sheet of the trial");
            }
        },
        |case| {
            let (protocol, sheet, mut row) = (case.protocol, case.sheet.clone(), vec![0; 31 * ENTRY_BYTES]);
            move || assert_eq!(calls::wall(protocol, &sheet, &mut row), 0)
        },
    )
}

fn decoder(random: &Random) -> [usize; 2] {
    both(
        &decoding::hardest(random),
        |points| {
            let points = points.clone();
            move || {
                black_box(locker_column::decode(points.len() as u32, &points).expect("points of a wall"));
            }
        },
        |points| {
            let (points, mut out) = (points.clone(), [0; 4]);
            move || assert_eq!(calls::decode_block(points.len() as u32, &points, &mut out), 0)
        },
    )
}

pub fn table(random: &Random) {
    // A call on a state is deepest in one of the protocols: it is made in both.
    let runs = [4, 9, 31].into_iter().flat_map(|n| [(n, Protocol::Agreement), (n, Protocol::Posting(1))]);
    let moments: Vec<Moment> = runs.flat_map(|(n, protocol)| moments(protocol, &Sizes::by_formula(n, 32), random)).collect();
    let rows = [
        ("column_fresh", fresh(Protocol::Agreement)),
        ("posting_fresh", fresh(Protocol::Posting(1))),
        ("column_speak", speak(&moments)),
        ("column_listen", listen(&moments)),
        ("column_outcome", outcome(&moments)),
        ("column_decode", decoder(random)),
        ("column_wall", whole_walls(false, random)),
        ("posting_wall", whole_walls(true, random)),
    ];
    println!("\n| deepest call | proved, bytes | reference, bytes | ratio |\n| --- | ---: | ---: | ---: |");
    for (name, [proved, reference]) in rows {
        println!("| `{name}` | {proved} | {reference} | {:.2} |", proved as f64 / reference as f64);
    }
}
