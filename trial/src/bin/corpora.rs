//! Makes the stored cases: `corpora DIR` writes DIR/wall_corpus and DIR/call_corpus, each with `stdin` (the cases) and `stdout` (what the reference answers).
//! They are made from a fixed seed, so that every run writes the same bytes.
use reference::cases::{CallCase, WallCase};
use reference::sizes::Sizes;
use std::collections::HashSet;
use std::fs;
use std::io;
use std::path::Path;
use trial::boundaries;
use trial::calls::{any_call, on_row};
use trial::random::Random;
use trial::records::Camps;
use trial::refused::faults;
use trial::walls::{Mood, Plan};

/// Accepted sheets of every n, the record's length going round from 1 to 32, every camp with every mood; the large walls are fewer, since their sheets
/// are long.
fn accepted(random: &Random) -> Vec<WallCase> {
    let mut cases = vec![];
    let mut turn = 0;
    for n in 4..=31 {
        let walls = match n {
            ..10 => 24,
            ..19 => 15,
            _ => 10,
        };
        for k in 0..walls {
            // Every other wall is of the mood that leaves the most open.
            let mood = if turn % 2 == 0 { Mood::Mixed } else { Mood::ALL[turn / 2 % Mood::ALL.len()] };
            let camps = Camps::ALL[turn % Camps::ALL.len()];
            let fewer = if k % 8 == 7 { 1 + k / 8 } else { 0 };
            let plan = Plan { n, m: (turn * 5 + 31) % 32 + 1, posting: k % 3 == 2, camps, mood, fewer, kings: k % 2 == 1, liar_posts: k % 4 != 2 };
            cases.push(plan.case(random));
            turn += 1;
        }
        // Postings in which n - t kept points or one less are on the record's polynomial.
        for k in 0..4 {
            let m = 1 + random.below(Sizes::by_formula(n as u32, 1).d + 1);
            let plan = Plan { n, m, posting: true, camps: Camps::Quorum(k % 3), mood: Mood::Late, fewer: 0, kings: k % 2 == 0, liar_posts: true };
            cases.push(plan.case(random));
        }
    }
    cases
}

/// Small sheets, each with every fault and every two of them; larger ones with every fault.
fn refused(random: &Random) -> Vec<WallCase> {
    let mut cases = vec![];
    for (n, m, posting) in [(4, 1, false), (4, 1, true), (6, 2, false), (7, 3, true), (10, 32, false), (19, 31, true)] {
        let fewer = if n > 7 { 2 } else { 0 };
        let base = Plan { n, m, posting, camps: Camps::Quorum(0), mood: Mood::Mixed, fewer, kings: false, liar_posts: false }.case(random);
        let faults = faults(&base);
        for (k, first) in faults.iter().enumerate() {
            cases.push(first.put(base.clone()));
            if n == 4 {
                cases.extend(faults[..k].iter().flat_map(|second| [second.put(first.put(base.clone())), first.put(second.put(base.clone()))]));
            }
        }
    }
    // The longest sheet there is, whole and a byte longer.
    let longest = Plan { n: 31, m: 32, posting: false, camps: Camps::Three(1), mood: Mood::Mixed, fewer: 0, kings: true, liar_posts: false }.case(random);
    let mut longer = longest.clone();
    longer.sheet.push(0);
    cases.extend([longest, longer]);
    cases
}

/// The calls that run a wall, on rows of every length around the right one, with sheets of every fault.
fn rows(random: &Random) -> Vec<CallCase> {
    let mut cases = vec![];
    for posting in [false, true] {
        let base = Plan { n: 4, m: 2, posting, camps: Camps::Quorum(0), mood: Mood::OnIt, fewer: 0, kings: false, liar_posts: false }.case(random);
        // The right one is four entries of 36 bytes.
        for row in [0, 1, 35, 36, 107, 108, 109, 143, 144, 145, 180] {
            let spoiled = faults(&base).into_iter().map(|fault| fault.put(base.clone()));
            cases.extend(std::iter::once(base.clone()).chain(spoiled).map(|case| on_row(case, row, random)));
        }
    }
    cases
}

fn unique<T: Clone + Eq + std::hash::Hash>(cases: Vec<T>) -> Vec<T> {
    let mut seen = HashSet::new();
    cases.into_iter().filter(|case| seen.insert(case.clone())).collect()
}

fn store(dir: &Path, stdin: &[u8], stdout: &str) -> io::Result<()> {
    fs::create_dir_all(dir)?;
    fs::write(dir.join("stdin"), stdin)?;
    fs::write(dir.join("stdout"), stdout)
}

fn main() -> io::Result<()> {
    let Some(dir) = std::env::args().nth(1) else { return Err(io::Error::other("usage: corpora DIR")) };
    let dir = Path::new(&dir);
    let random = Random::new(1);

    let accepted = accepted(&random);
    let walls = unique([accepted.clone(), refused(&random)].concat());
    let mut stdin = vec![];
    walls.iter().try_for_each(|case| case.write(&mut stdin))?;
    let stdout: String = walls.iter().map(WallCase::answer).collect();
    store(&dir.join("wall_corpus"), &stdin, &stdout)?;
    eprintln!("corpora: {} accepted sheets, {} sheets in all, {} bytes", accepted.len(), walls.len(), stdin.len());

    let mut calls = [rows(&random), boundaries::all(&random)].concat();
    calls.extend((0..2000).map(|_| any_call(8, &random)));
    calls.extend((0..250).map(|_| any_call(32, &random)));
    let calls = unique(calls);
    let mut stdin = vec![];
    calls.iter().try_for_each(|case| case.write(&mut stdin))?;
    let stdout: String = calls.iter().cloned().map(CallCase::answer).collect();
    store(&dir.join("call_corpus"), &stdin, &stdout)?;
    eprintln!("corpora: {} single calls, {} bytes", calls.len(), stdin.len());
    Ok(())
}
