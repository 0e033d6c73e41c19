//! Fresh cases, the proved archive against the reference in one process: `live [SEED [SHEETS CALLS]]`. Without a seed it takes one from the clock. Where they
//! differ it prints the seed, which makes the same cases again, and stores the case for the programs that play stored ones.
use reference::calls::ENTRY_BYTES;
use reference::cases::CallCase;
use std::num::NonZero;
use std::process::exit;
use std::thread;
use std::time::{Instant, SystemTime};
use trial::calls::{any_call, on_row};
use trial::proved;
use trial::random::Random;
use trial::refused::spoil;
use trial::walls::Plan;

/// A wall of any size, one of eight refused.
fn sheet(random: &Random) -> CallCase {
    let (n, m) = (random.between(4, 31), random.between(1, 32));
    let posting = random.chance(30);
    let mut case = Plan::any(n, m, posting, random).case(random);
    if random.below(8) == 0 {
        case = spoil(case, random);
    }
    on_row(case, n * ENTRY_BYTES, random)
}

/// Plays a case both ways: the number that both answered, or what each answered.
fn answer(case: &CallCase) -> Result<usize, [String; 2]> {
    let (mut ours, mut theirs) = (case.clone(), case.clone());
    let numbers = [proved::play(&mut ours), theirs.play()];
    if numbers[0] == numbers[1] && ours == theirs { Ok(numbers[0]) } else { Err([ours.line(numbers[0]), theirs.line(numbers[1])]) }
}

/// Plays one case; true where it was not refused.
fn agrees(what: &str, k: usize, seed: u64, make: impl Fn(&Random) -> CallCase) -> bool {
    // Each case has a seed of its own: it does not depend on how many were made before it.
    let case = make(&Random::new(seed.wrapping_add((k as u64) << 32)));
    let [ours, theirs] = match answer(&case) {
        Ok(number) => return number == 0,
        Err(answers) => answers,
    };
    let path = "target/differs.case";
    let stored = std::fs::File::create(path).and_then(|mut file| case.write(&mut file));
    println!("live: seed {seed}: the proved call and the reference differ in {what} {k}, {:?}{:?}", case.call, case.numbers);
    println!("the proved call: {ours}the reference:   {theirs}");
    println!("'target/bin/call_corpus <{path}', which 'tools/prove call_corpus' makes, and 'target/cargo/release/answer calls <{path}' play it again ({stored:?})");
    exit(1)
}

/// Plays so many cases, on all processors.
fn play(what: &str, count: usize, seed: u64, make: impl Fn(&Random) -> CallCase + Copy + Send) {
    let start = Instant::now();
    let threads = thread::available_parallelism().map_or(1, NonZero::get);
    let share = |first: usize| move || (first..count).step_by(threads).filter(|&k| agrees(what, k, seed, make)).count();
    let done: usize = thread::scope(|scope| {
        let shares: Vec<_> = (0..threads).map(|first| scope.spawn(share(first))).collect();
        shares.into_iter().map(|share| share.join().expect("a case is made and played without a panic")).sum()
    });
    println!("live: seed {seed}: {count} {what}s, {done} of them not refused: the same answers, in {:.0} s", start.elapsed().as_secs_f64());
}

fn main() {
    let words: Vec<String> = std::env::args().skip(1).collect();
    let Ok(numbers) = words.iter().map(|word| word.parse()).collect::<Result<Vec<u64>, _>>() else {
        eprintln!("usage: live [SEED [SHEETS CALLS]]");
        exit(2);
    };
    let clock = || SystemTime::now().duration_since(SystemTime::UNIX_EPOCH).map_or(0, |now| now.as_nanos() as u64 % 1_000_000_000_000);
    let seed = numbers.first().copied().unwrap_or_else(clock);
    let count = |k: usize, most: u64| numbers.get(k).copied().unwrap_or(most) as usize;
    play("sheet", count(1, 20_000), seed, sheet);
    play("single call", count(2, 400_000), seed, |random| any_call(32, random));
}
