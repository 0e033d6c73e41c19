//! Times, as rows of a table. The sides of a row take turns, and so do the rows, so that a busy moment of the machine spoils few turns of each; what counts is
//! each side's best.
use std::time::Instant;

/// One case, and what each side does in it.
pub struct Row<'a> {
    name: String,
    /// How many calls a side makes in one turn.
    calls: usize,
    sides: Vec<Box<dyn FnMut() + 'a>>,
    best: Vec<f64>,
}

impl<'a> Row<'a> {
    /// The proved program is the first side; the others are what it is held to.
    pub fn new(name: impl Into<String>, calls: usize, sides: Vec<Box<dyn FnMut() + 'a>>) -> Row<'a> {
        let best = vec![f64::INFINITY; sides.len()];
        Row { name: name.into(), calls, sides, best }
    }

    fn take_turn(&mut self) {
        for (best, side) in self.best.iter_mut().zip(&mut self.sides) {
            // Once for nothing, so that no side pays for bringing the inputs near.
            side();
            let start = Instant::now();
            side();
            *best = best.min(start.elapsed().as_nanos() as f64 / self.calls as f64);
        }
    }
}

/// The best nanoseconds of one call, of each side of each row.
pub fn measured(mut rows: Vec<Row>, turns: usize) -> Vec<(String, Vec<f64>)> {
    for _ in 0..turns {
        rows.iter_mut().for_each(Row::take_turn);
    }
    rows.into_iter().map(|row| (row.name, row.best)).collect()
}

/// Prints the rows, in nanoseconds or thousands of them, each other side with the ratio of the proved program to it.
pub fn print(sides: &[&str], unit: &str, nanoseconds: f64, rows: &[(String, Vec<f64>)]) {
    print!("\n| case | proved, {unit} |");
    sides.iter().for_each(|side| print!(" {side}, {unit} | ratio |"));
    println!("\n| --- | ---: |{}", " ---: | ---: |".repeat(sides.len()));
    for (name, best) in rows {
        let shown = |time: f64| if unit == "ns" { format!("{time:.0}") } else { format!("{:.2}", time / nanoseconds) };
        print!("| {name} | {} |", shown(best[0]));
        best[1..].iter().for_each(|&other| print!(" {} | {:.2} |", shown(other), best[0] / other));
        println!();
    }
}
