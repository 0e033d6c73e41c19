//! Answers stored cases from standard input as the reference does: `answer walls` those of the program `wall_corpus`, `answer calls` those of
//! `call_corpus`. What it prints is what the proved program must print.
use reference::cases::{CallCase, WallCase};
use std::io::{self, BufReader, BufWriter, Write};

fn main() -> io::Result<()> {
    let (mut input, mut output) = (BufReader::new(io::stdin()), BufWriter::new(io::stdout()));
    match std::env::args().nth(1).as_deref() {
        Some("walls") => {
            while let Some(case) = WallCase::read(&mut input)? {
                output.write_all(case.answer().as_bytes())?;
            }
        }
        Some("calls") => {
            while let Some(case) = CallCase::read(&mut input)? {
                output.write_all(case.answer().as_bytes())?;
            }
        }
        _ => return Err(io::Error::other("usage: answer walls | answer calls")),
    }
    output.flush()
}
