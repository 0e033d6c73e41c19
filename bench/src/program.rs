//! The program, from standard input to listing, process and all: `wall` and the reference's.
use crate::timing::{self, Row};
use std::fs::File;
use std::process::{Command, Stdio};

fn run(program: &str, sheet: &str) {
    let input = File::open(sheet).unwrap_or_else(|error| panic!("{sheet}: {error}"));
    let status = Command::new(program).stdin(input).stdout(Stdio::null()).status().unwrap_or_else(|error| panic!("{program}: {error}"));
    assert!(status.success(), "{program} ended with {status}");
}

pub fn table() {
    let row = |name: &str, sheet: &'static str| {
        let side = |program: &'static str| Box::new(move || run(program, sheet)) as Box<dyn FnMut()>;
        Row::new(name, 1, vec![side("target/bin/wall"), side("target/cargo/release/wall")])
    };
    let rows = vec![row("31 columns, 32 bytes, ten unsound", "walls/large.bytes"), row("refused at once (the process alone)", "/dev/null")];
    timing::print(&["reference"], "ms", 1e6, &timing::measured(rows, 500));
}
