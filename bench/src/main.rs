//! The proved program against the reference: that the decoders give the same answers, then tables of times and of stack, and how the time grows.
mod decoding;
mod gao_tables;
mod growth;
mod program;
mod rounds;
mod stack;
mod timing;
mod walls;

use std::process::exit;
use trial::random::Random;

fn main() {
    // Every run has the same inputs.
    let random = &Random::new(257);
    match std::env::args().nth(1).as_deref() {
        Some("check") => decoding::check(random),
        Some("growth") => growth::picture(random),
        Some("stack") => stack::table(random),
        None => {
            println!("## The decoder\n");
            decoding::check(random);
            [31, 10, 4].into_iter().for_each(|n| decoding::table(n, random));
            println!("\n## One call");
            [31, 4].into_iter().for_each(|n| rounds::table(n, random));
            println!("\n## A whole wall");
            walls::table(random);
            println!("\n## The program");
            program::table();
            println!("\n## The stack");
            stack::table(random);
        }
        Some(_) => {
            eprintln!("usage: bench [check | growth | stack]");
            exit(2);
        }
    }
}
