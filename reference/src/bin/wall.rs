//! Prints the listing of the sheet on standard input, as the proved program `wall` does.
use reference::listing::listing;
use reference::sizes::Protocol;
use std::io::{self, Read, Write};

fn main() -> io::Result<()> {
    let mut sheet = vec![];
    // The longest sheet has 42,565 bytes; of a longer input one byte more is enough to refuse it.
    io::stdin().take(42_566).read_to_end(&mut sheet)?;
    io::stdout().write_all(listing(Protocol::Agreement, &sheet).as_bytes())
}
