//! A planner's sheet, taken apart: what every example that plays one needs.
use locker_column::{Entry, Protocol, Refusal, posting_wall, rounds, values, wall};

/// What an unsound column says: by receiver, then by round, the values of the message.
pub type Lines = Vec<Vec<Vec<u16>>>;

/// A sheet that was accepted.
pub struct Sheet {
    /// The columns, and the bytes of a record.
    pub n: usize,
    pub m: usize,
    /// The values of a message, round by round.
    pub widths: Vec<usize>,
    pub records: Vec<Vec<u8>>,
    /// Of each unsound column its lines; none of a sound one.
    pub lines: Vec<Option<Lines>>,
}

impl Sheet {
    /// Of bytes that are accepted as a sheet of an agreement, or of a posting.
    pub fn of(bytes: &[u8], posting: bool) -> Sheet {
        let (n, m) = (bytes[0].into(), bytes[1].into());
        let widths = widths(if posting { Protocol::Posting } else { Protocol::Agreement }, bytes[0].into(), bytes[1].into());
        let (marks, rest) = bytes[2..].split_at(n);
        let (records, rest) = rest.split_at(n * m);
        let mut values = rest.chunks(2).map(|pair| u16::from_le_bytes([pair[0], pair[1]]));
        let mut line = || widths.iter().map(|&width| values.by_ref().take(width).collect()).collect();
        let mut lines_to_all = || (0..n).map(|_| line()).collect();
        let lines = marks.iter().map(|&mark| (mark == 1).then(&mut lines_to_all)).collect();
        Sheet { n, m, widths, records: records.chunks(m).map(<[u8]>::to_vec).collect(), lines }
    }

    /// t: how many columns may be unsound.
    pub fn faults(&self) -> usize {
        (self.n - 1) / 3
    }

    /// B: the blocks of a record.
    pub fn blocks(&self) -> usize {
        self.m.div_ceil(self.faults() / 3 + 1)
    }

    /// The first line of the listing.
    pub fn heading(&self) -> String {
        let (t, d) = (self.faults(), self.faults() / 3);
        format!("wall {} {} t {t} d {d} blocks {} rounds {}", self.n, self.m, self.blocks(), self.widths.len())
    }
}

/// The values of a message, round by round.
fn widths(protocol: Protocol, n: u32, m: u32) -> Vec<usize> {
    (1..=rounds(protocol, n) as u32).map(|round| values(protocol, n, m, round)).collect()
}

/// The entries that the wall run gives, or why the bytes are no sheet. That the library knows; nothing is tested here.
pub fn entries(bytes: &[u8], poster: Option<u32>) -> Result<Vec<Entry>, Refusal> {
    let mut row = vec![Entry::default(); usize::from(*bytes.first().unwrap_or(&0))];
    match poster {
        Some(poster) => posting_wall(poster, bytes, &mut row)?,
        None => wall(bytes, &mut row)?,
    }
    Ok(row)
}

/// The poster's number as the program `posting_wall` reads it: 0, which is no column, for what is no decimal number.
pub fn number(text: &str) -> u32 {
    let digits = text.bytes().all(|letter| letter.is_ascii_digit());
    if digits { text.parse().unwrap_or(0) } else { 0 }
}

/// Two lower-case digits a byte, as in the listing.
pub fn hex(bytes: &[u8]) -> String {
    bytes.iter().map(|byte| format!("{byte:02x}")).collect()
}
