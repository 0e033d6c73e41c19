//! A whole wall: a planner's sheet, and the run that it describes.
use crate::Refusal;
use crate::column::Column;
use crate::sizes::{Protocol, Sizes};

/// What a column of a wall came to. Of an unsound column only the mark is set.
#[derive(Clone, Copy, PartialEq, Eq, Debug, Default)]
pub struct Entry {
    pub mark: u8,
    pub grade: u8,
    pub vote: u8,
    pub record: Option<[u8; 32]>,
}

/// An accepted sheet.
pub struct Sheet<'a> {
    protocol: Protocol,
    pub sizes: Sizes,
    marks: &'a [u8],
    records: &'a [u8],
    lines: &'a [u8],
}

impl<'a> Sheet<'a> {
    /// Refused with 4, 1, 2, 3 (of a posting), 4, 5, 6, 4. `row` is how many entries there is room for; none where nobody wants them.
    pub fn read(protocol: Protocol, bytes: &'a [u8], row: Option<usize>) -> Result<Sheet<'a>, Refusal> {
        let [n, m, rest @ ..] = bytes else { return Err(Refusal(4)) };
        let sizes = Sizes::of((*n).into(), (*m).into())?;
        sizes.poster(protocol)?;
        if rest.len() < sizes.n + sizes.n * sizes.m || row.is_some_and(|row| row != sizes.n) {
            return Err(Refusal(4));
        }
        let (marks, rest) = rest.split_at(sizes.n);
        if marks.iter().any(|&mark| mark > 1) {
            return Err(Refusal(5));
        }
        let unsound = marks.iter().filter(|&&mark| mark == 1).count();
        if unsound > sizes.t {
            return Err(Refusal(6));
        }
        let (records, lines) = rest.split_at(sizes.n * sizes.m);
        if lines.len() != 2 * unsound * sizes.n * sizes.line(protocol) {
            return Err(Refusal(4));
        }
        Ok(Sheet { protocol, sizes, marks, records, lines })
    }

    fn record(&self, j: usize) -> &'a [u8] {
        &self.records[(j - 1) * self.sizes.m..j * self.sizes.m]
    }

    fn is_sound(&self, j: usize) -> bool {
        self.marks[j - 1] == 0
    }

    /// What the unsound column that has `before` others before it sends column i, from value `sent` of its line on.
    fn lied(&self, before: usize, i: usize, sent: usize, message: &mut [u16]) {
        let start = (before * self.sizes.n + i - 1) * self.sizes.line(self.protocol) + sent;
        for (value, bytes) in message.iter_mut().zip(self.lines[2 * start..].chunks_exact(2)) {
            *value = u16::from_le_bytes([bytes[0], bytes[1]]);
        }
    }

    /// Drives the columns through all rounds, and writes an entry for each.
    pub fn run(&self, row: &mut [Entry]) -> Result<(), Refusal> {
        let n = self.sizes.n;
        let make = |j| Column::fresh(self.protocol, n as u32, self.sizes.m as u32, j as u32, self.record(j));
        let mut columns = [make(1)?; 31];
        for j in 1..=n {
            columns[j - 1] = make(j)?;
        }
        let mut mail = [[0; 992]; 31];
        let mut inbox = [0; 992];
        let mut sent = 0;
        for round in 1..=self.sizes.rounds(self.protocol) {
            let values = self.sizes.kind(self.protocol, round).map_or(0, |kind| self.sizes.values(kind));
            for j in (1..=n).filter(|&j| self.is_sound(j)) {
                columns[j - 1].speak(&mut mail[j - 1][..n * values])?;
            }
            for i in (1..=n).filter(|&i| self.is_sound(i)) {
                let mut unsound = 0;
                for (j, message) in (1..).zip(inbox[..n * values].chunks_exact_mut(values)) {
                    if self.is_sound(j) {
                        message.copy_from_slice(&mail[j - 1][(i - 1) * values..i * values]);
                    } else {
                        self.lied(unsound, i, sent, message);
                        unsound += 1;
                    }
                }
                columns[i - 1].listen(&inbox[..n * values])?;
            }
            sent += values;
        }
        for (j, entry) in (1..=n).zip(row) {
            *entry = Entry { mark: 1, ..Entry::default() };
            if self.is_sound(j) {
                let outcome = columns[j - 1].outcome()?;
                *entry = Entry { mark: 0, grade: outcome.grade, vote: outcome.vote, record: outcome.record };
            }
        }
        Ok(())
    }
}
