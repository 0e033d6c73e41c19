//! n and m, and what follows from them.
use crate::Refusal;

/// What a value of a message is when nothing is said.
pub const BLANK: u16 = 65535;

/// What a wall runs.
#[derive(Clone, Copy, PartialEq, Eq, Hash, Debug)]
pub enum Protocol {
    /// Agreement on one record, Protocol 3.14 with the king rule.
    Agreement,
    /// Posting by the column of this number, Protocol 3.11.
    Posting(u32),
}

/// What a round is for.
#[derive(Clone, Copy, PartialEq, Eq, Debug)]
pub enum Kind {
    /// The column of this number sends its record.
    Post(u32),
    Exchange,
    FirstReport,
    SecondReport,
    Vote,
    Proposal,
    /// The column of this number is king.
    King(u32),
    /// Each column its values at the receiver's point.
    Points,
    /// The kept points.
    Kept,
}

/// The sizes of a wall.
#[derive(Clone, Copy, PartialEq, Eq, Debug)]
pub struct Sizes {
    pub n: usize,
    pub m: usize,
    /// How many columns may be unsound.
    pub t: usize,
    /// The degree of a block.
    pub d: usize,
    /// How many blocks a record has, B.
    pub blocks: usize,
}

impl Sizes {
    /// By document 01's formulas, whatever n and m are. For 4 to 31 columns document 02's ranges are the same.
    pub fn by_formula(n: u32, m: u32) -> Sizes {
        let (n, m) = (n as usize, m as usize);
        let t = n.saturating_sub(1) / 3;
        let d = t / 3;
        let blocks = m.div_ceil(d + 1);
        Sizes { n, m, t, d, blocks }
    }

    /// Refused with 1 and 2.
    pub fn of(n: u32, m: u32) -> Result<Sizes, Refusal> {
        if !(4..=31).contains(&n) {
            return Err(Refusal(1));
        }
        if !(1..=32).contains(&m) {
            return Err(Refusal(2));
        }
        Ok(Sizes::by_formula(n, m))
    }

    /// Refused with 3: no column has this number.
    pub fn number(&self, column: u32) -> Result<usize, Refusal> {
        let column = column as usize;
        if (1..=self.n).contains(&column) { Ok(column) } else { Err(Refusal(3)) }
    }

    /// Of a posting, refused with 3 where no column has the poster's number.
    pub fn poster(&self, protocol: Protocol) -> Result<(), Refusal> {
        match protocol {
            Protocol::Agreement => Ok(()),
            Protocol::Posting(s) => self.number(s).map(|_| ()),
        }
    }

    /// n - t.
    pub fn quorum(&self) -> usize {
        self.n - self.t
    }

    pub fn rounds(&self, protocol: Protocol) -> usize {
        match protocol {
            Protocol::Agreement => 3 * self.t + 8,
            Protocol::Posting(_) => 6,
        }
    }

    /// What a round is for, if there is one of this number.
    pub fn kind(&self, protocol: Protocol, round: usize) -> Option<Kind> {
        let phases = 3 * (self.t + 1);
        Some(match (protocol, round) {
            (Protocol::Posting(s), 1) => Kind::Post(s),
            (Protocol::Posting(_), 2) | (Protocol::Agreement, 1) => Kind::Exchange,
            (Protocol::Posting(_), 3) | (Protocol::Agreement, 2) => Kind::FirstReport,
            (Protocol::Posting(_), 4) | (Protocol::Agreement, 3) => Kind::SecondReport,
            (Protocol::Posting(_), 5) => Kind::Points,
            (Protocol::Posting(_), 6) => Kind::Kept,
            (Protocol::Agreement, 4..) if round - 4 < phases => match (round - 4) % 3 {
                0 => Kind::Vote,
                1 => Kind::Proposal,
                _ => Kind::King((round - 4) as u32 / 3 + 1),
            },
            (Protocol::Agreement, _) if round == 4 + phases => Kind::Points,
            (Protocol::Agreement, _) if round == 5 + phases => Kind::Kept,
            _ => return None,
        })
    }

    /// The values of one message.
    pub fn values(&self, kind: Kind) -> usize {
        match kind {
            Kind::Post(_) => self.m,
            Kind::Exchange => 2 * self.blocks,
            Kind::FirstReport | Kind::SecondReport | Kind::Vote | Kind::Proposal | Kind::King(_) => 1,
            Kind::Points | Kind::Kept => self.blocks,
        }
    }

    /// The values of all rounds.
    pub fn line(&self, protocol: Protocol) -> usize {
        match protocol {
            Protocol::Agreement => 4 * self.blocks + 3 * self.t + 5,
            Protocol::Posting(_) => self.m + 4 * self.blocks + 2,
        }
    }
}
