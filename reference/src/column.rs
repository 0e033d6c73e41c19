//! One column: its state, what it says and makes of what it hears in each round, and its refusals.
use crate::Refusal;
use crate::decoder::decode;
use crate::field;
use crate::sizes::{BLANK, Kind, Protocol, Sizes};

/// What a column is to do next.
#[derive(Clone, Copy, PartialEq, Eq, Debug)]
pub enum Stage {
    ToSpeak(u8),
    ToListen(u8),
    EndedOnNone,
    EndedOnRecord,
}

/// A column's state. Any numbers can stand in it; a call refuses those out of their ranges with 11. Column j has the flag at j - 1.
#[derive(Clone, Copy, PartialEq, Eq, Debug)]
pub struct Column {
    pub protocol: Protocol,
    pub n: u8,
    pub m: u8,
    pub own: u8,
    pub record: [u8; 32],
    pub proposal: u16,
    pub stage: Stage,
    pub agreements: [bool; 31],
    pub reports: [bool; 31],
    pub grade: u8,
    pub vote: u8,
    pub firm: bool,
    pub kept: [u16; 32],
}

/// What a column that ended answers: a record in 32 places, or none. In a posting the grade is the outcome's.
#[derive(Clone, Copy, PartialEq, Eq, Debug)]
pub struct Outcome {
    pub grade: u8,
    pub vote: u8,
    pub record: Option<[u8; 32]>,
}

/// The longest message, in values.
const LONGEST: usize = 64;

impl Column {
    /// Refused with 1, 2, 3, 4.
    pub fn fresh(protocol: Protocol, n: u32, m: u32, own: u32, record: &[u8]) -> Result<Column, Refusal> {
        let sizes = Sizes::of(n, m)?;
        sizes.number(own)?;
        sizes.poster(protocol)?;
        if record.len() != sizes.m {
            return Err(Refusal(4));
        }
        let mut column = Column {
            protocol,
            n: n as u8,
            m: m as u8,
            own: own as u8,
            record: [0; 32],
            proposal: BLANK,
            stage: Stage::ToSpeak(1),
            agreements: [false; 31],
            reports: [false; 31],
            grade: 0,
            vote: u8::from(protocol != Protocol::Agreement),
            firm: false,
            kept: [BLANK; 32],
        };
        if protocol == Protocol::Agreement || protocol == Protocol::Posting(own) {
            column.record[..sizes.m].copy_from_slice(record);
        }
        Ok(column)
    }

    /// Writes a message to each column. Refused with 11, 10, 7, 4.
    pub fn speak(&mut self, out: &mut [u16]) -> Result<(), Refusal> {
        let (sizes, round, kind) = self.turn(false)?;
        let values = sizes.values(kind);
        if out.len() != sizes.n * values {
            return Err(Refusal(4));
        }
        let mine = self.own_points(&sizes, kind);
        let (first, others) = out.split_at_mut(values);
        self.say(&sizes, kind, &mine, 1, first);
        for (to, message) in (2..).zip(others.chunks_exact_mut(values)) {
            match kind {
                Kind::Exchange | Kind::Points => self.say(&sizes, kind, &mine, to, message),
                // All other rounds say the same to all.
                _ => message.copy_from_slice(first),
            }
        }
        self.stage = Stage::ToListen(round);
        Ok(())
    }

    /// Reads a message from each column. Refused with 11, 10, 8, 4.
    pub fn listen(&mut self, inbox: &[u16]) -> Result<(), Refusal> {
        let (sizes, round, kind) = self.turn(true)?;
        let values = sizes.values(kind);
        if inbox.len() != sizes.n * values {
            return Err(Refusal(4));
        }
        // For its own place it uses what it would send itself.
        let mut own = [BLANK; LONGEST];
        let mine = self.own_points(&sizes, kind);
        self.say(&sizes, kind, &mine, self.own.into(), &mut own[..values]);
        let number = usize::from(self.own);
        let from = |j: usize| if j == number { &own[..values] } else { &inbox[(j - 1) * values..j * values] };
        let ended = self.hear(&sizes, kind, &mine, from);
        self.stage = ended.unwrap_or(Stage::ToSpeak(round + 1));
        Ok(())
    }

    /// Refused with 11, 9.
    pub fn outcome(&self) -> Result<Outcome, Refusal> {
        self.in_range()?;
        let record = match self.stage {
            Stage::EndedOnRecord => Some(self.record),
            Stage::EndedOnNone => None,
            _ => return Err(Refusal(9)),
        };
        let grade = match self.protocol {
            Protocol::Agreement => self.grade,
            Protocol::Posting(_) if self.grade == 2 => 2,
            Protocol::Posting(_) => u8::from(record.is_some()),
        };
        Ok(Outcome { grade, vote: self.vote, record })
    }

    /// The round in which the column is to speak or to listen, and what it is for. Refused with 11, 10, 7, 8.
    fn turn(&self, listens: bool) -> Result<(Sizes, u8, Kind), Refusal> {
        let sizes = self.in_range()?;
        let round = match (self.stage, listens) {
            (Stage::EndedOnNone | Stage::EndedOnRecord, _) => return Err(Refusal(10)),
            (Stage::ToListen(_), false) => return Err(Refusal(7)),
            (Stage::ToSpeak(_), true) => return Err(Refusal(8)),
            (Stage::ToSpeak(round) | Stage::ToListen(round), _) => round,
        };
        let kind = sizes.kind(self.protocol, round.into()).ok_or(Refusal(11))?;
        Ok((sizes, round, kind))
    }

    /// Refused with 11: a number out of its range.
    fn in_range(&self) -> Result<Sizes, Refusal> {
        let outside = |_| Refusal(11);
        let sizes = Sizes::of(self.n.into(), self.m.into()).map_err(outside)?;
        sizes.number(self.own.into()).map_err(outside)?;
        sizes.poster(self.protocol).map_err(outside)?;
        let round_fits = match self.stage {
            Stage::ToSpeak(round) | Stage::ToListen(round) => (1..=sizes.rounds(self.protocol)).contains(&round.into()),
            Stage::EndedOnNone | Stage::EndedOnRecord => true,
        };
        let fits = round_fits
            && self.grade <= 2
            && self.vote <= 1
            && matches!(self.proposal, 0 | 1 | BLANK)
            && self.record[sizes.m..].iter().all(|&byte| byte == 0)
            && !self.agreements[sizes.n..].contains(&true)
            && !self.reports[sizes.n..].contains(&true)
            && self.kept[..sizes.blocks].iter().all(|&point| point <= 256 || point == BLANK)
            && self.kept[sizes.blocks..].iter().all(|&point| point == BLANK);
        if fits { Ok(sizes) } else { Err(Refusal(11)) }
    }

    /// The vote that the rounds are played with: in a posting "taken as 1 everywhere".
    fn played_vote(&self) -> u8 {
        match self.protocol {
            Protocol::Agreement => self.vote,
            Protocol::Posting(_) => 1,
        }
    }

    /// The values of the record at a column's point, one per block.
    fn points(&self, sizes: &Sizes, point: usize, values: &mut [u16]) {
        let width = sizes.d + 1;
        for (value, block) in values.iter_mut().zip(self.record[..].chunks(width)) {
            *value = field::value(block.iter().map(|&byte| byte.into()), point as u32) as u16;
        }
    }

    /// Those at its own point, in the round that needs them for every column.
    fn own_points(&self, sizes: &Sizes, kind: Kind) -> [u16; 32] {
        let mut mine = [BLANK; 32];
        if kind == Kind::Exchange {
            self.points(sizes, self.own.into(), &mut mine[..sizes.blocks]);
        }
        mine
    }

    /// "1 to all if i agrees with at least n - t columns, itself counted"
    fn first_report(&self, sizes: &Sizes) -> bool {
        (0..sizes.n).filter(|&j| self.agreements[j]).count() >= sizes.quorum()
    }

    /// "1 to all if at least n - t columns that i agrees with sent a first report, and i sent one too"
    fn second_report(&self, sizes: &Sizes) -> bool {
        let from_agreed = (0..sizes.n).filter(|&j| self.agreements[j] && self.reports[j]).count();
        from_agreed >= sizes.quorum() && self.reports[usize::from(self.own) - 1]
    }

    /// The message to column `to`. What a kind does not say is blank. `mine` are the own points in the exchange.
    fn say(&self, sizes: &Sizes, kind: Kind, mine: &[u16; 32], to: usize, message: &mut [u16]) {
        let report = |sent: bool| if sent { 1 } else { BLANK };
        message.fill(BLANK);
        match kind {
            Kind::Post(s) => {
                if s == self.own.into() {
                    message.iter_mut().zip(self.record).for_each(|(value, byte)| *value = byte.into());
                }
            }
            Kind::Exchange => {
                let (first, second) = message.split_at_mut(sizes.blocks);
                first.copy_from_slice(&mine[..sizes.blocks]);
                self.points(sizes, to, second);
            }
            Kind::FirstReport => message[0] = report(self.first_report(sizes)),
            Kind::SecondReport => message[0] = report(self.second_report(sizes)),
            Kind::Vote => message[0] = self.vote.into(),
            Kind::Proposal => message[0] = self.proposal,
            Kind::King(k) => {
                if k == self.own.into() {
                    message[0] = self.vote.into();
                }
            }
            // "With vote 1 and grade 1 or 2, column i sends j its values at j; else blanks."
            Kind::Points => {
                if self.played_vote() == 1 && self.grade > 0 {
                    self.points(sizes, to, message);
                }
            }
            Kind::Kept => {
                if self.played_vote() == 1 {
                    message.copy_from_slice(&self.kept[..sizes.blocks]);
                }
            }
        }
    }

    /// What the column makes of a round, where `from` has the message of each column; where it ends, on what.
    fn hear<'a>(&mut self, sizes: &Sizes, kind: Kind, mine: &[u16; 32], from: impl Fn(usize) -> &'a [u16]) -> Option<Stage> {
        let times = |value: u16| (1..=sizes.n).filter(|&j| from(j)[0] == value).count();
        match kind {
            Kind::Post(s) => {
                if s != self.own.into() {
                    self.record = taken(from(s as usize));
                }
            }
            // "j's first value equals i's block at j and j's second equals i's block at i"
            Kind::Exchange => {
                for j in 1..=sizes.n {
                    let mut theirs = [BLANK; 32];
                    self.points(sizes, j, &mut theirs[..sizes.blocks]);
                    let (first, second) = from(j).split_at(sizes.blocks);
                    self.agreements[j - 1] = *first == theirs[..sizes.blocks] && *second == mine[..sizes.blocks];
                }
            }
            Kind::FirstReport => (1..=sizes.n).for_each(|j| self.reports[j - 1] = from(j)[0] == 1),
            Kind::SecondReport => self.settle_grade(sizes, times(1)),
            // "If 0 or 1 was received at least n - t times, propose it in the next round, else blank."
            Kind::Vote => {
                let quorum = |&bit: &u16| times(bit) >= sizes.quorum();
                self.proposal = [0, 1].into_iter().find(quorum).unwrap_or(BLANK);
            }
            // "a bit proposed at least t + 1 times becomes the vote; if both were, 1. The vote is firm if it was proposed at least n - t times."
            Kind::Proposal => {
                let proposed = |&bit: &u8| times(bit.into()) >= sizes.t + 1;
                self.vote = [1, 0].into_iter().find(proposed).unwrap_or(self.vote);
                self.firm = times(self.vote.into()) >= sizes.quorum();
            }
            // "A column that is not firm takes it, or 0 if it is blank."
            Kind::King(k) => {
                if !self.firm {
                    self.vote = u8::from(from(k as usize)[0] == 1);
                }
            }
            Kind::Points => (0..sizes.blocks).for_each(|block| self.kept[block] = kept_point(sizes, |j| from(j)[block])),
            Kind::Kept => return Some(self.end(if self.played_vote() == 1 { decoded_record(sizes, from) } else { None })),
        }
        None
    }

    /// "Grade 2: i sent it and received at least 2t + 1 of them from any columns. Grade 1: sent, fewer received. Grade 0: not sent." "The vote starts as 1 exactly at
    /// grade 2"; in a posting it stays.
    fn settle_grade(&mut self, sizes: &Sizes, received: usize) {
        self.grade = match self.second_report(sizes) {
            false => 0,
            true if received >= 2 * sizes.t + 1 => 2,
            true => 1,
        };
        if self.protocol == Protocol::Agreement {
            self.vote = u8::from(self.grade == 2);
        }
    }

    /// "A column that ends on a record holds it in place of its own; one that ends on none keeps its own."
    fn end(&mut self, decoded: Option<[u8; 32]>) -> Stage {
        let Some(record) = decoded else { return Stage::EndedOnNone };
        self.record = record;
        Stage::EndedOnRecord
    }
}

/// "A receiver that finds a value outside 0 to 255 takes a record of m zeros."
fn taken(message: &[u16]) -> [u8; 32] {
    let mut record = [0; 32];
    for (byte, &value) in record.iter_mut().zip(message) {
        let Ok(legal) = u8::try_from(value) else { return [0; 32] };
        *byte = legal;
    }
    record
}

/// "the point received at least t + 1 times: the smallest if several, blank if none"
fn kept_point(sizes: &Sizes, point_from: impl Fn(usize) -> u16) -> u16 {
    let mut times = [0u8; 257];
    let mut kept = BLANK;
    for j in 1..=sizes.n {
        let point = point_from(j);
        let Some(times) = times.get_mut(usize::from(point)) else { continue };
        *times += 1;
        if usize::from(*times) == sizes.t + 1 {
            kept = kept.min(point);
        }
    }
    kept
}

/// "none .. if a block has none, if a coefficient is 256 or a fill byte is not 0; else the record"
fn decoded_record<'a>(sizes: &Sizes, from: impl Fn(usize) -> &'a [u16]) -> Option<[u8; 32]> {
    let width = sizes.d + 1;
    let mut record = [0; 32];
    for block in 0..sizes.blocks {
        let mut points = [BLANK; 31];
        (1..=sizes.n).for_each(|j| points[j - 1] = from(j)[block]);
        let coefficients = decode(sizes, &points[..sizes.n])?;
        for (place, &coefficient) in (block * width..).zip(&coefficients[..width]) {
            let byte = u8::try_from(coefficient).ok()?;
            if place < sizes.m {
                record[place] = byte;
            } else if byte != 0 {
                return None;
            }
        }
    }
    Some(record)
}
