//! What a round is, and the cell of a column in it.
use crate::play::{Manner, Round, State};
use crate::sheet::hex;
use crate::svg::Svg;
use locker_column::{BLANK, Entry};

/// What a round is; of the king rule with the phase, which is the number of its king.
#[derive(Clone, Copy, PartialEq)]
pub enum Kind {
    Post,
    Exchange,
    FirstReport,
    SecondReport,
    Votes(usize),
    Proposals(usize),
    King(usize),
    Points,
    KeptPoints,
}

impl Kind {
    /// All rounds of an agreement with so many kings, or of a posting, which has none.
    pub fn all(kings: usize, posting: bool) -> Vec<Kind> {
        let post = posting.then_some(Kind::Post);
        let dispersal = [Kind::Exchange, Kind::FirstReport, Kind::SecondReport];
        let phases = (1..=kings).filter(|_| !posting).flat_map(|k| [Kind::Votes(k), Kind::Proposals(k), Kind::King(k)]);
        post.into_iter().chain(dispersal).chain(phases).chain([Kind::Points, Kind::KeptPoints]).collect()
    }

    /// Its name in one or two lines, and what the cells of sound columns show.
    pub fn head(self) -> (String, &'static str) {
        let (name, shown) = match self {
            Kind::Post => ("post", "record"),
            Kind::Exchange => ("exchange", "agrees with"),
            Kind::FirstReport => ("first\nreport", "came from"),
            Kind::SecondReport => ("second\nreport", "grade"),
            Kind::Votes(_) => ("votes", "proposal"),
            Kind::Proposals(_) => ("proposals", "vote"),
            Kind::King(king) => return (format!("king {king}"), "vote"),
            Kind::Points => ("points", "kept point"),
            Kind::KeptPoints => ("kept\npoints", "outcome"),
        };
        (name.into(), shown)
    }

    /// The part of the protocol that it belongs to, and more of it.
    pub fn part(self) -> (String, String) {
        match self {
            Kind::Post => ("posting".into(), "one record to all".into()),
            Kind::Exchange | Kind::FirstReport | Kind::SecondReport => ("dispersal".into(), "who holds the same record".into()),
            Kind::Votes(k) | Kind::Proposals(k) | Kind::King(k) => (format!("king rule, phase {k}"), format!("king: column {k}")),
            Kind::Points | Kind::KeptPoints => ("dissemination".into(), "the record to all".into()),
        }
    }

    /// The values of a message: a point or byte with two digits, a bit or report with one; `blank` where nothing is said.
    fn values(self, values: &[u16], blank: &str) -> String {
        if values.iter().all(|&value| value == BLANK) {
            return blank.into();
        }
        let value = |&value: &u16| match self {
            _ if value == BLANK => "-".into(),
            Kind::Post | Kind::Exchange | Kind::Points | Kind::KeptPoints => format!("{value:02x}"),
            _ => format!("{value:x}"),
        };
        values.iter().map(value).collect::<Vec<String>>().join(" ")
    }
}

/// The first bytes of a record.
pub fn short(record: &[u8]) -> String {
    if record.len() > 4 { hex(&record[..4]) + ".." } else { hex(record) }
}

/// What a column ended on, a record of m bytes written by `words`.
pub fn ended(entry: &Entry, m: usize, words: fn(&[u8]) -> String) -> String {
    entry.record().map_or("none".into(), |record| words(&record[..m]))
}

/// The numbers of the columns whose flag is set.
fn numbers(flags: &[u8]) -> String {
    let set: Vec<String> = (1..).zip(flags).filter(|(_, flag)| **flag != 0).map(|(number, _)| number.to_string()).collect();
    if set.is_empty() { "none".into() } else { set.join(", ") }
}

/// A cell: where it lies, and of which column and round it is, both counted from 1.
pub struct Cell {
    pub x: usize,
    pub y: usize,
    pub width: usize,
    pub height: usize,
    pub column: usize,
    pub round: usize,
    pub kind: Kind,
}

impl Cell {
    /// The frame, inside it what `shapes` draws, and the mark of a king.
    fn frame(&self, svg: &mut Svg, title: &str, shapes: impl FnOnce(&mut Svg)) {
        svg.group("", title, |svg| {
            svg.rect("cell", [self.x, self.y, self.width, self.height, 0]);
            shapes(svg);
            if self.kind == Kind::King(self.column) {
                svg.crown([self.x + self.width - 16, self.y + 15]);
            }
        });
    }

    /// Of a sound column: what it has after it listened.
    pub fn sound(&self, svg: &mut Svg, state: &State, blocks: usize, entry: &Entry) {
        let title = format!("column {}, round {}: {}", self.column, self.round, self.truth(state, blocks, entry));
        let at = [self.x + self.width / 2, self.y + self.height / 2];
        self.frame(svg, &title, |svg| match self.kind {
            Kind::Post => value(svg, at, &short(state.record())),
            Kind::Exchange => dots(svg, at, state.agreements()),
            Kind::FirstReport => dots(svg, at, state.reports()),
            Kind::SecondReport => grade(svg, at, state.grade()),
            Kind::Votes(_) => proposal(svg, at, state.proposal()),
            Kind::Proposals(_) => vote(svg, at, state.vote(), state.firm()),
            Kind::King(_) => vote(svg, at, state.vote(), false),
            Kind::Points if blocks == 1 => value(svg, at, &self.kind.values(&state.kept(1), "-")),
            Kind::Points => value(svg, at, &format!("{} of {blocks} kept", state.kept(blocks).iter().filter(|&&point| point != BLANK).count())),
            Kind::KeptPoints => value(svg, at, &ended(entry, state.record().len(), short)),
        });
    }

    /// The same in words, and whole.
    fn truth(&self, state: &State, blocks: usize, entry: &Entry) -> String {
        match self.kind {
            Kind::Post => format!("it takes the record {}", hex(state.record())),
            Kind::Exchange => format!("it agrees with columns {}", numbers(state.agreements())),
            Kind::FirstReport => format!("first reports came from columns {}", numbers(state.reports())),
            Kind::SecondReport => format!("grade {}, vote {}", state.grade(), state.vote()),
            Kind::Votes(_) => format!("it is to propose {}", self.kind.values(&[state.proposal()], "blank")),
            Kind::Proposals(_) => format!("vote {}, {}", state.vote(), if state.firm() { "firm" } else { "not firm" }),
            Kind::King(king) => format!("vote {} after the word of king {king}", state.vote()),
            Kind::Points => format!("kept points {}", self.kind.values(&state.kept(blocks), "blank")),
            Kind::KeptPoints => format!("ended on {}, grade {}, vote {}", ended(entry, state.record().len(), hex), entry.grade, entry.vote),
        }
    }

    /// Of an unsound column: its messages, a line for each receiver; that to itself nobody reads.
    pub fn unsound(&self, svg: &mut Svg, round: &Round) {
        let receivers = (1..=round.after.len()).filter(|&to| to != self.column);
        let top = self.y + (self.height - LINE * (round.after.len() - 1)) / 2;
        self.frame(svg, &format!("column {}, unsound, round {}", self.column, self.round), |svg| {
            for (place, to) in receivers.enumerate() {
                let (said, program) = round.message(self.column, to);
                let manner = Manner::of(said, program);
                let beside = match manner {
                    Manner::AsTheProgram => ", as the program would say".into(),
                    _ => format!("; the program would have said {}", self.kind.values(program, "blank")),
                };
                let title = format!("column {} to column {to}, round {}: {}{beside}", self.column, self.round, self.kind.values(said, "blank"));
                // A long message by its first values; the title has it whole.
                let words = match self.kind.values(said, "-") {
                    whole if said.len() <= 2 || whole == "-" => format!("{to}: {whole}"),
                    _ => format!("{to}: {}..", self.kind.values(&said[..2], "- -")),
                };
                line(svg, [self.x + 2, top + LINE * place, self.width - 4], manner, &title, &words);
            }
        });
    }
}

/// The height of a line of an unsound column's cell.
pub const LINE: usize = 14;

/// A message of an unsound column, on the colour of its manner.
pub fn line(svg: &mut Svg, [x, y, width]: [usize; 3], manner: Manner, title: &str, words: &str) {
    let class = match manner {
        Manner::AsTheProgram => "program",
        Manner::Silent => "silent",
        Manner::Lie => "lie",
    };
    svg.group(class, title, |svg| {
        svg.rect("", [x, y, width, LINE - 1, 0]);
        svg.text(if words.len() * 6 > width { "tight" } else { "small" }, [x + 4, y + 10], words);
    });
}

/// A value in the middle of a cell, a long one in small letters.
fn value(svg: &mut Svg, [x, y]: [usize; 2], words: &str) {
    svg.text(if words.len() > 6 { "small mid" } else { "value" }, [x, y + 5], words);
}

/// A dot for each column by its number, eight in a row, filled where the flag is set; and how many are.
fn dots(svg: &mut Svg, [x, y]: [usize; 2], flags: &[u8]) {
    let (row, rows) = (flags.len().min(8), flags.len().div_ceil(8));
    let step = (64 / row).min(13);
    let (left, top) = (x - step * (row - 1) / 2, y - step * rows / 2);
    for (place, &flag) in flags.iter().enumerate() {
        dot(svg, [left + step * (place % 8), top + step * (place / 8)], step * 2 / 5, flag != 0);
    }
    let set = flags.iter().filter(|&&flag| flag != 0).count();
    svg.text("small mid soft", [x, top + step * rows + 8], &format!("{set} of {}", flags.len()));
}

/// A dot around a point.
pub fn dot(svg: &mut Svg, [x, y]: [usize; 2], radius: usize, set: bool) {
    svg.circle(if set { "on" } else { "off" }, [x, y, radius]);
}

/// A grade, in the colour of its number.
pub fn grade(svg: &mut Svg, [x, y]: [usize; 2], grade: u8) {
    svg.group(&format!("grade{grade}"), "", |svg| {
        svg.rect("", [x - 18, y - 12, 36, 24, 6]);
        svg.text("digit", [x, y + 6], &grade.to_string());
    });
}

/// A vote, a square in the colour of the bit, with a thick frame if it is firm.
pub fn vote(svg: &mut Svg, [x, y]: [usize; 2], vote: u8, firm: bool) {
    svg.group(&format!("bit{vote}{}", if firm { " firm" } else { "" }), "", |svg| {
        svg.rect("", [x - 12, y - 12, 24, 24, 2]);
        svg.text("digit", [x, y + 6], &vote.to_string());
    });
    if firm {
        svg.text("small mid", [x, y + 24], "firm");
    }
}

/// A proposal, a circle in the colour of the bit, white if it is blank.
pub fn proposal(svg: &mut Svg, [x, y]: [usize; 2], proposal: u16) {
    let (class, bit) = if proposal == BLANK { ("blank".into(), "-".into()) } else { (format!("bit{proposal}"), proposal.to_string()) };
    svg.group(&class, "", |svg| {
        svg.circle("", [x, y, 13]);
        svg.text("digit", [x, y + 6], &bit);
    });
}
