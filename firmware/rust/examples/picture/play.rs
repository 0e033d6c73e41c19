//! A run of a wall, round by round, by the proved calls alone.
use crate::sheet::Sheet;
use locker_column::{BLANK, Column, Entry, Refusal, STATE_BYTES, place};

/// A column's state, by the layout of include/column.h.
pub struct State([u8; STATE_BYTES]);

impl State {
    /// The columns of the wall: so many of the flags are used.
    fn n(&self) -> usize {
        self.0[place::N].into()
    }

    /// 0, 1 or 2, once the second reports came.
    pub fn grade(&self) -> u8 {
        self.0[place::GRADE]
    }

    /// 0 or 1.
    pub fn vote(&self) -> u8 {
        self.0[place::VOTE]
    }

    /// Whether no king can change the vote in this phase.
    pub fn firm(&self) -> bool {
        self.0[place::FIRM] != 0
    }

    /// 0, 1 or blank.
    pub fn proposal(&self) -> u16 {
        u16::from_le_bytes([self.0[place::PROPOSAL], self.0[place::PROPOSAL + 1]])
    }

    /// The bytes of the record.
    pub fn record(&self) -> &[u8] {
        &self.0[place::RECORD..][..usize::from(self.0[place::M])]
    }

    /// A flag for each column: whether it agrees with it.
    pub fn agreements(&self) -> &[u8] {
        &self.0[place::AGREEMENTS..][..self.n()]
    }

    /// A flag for each column: whether its first report came.
    pub fn reports(&self) -> &[u8] {
        &self.0[place::REPORTS..][..self.n()]
    }

    /// The kept point of each block, or blank.
    pub fn kept(&self, blocks: usize) -> Vec<u16> {
        self.0[place::KEPT..][..2 * blocks].chunks(2).map(|pair| u16::from_le_bytes([pair[0], pair[1]])).collect()
    }
}

/// How a message of an unsound column stands to what the program would have said in its place.
pub enum Manner {
    /// The same.
    AsTheProgram,
    /// All values blank, though the program would have spoken.
    Silent,
    /// Anything else.
    Lie,
}

impl Manner {
    /// Value by value: that an illegal value is heard as blank makes it no better.
    pub fn of(said: &[u16], program: &[u16]) -> Manner {
        match said {
            _ if said == program => Manner::AsTheProgram,
            _ if said.iter().all(|&value| value == BLANK) => Manner::Silent,
            _ => Manner::Lie,
        }
    }
}

/// What a round came to.
pub struct Round {
    /// The values of a message.
    width: usize,
    /// By sender, the messages to all columns: those that were sent, and those that the program writes.
    said: Vec<Vec<u16>>,
    program: Vec<Vec<u16>>,
    /// Every column after it listened.
    pub after: Vec<State>,
}

impl Round {
    /// What one column said to another, by their numbers, and what the program would have said.
    pub fn message(&self, from: usize, to: usize) -> (&[u16], &[u16]) {
        let place = (to - 1) * self.width..to * self.width;
        (&self.said[from - 1][place.clone()], &self.program[from - 1][place])
    }
}

/// A whole run. An unsound column is in it as a shadow: made with the record that the sheet gives it and listening to what the wall says to it, only to
/// know what the program would have said; nobody hears it.
pub struct Run {
    /// Every column before the first round.
    pub fresh: Vec<State>,
    pub rounds: Vec<Round>,
    /// What every column ended on.
    pub outcomes: Vec<Entry>,
}

impl Run {
    /// The run of a sheet: an agreement, or a posting by a column.
    pub fn of(sheet: &Sheet, poster: Option<u32>) -> Result<Run, Refusal> {
        let (n, m) = (sheet.n as u32, sheet.m as u32);
        let fresh = |(own, record): (u32, &Vec<u8>)| match poster {
            None => Column::fresh(n, m, own, record),
            Some(poster) => Column::posting(n, m, own, poster, record),
        };
        Run::play(sheet, (1..).zip(&sheet.records).map(fresh).collect::<Result<_, _>>()?)
    }

    /// All rounds: every column speaks, then every column listens.
    fn play(sheet: &Sheet, mut columns: Vec<Column>) -> Result<Run, Refusal> {
        let states = |columns: &[Column]| columns.iter().map(|column| State(*column.bytes())).collect();
        let fresh = states(&columns);
        let mut rounds = Vec::new();
        for (round, &width) in sheet.widths.iter().enumerate() {
            let mut program = vec![vec![BLANK; sheet.n * width]; sheet.n];
            for (column, out) in columns.iter_mut().zip(&mut program) {
                column.speak(out)?;
            }
            let mut said = program.clone();
            for (out, lines) in said.iter_mut().zip(&sheet.lines) {
                if let Some(lines) = lines {
                    *out = lines.iter().flat_map(|line| &line[round]).copied().collect();
                }
            }
            for (i, column) in columns.iter_mut().enumerate() {
                let inbox: Vec<u16> = said.iter().flat_map(|out| &out[i * width..(i + 1) * width]).copied().collect();
                column.listen(&inbox)?;
            }
            rounds.push(Round { width, said, program, after: states(&columns) });
        }
        let outcomes = columns.iter().map(Column::outcome).collect::<Result<_, _>>()?;
        Ok(Run { fresh, rounds, outcomes })
    }
}
