//! A picture of a run: `picture [POSTER]` reads a sheet from standard input, of an agreement or with POSTER of a posting, and writes an SVG: columns by rounds,
//! what each sound column has after it listened, and what each unsound one says to whom. Every value comes from the proved calls, and what the columns end
//! on is compared with what the wall run says.
mod cells;
mod legend;
mod play;
#[path = "../sheet/mod.rs"]
mod sheet;
mod svg;

use cells::{Cell, Kind, LINE, ended, short};
use play::Run;
use sheet::{Sheet, entries, hex, number};
use std::error::Error;
use std::io::{Read, Write};
use std::process::ExitCode;
use svg::Svg;

/// The room at the left, above the rows, at the right, and between the parts of the protocol.
const LEFT: usize = 140;
const TOP: usize = 162;
const RIGHT: usize = 136;
const GAP: usize = 8;

/// The least height of a row, the least width of a cell, and of all cells together.
const ROW: usize = 54;
const CELL: usize = 66;
const CELLS: usize = 726;

/// A run, and where its rounds lie.
struct Picture {
    sheet: Sheet,
    poster: Option<u32>,
    run: Run,
    kinds: Vec<Kind>,
    /// The width of a cell, and the left edge of each round.
    cell: usize,
    lefts: Vec<usize>,
}

impl Picture {
    /// Of a run: as wide as its rounds need.
    fn of(sheet: Sheet, poster: Option<u32>, run: Run) -> Picture {
        let kinds = Kind::all(sheet.faults() + 1, poster.is_some());
        let cell = CELL.max(CELLS / kinds.len());
        let parts = kinds.chunk_by(|one, next| one.part() == next.part());
        let gaps = parts.enumerate().flat_map(|(part, rounds)| rounds.iter().map(move |_| GAP * part));
        let lefts = gaps.enumerate().map(|(round, gaps)| LEFT + cell * round + gaps).collect();
        Picture { sheet, poster, run, kinds, cell, lefts }
    }

    /// The right edge of the last round.
    fn right(&self) -> usize {
        self.lefts[self.lefts.len() - 1] + self.cell
    }

    /// The whole of it, from above.
    fn draw(&self) -> String {
        let mut svg = Svg::default();
        self.heading(&mut svg);
        self.heads(&mut svg);
        let mut top = TOP;
        for (i, lines) in self.sheet.lines.iter().enumerate() {
            let height = if lines.is_some() { ROW.max(LINE * (self.sheet.n - 1) + 6) } else { ROW };
            self.column(&mut svg, i, top, height);
            top += height;
        }
        let mut sections = vec![legend::SOUND];
        sections.extend(self.poster.is_none().then_some(legend::KING_RULE));
        sections.extend(self.sheet.lines.iter().any(Option::is_some).then_some(legend::UNSOUND));
        let width = self.right() + RIGHT;
        let bottom = legend::draw(&mut svg, &sections, top + 24, width);
        svg.page(&self.sheet.heading(), width, bottom)
    }

    /// What wall it is.
    fn heading(&self, svg: &mut Svg) {
        let (n, m, t) = (self.sheet.n, self.sheet.m, self.sheet.faults());
        let posting = self.poster.map_or(String::new(), |poster| format!("A posting by column {poster}: "));
        let bytes = if m == 1 { "byte" } else { "bytes" };
        let sizes = format!("{posting}{n} columns, at most {t} unsound, records of {m} {bytes}; a quorum is n - t = {}.", n - t);
        svg.text("title", [16, 32], &self.sheet.heading());
        svg.text("soft", [16, 50], &format!("{sizes} All values are those of the proved calls, after each round."));
    }

    /// A band over each part of the protocol, and a head for each round.
    fn heads(&self, svg: &mut Svg) {
        let mut round = 0;
        for part in self.kinds.chunk_by(|one, next| one.part() == next.part()) {
            let (left, width, (name, more)) = (self.lefts[round], self.cell * part.len(), part[0].part());
            svg.rect("band", [left, 66, width, 32, 3]);
            svg.text("bold mid", [left + width / 2, 79], &name);
            svg.text("small mid soft", [left + width / 2, 92], &more);
            round += part.len();
        }
        for (round, kind) in self.kinds.iter().enumerate() {
            let (middle, (name, shown)) = (self.lefts[round] + self.cell / 2, kind.head());
            svg.text("bold mid", [middle, 115], &(round + 1).to_string());
            for (k, words) in name.lines().enumerate() {
                svg.text("small mid", [middle, 129 + 11 * k], words);
            }
            svg.text("small mid soft", [middle, 155], shown);
        }
        svg.text("small soft", [self.right() + 12, 155], "as in the listing");
    }

    /// The left of a row: the column's number and mark, and the record that it holds at the start, in a posting of the poster alone. An unsound column has
    /// no true record: the sheet's is the one that the program is played with in its place.
    fn name(&self, svg: &mut Svg, i: usize, top: usize) {
        let (sound, poster) = (self.sheet.lines[i].is_none(), self.poster == Some(i as u32 + 1));
        svg.text("name", [16, top + 34], &(i + 1).to_string());
        svg.text("", [52, top + 24], &format!("{}{}", if sound { "sound" } else { "unsound" }, if poster { " poster" } else { "" }));
        let record = short(self.run.fresh[i].record());
        let words = match sound {
            _ if self.poster.is_some() && !poster => [String::new(), String::new()],
            true => [format!("holds {record}"), String::new()],
            false => ["lies measured".into(), format!("by {record}")],
        };
        for (k, words) in words.iter().enumerate() {
            svg.text("small soft", [52, top + 38 + 12 * k], words);
        }
    }

    /// A row: the column, its cells, and what it ended on.
    fn column(&self, svg: &mut Svg, i: usize, top: usize, height: usize) {
        let (sound, entry) = (self.sheet.lines[i].is_none(), &self.run.outcomes[i]);
        self.name(svg, i, top);
        for (round, (played, &kind)) in self.run.rounds.iter().zip(&self.kinds).enumerate() {
            let cell = Cell { x: self.lefts[round], y: top, width: self.cell, height, column: i + 1, round: round + 1, kind };
            match sound {
                true => cell.sound(svg, &played.after[i], self.sheet.blocks(), entry),
                false => cell.unsound(svg, played),
            }
        }
        if sound {
            let record = if entry.record().is_some() { "record " } else { "" };
            svg.text("bold", [self.right() + 12, top + 24], &format!("{record}{}", ended(entry, self.sheet.m, short)));
            svg.text("small soft", [self.right() + 12, top + 38], &format!("grade {} bit {}", entry.grade, entry.vote));
        }
    }
}

/// Reads a sheet, plays it, compares, draws.
fn picture(poster: Option<u32>) -> Result<String, Box<dyn Error>> {
    let mut bytes = Vec::new();
    std::io::stdin().read_to_end(&mut bytes)?;
    let entries = entries(&bytes, poster)?;
    let sheet = Sheet::of(&bytes, poster.is_some());
    let run = Run::of(&sheet, poster)?;
    for (i, (entry, outcome)) in entries.iter().zip(&run.outcomes).enumerate() {
        if !entry.is_unsound() && entry != outcome {
            let [calls, wall] = [outcome, entry].map(|end| format!("grade {} bit {} record {}", end.grade, end.vote, ended(end, sheet.m, hex)));
            return Err(format!("column {} has {calls} by its own calls, but {wall} by the wall run", i + 1).into());
        }
    }
    Ok(Picture::of(sheet, poster, run).draw())
}

/// Writes the picture, or says why there is none.
fn main() -> ExitCode {
    let words: Vec<String> = std::env::args().skip(1).collect();
    let drawn = match &words[..] {
        [] => picture(None),
        [poster] => picture(Some(number(poster))),
        _ => Err("usage: picture [POSTER] <SHEET >SVG".into()),
    };
    match drawn.and_then(|svg| Ok(std::io::stdout().write_all(svg.as_bytes())?)) {
        Ok(()) => ExitCode::SUCCESS,
        Err(error) => {
            eprintln!("{error}");
            ExitCode::FAILURE
        }
    }
}
