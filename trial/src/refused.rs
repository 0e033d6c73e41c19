//! Sheets with faults: every refusal, every boundary of a length, and two faults at once, so that their order shows.
use crate::random::Random;
use reference::cases::WallCase;
use reference::sizes::{Protocol, Sizes};

/// What can be wrong with a sheet.
#[derive(Clone, Copy, Debug)]
pub enum Fault {
    Columns(u8),
    Bytes(u8),
    /// The poster's number, in a posting.
    Poster(u32),
    /// The mark of a column.
    Mark(usize, u8),
    /// One unsound column too many, by marks alone.
    TooMany,
    /// One too many, with their lines.
    TooManyWithLines,
    Length(usize),
}

/// All faults of an accepted sheet.
pub fn faults(case: &WallCase) -> Vec<Fault> {
    let (n, m, full) = (usize::from(case.sheet[0]), usize::from(case.sheet[1]), case.sheet.len());
    let arrays = 2 + n + n * m;
    let line = 2 * n * Sizes::by_formula(n as u32, m as u32).line(case.protocol);
    let mut faults = vec![Fault::TooMany, Fault::TooManyWithLines];
    faults.extend([0, 3, 32, 255].map(Fault::Columns));
    faults.extend([0, 33, 255].map(Fault::Bytes));
    if case.protocol != Protocol::Agreement {
        faults.extend([0, n as u32 + 1, 255].map(Fault::Poster));
    }
    faults.extend([(0, 2), (n - 1, 2), (n / 2, 255)].map(|(column, mark)| Fault::Mark(column, mark)));
    let mut lengths = vec![0, 1, 2, 3, 1 + n, 2 + n, arrays - 1, arrays, arrays + 1, full.saturating_sub(2), full - 1, full + 1, full + 2, full + line];
    lengths.sort();
    lengths.dedup();
    faults.extend(lengths.into_iter().filter(|&len| len != full).map(Fault::Length));
    faults
}

impl Fault {
    /// The sheet with this fault; as it was, where an earlier fault took away what this one needs.
    pub fn put(self, mut case: WallCase) -> WallCase {
        match self {
            Fault::Poster(s) => case.protocol = Protocol::Posting(s),
            Fault::Length(len) => case.sheet.resize(len, 0),
            Fault::Columns(n) => set(&mut case.sheet, 0, n),
            Fault::Bytes(m) => set(&mut case.sheet, 1, m),
            Fault::Mark(column, mark) => set(&mut case.sheet, 2 + column, mark),
            Fault::TooMany | Fault::TooManyWithLines => {
                let [n, m, marks @ ..] = &mut case.sheet[..] else { return case };
                let Ok(sizes) = Sizes::of((*n).into(), (*m).into()) else { return case };
                let Some(marks) = marks.get_mut(..sizes.n) else { return case };
                let before = marks.iter().filter(|&&mark| mark == 1).count();
                marks.fill(0);
                marks[..sizes.t + 1].fill(1);
                if let Fault::TooManyWithLines = self {
                    let lines = (sizes.t + 1).saturating_sub(before) * 2 * sizes.n * sizes.line(case.protocol);
                    case.sheet.resize(case.sheet.len() + lines, 0);
                }
            }
        }
        case
    }
}

fn set(sheet: &mut [u8], place: usize, byte: u8) {
    if let Some(at) = sheet.get_mut(place) {
        *at = byte;
    }
}

/// One or two faults of a sheet.
pub fn spoil(case: WallCase, random: &Random) -> WallCase {
    let faults = faults(&case);
    (0..random.between(1, 2)).fold(case, |case, _| random.pick(&faults).put(case))
}
