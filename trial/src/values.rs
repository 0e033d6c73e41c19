//! Values that are easily misread, and numbers that land on a threshold.
use crate::random::Random;
use reference::field;
use reference::sizes::{BLANK, Kind, Sizes};

/// Illegal wherever points are read: the first one past the field, a multiple of 257 that is 0 modulo it, the last one before blank, blank.
pub const NO_POINT: [u16; 6] = [257, 258, 514, 32768, 65534, BLANK];

/// Illegal as a bit.
pub const NO_BIT: [u16; 6] = [BLANK, 2, 256, 257, 258, 65534];

/// Illegal as a report; 0 is one of them.
pub const NO_REPORT: [u16; 6] = [BLANK, 0, 2, 257, 258, 65534];

/// Illegal as a byte of a poster's record.
pub const NO_BYTE: [u16; 5] = [256, 257, 32768, 65534, BLANK];

/// What counts as blank in a round of this kind.
pub fn illegal(kind: Kind) -> &'static [u16] {
    match kind {
        Kind::Post(_) => &NO_BYTE,
        Kind::FirstReport | Kind::SecondReport => &NO_REPORT,
        Kind::Vote | Kind::Proposal | Kind::King(_) => &NO_BIT,
        Kind::Exchange | Kind::Points | Kind::Kept => &NO_POINT,
    }
}

/// Any value, those at the edges often.
pub fn any(random: &Random) -> u16 {
    match random.below(4) {
        0 => random.pick(&[0, 1, 2, 255, 256, 257, 258, 514, 65534, BLANK]),
        1 => random.below(257) as u16,
        2 => BLANK,
        _ => random.below(65536) as u16,
    }
}

/// The points of a record: its values at a column's place, one per block.
pub fn points(sizes: &Sizes, record: &[u8], place: usize) -> Vec<u16> {
    record.chunks(sizes.d + 1).map(|block| field::value(block.iter().map(|&byte| byte.into()), place as u32) as u16).collect()
}

/// How many of `helpers` must join so that a count that stands at `have` comes to `target`, or as near as they can bring it.
pub fn joining(have: usize, target: usize, helpers: usize) -> usize {
    target.saturating_sub(have).min(helpers)
}
