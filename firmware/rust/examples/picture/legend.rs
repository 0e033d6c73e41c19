//! What the colours and signs of a picture mean.
use crate::cells::{dot, grade, line, proposal, vote};
use crate::play::Manner;
use crate::svg::Svg;
use locker_column::BLANK;

/// Draws a sign around a point, as it is in the cells.
type Sign = fn(&mut Svg, [usize; 2]);

/// A heading, what stands under it, and signs with the height of each and its meaning in one to three lines.
type Section = (&'static str, &'static str, &'static [(usize, Sign, &'static str)]);

/// The cells of sound columns, without those of the king rule.
pub const SOUND: Section = (
    "A sound column",
    "what it has after it listened; dots by column number, 8 in a row",
    &[
        (28, |svg, at| dot(svg, at, 5, true), "exchange: it agrees with this column;\nfirst report: this column's came"),
        (22, |svg, at| dot(svg, at, 5, false), "it does not agree; none came"),
        (30, |svg, at| grade(svg, at, 2), "grade 2: second report sent, 2t + 1 or more came"),
        (30, |svg, at| grade(svg, at, 1), "grade 1: second report sent, fewer came"),
        (30, |svg, at| grade(svg, at, 0), "grade 0: no second report sent"),
        (20, |svg, [x, y]| svg.text("value", [x, y + 5], "41"), "kept point: it came t + 1 times or more"),
        (20, |svg, [x, y]| svg.text("value", [x, y + 5], "-"), "no point came so often"),
    ],
);

/// The cells of sound columns in the king rule.
pub const KING_RULE: Section = (
    "A sound column in the king rule",
    "its first vote is 1 exactly at grade 2",
    &[
        (30, |svg, at| proposal(svg, at, 1), "a circle is a proposal: a quorum voted for the bit"),
        (30, |svg, at| proposal(svg, at, BLANK), "a blank proposal: no bit had a quorum"),
        (30, |svg, at| vote(svg, at, 1, false), "a square is a vote: 1, to end on a record"),
        (30, |svg, at| vote(svg, at, 0, false), "vote 0, to end on none"),
        (52, |svg, at| vote(svg, at, 1, true), "firm: a quorum proposed this vote,\nand the king does not change it"),
        (24, |svg, [x, y]| svg.crown([x - 7, y + 6]), "the king: who is not firm takes its vote"),
    ],
);

/// The cells of unsound columns.
pub const UNSOUND: Section = (
    "An unsound column",
    "to each receiver, in hexadecimal; - is blank, .. more values",
    &[
        (20, |svg, [x, y]| line(svg, [x - 20, y - 6, 40], Manner::AsTheProgram, "", "1: 41"), "as the program would say"),
        (32, |svg, [x, y]| line(svg, [x - 20, y - 6, 40], Manner::Silent, "", "2: -"), "silent: all values blank, though\nthe program would have spoken"),
        (20, |svg, [x, y]| line(svg, [x - 20, y - 6, 40], Manner::Lie, "", "3: 42"), "a lie: anything else"),
        (56, |_, _| {}, "It has no true record: lies are measured\nby the program in its place, with the\nsheet's record or the posted one."),
    ],
);

/// Draws sections beside each other from a height on, as far as they have room, and gives where they end.
pub fn draw(svg: &mut Svg, sections: &[Section], top: usize, width: usize) -> usize {
    let step = (width / sections.len()).min(420);
    let mut bottom = top;
    for (place, (heading, under, signs)) in sections.iter().enumerate() {
        let (left, mut y) = (16 + step * place, top + 36);
        svg.text("bold", [left, top + 12], heading);
        svg.text("small soft", [left, top + 26], under);
        for (height, sign, words) in *signs {
            let middle = y + height / 2;
            sign(svg, [left + 20, middle]);
            let up = 6 * words.lines().skip(1).count();
            for (k, words) in words.lines().enumerate() {
                svg.text("small", [left + 50, middle + 4 + 12 * k - up], words);
            }
            y += height;
        }
        bottom = bottom.max(y);
    }
    bottom + 16
}
