//! Whole walls: what each is made from, and its sheet.
use crate::liars::Wall;
use crate::random::Random;
use crate::records::{self, Camps};
use reference::cases::WallCase;
use reference::sizes::{Kind, Protocol, Sizes};

/// How the unsound columns lie.
#[derive(Clone, Copy, PartialEq, Debug)]
pub enum Mood {
    /// Every receiver's count lands on its threshold.
    OnIt,
    /// Every count stays one below.
    OneBelow,
    /// One or the other, anew for each receiver.
    Split,
    /// Any of these, anew for each round: most often on it, so that the next rounds have something to decide.
    Mixed,
    /// They help where they can: every count as high as it comes.
    Helpful,
    /// Dispersal leaves some with grade 1 and none with grade 2, so that what is kept and decoded hangs on the liars.
    Late,
    /// They say nothing that is legal.
    Garbled,
    /// Any values.
    Noise,
}

impl Mood {
    pub const ALL: [Mood; 8] = [Mood::OnIt, Mood::OneBelow, Mood::Split, Mood::Mixed, Mood::Helpful, Mood::Late, Mood::Garbled, Mood::Noise];

    /// The mood of one round.
    pub fn of_round(self, kind: Kind, random: &Random) -> Mood {
        use Mood::*;
        match (self, kind) {
            (Mixed, _) => random.pick(&[OnIt, OnIt, OnIt, OnIt, OnIt, Split, Split, Split, OneBelow, Helpful]),
            (Late, Kind::Post(_) | Kind::Exchange) => OnIt,
            (Late, Kind::SecondReport) => OneBelow,
            (Late, _) => Split,
            _ => self,
        }
    }
}

/// What a wall is made from.
#[derive(Clone, Copy, Debug)]
pub struct Plan {
    pub n: usize,
    pub m: usize,
    /// Whether it is a posting.
    pub posting: bool,
    pub camps: Camps,
    pub mood: Mood,
    /// Unsound columns fewer than t.
    pub fewer: usize,
    /// Whether the unsound ones have the lowest numbers, and so the first kings among them.
    pub kings: bool,
    /// Of a posting: whether the poster is unsound, where some column is.
    pub liar_posts: bool,
}

impl Plan {
    pub fn any(n: usize, m: usize, posting: bool, random: &Random) -> Plan {
        Plan {
            n,
            m,
            posting,
            camps: random.pick(&Camps::ALL),
            mood: if random.chance(60) { Mood::Mixed } else { random.pick(&Mood::ALL) },
            fewer: if random.chance(80) { 0 } else { random.below(11) },
            kings: random.chance(40),
            liar_posts: random.chance(70),
        }
    }

    /// The wall, played once to know what to lie.
    pub fn case(&self, random: &Random) -> WallCase {
        let sizes = Sizes::of(self.n as u32, self.m as u32).expect("a plan has a wall's sizes");
        let sound = self.sound(&sizes, random);
        let protocol = self.protocol(&sound, random);
        let records = self.records(&sizes, &sound, random);
        let lines = Wall::fresh(sizes, protocol, self.mood, &sound, &records).lines(random);

        let mut sheet = vec![self.n as u8, self.m as u8];
        sheet.extend(sound.iter().map(|&sound| u8::from(!sound)));
        sheet.extend(records.concat());
        sheet.extend(lines.concat().concat().iter().flat_map(|value| value.to_le_bytes()));
        WallCase { protocol, sheet }
    }

    /// Which columns are sound.
    fn sound(&self, sizes: &Sizes, random: &Random) -> Vec<bool> {
        let unsound = sizes.t.saturating_sub(self.fewer);
        let order = if self.kings { (0..self.n).collect() } else { random.order(self.n) };
        let mut sound = vec![true; self.n];
        order[..unsound].iter().for_each(|&j| sound[j] = false);
        sound
    }

    fn protocol(&self, sound: &[bool], random: &Random) -> Protocol {
        if !self.posting {
            return Protocol::Agreement;
        }
        let order = random.order(self.n);
        let poster = order.iter().find(|&&j| sound[j] != self.liar_posts).unwrap_or(&order[0]);
        Protocol::Posting(*poster as u32 + 1)
    }

    /// A record for each column, the sound ones in camps.
    fn records(&self, sizes: &Sizes, sound: &[bool], random: &Random) -> Vec<Vec<u8>> {
        let mut held = vec![records::any(self.m, random)];
        let mut camps = self.camps.of(sizes, sound.iter().filter(|&&sound| sound).count(), random).into_iter();
        sound
            .iter()
            .map(|&sound| {
                let camp = if sound { camps.next().expect("each sound column is in a camp") } else { random.below(3) };
                while held.len() <= camp {
                    held.push(records::another(sizes, &held[0], random));
                }
                held[camp].clone()
            })
            .collect()
    }
}
