//! Unsound columns that see everything that the sound ones hold and say, and aim each lie at one receiver's threshold. The sound columns are the reference's;
//! what the liars chose is written down as the lines of a sheet.
use crate::random::Random;
use crate::values::{NO_BIT, NO_BYTE, NO_POINT, NO_REPORT, any, illegal, joining, points};
use crate::walls::Mood;
use reference::column::Column;
use reference::sizes::{BLANK, Kind, Protocol, Sizes};

/// A run, as its liars see it. Columns are counted from 0 here.
pub struct Wall {
    sizes: Sizes,
    protocol: Protocol,
    mood: Mood,
    columns: Vec<Column>,
    sound: Vec<usize>,
    unsound: Vec<usize>,
    /// The records that the liars tell of: those of the sheet, column by column.
    stories: Vec<Vec<u8>>,
    /// What each sound column says to all in this round.
    said: Vec<Vec<u16>>,
    /// The values of a message in this round, and the mood.
    width: usize,
    now: Mood,
}

impl Wall {
    pub fn fresh(sizes: Sizes, protocol: Protocol, mood: Mood, sound: &[bool], records: &[Vec<u8>]) -> Wall {
        let make = |j: usize| Column::fresh(protocol, sizes.n as u32, sizes.m as u32, j as u32 + 1, &records[j]).expect("the sizes are a wall's");
        let (sound, unsound) = (0..sizes.n).partition(|&j| sound[j]);
        let (columns, said) = ((0..sizes.n).map(make).collect(), vec![vec![]; sizes.n]);
        Wall { sizes, protocol, mood, columns, sound, unsound, stories: records.to_vec(), said, width: 0, now: mood }
    }

    /// Plays all rounds; gives, for each unsound column and each receiver, all that it sent.
    pub fn lines(mut self, random: &Random) -> Vec<Vec<Vec<u16>>> {
        let n = self.sizes.n;
        let mut lines = vec![vec![vec![]; n]; self.unsound.len()];
        let mut settled = None;
        for round in 1..=self.sizes.rounds(self.protocol) {
            let kind = self.sizes.kind(self.protocol, round).expect("the run has this round");
            (self.width, self.now) = (self.sizes.values(kind), self.mood.of_round(kind, random));
            for &j in &self.sound {
                self.said[j] = vec![BLANK; n * self.width];
                self.columns[j].speak(&mut self.said[j]).expect("a sound column may speak");
            }
            let lies: Vec<Vec<Vec<u16>>> = (0..n).map(|i| self.lies(kind, i, random)).collect();
            for &i in &self.sound {
                let mut inbox = vec![BLANK; n * self.width];
                let mut put = |j: usize, message: &[u16]| inbox[j * self.width..(j + 1) * self.width].copy_from_slice(message);
                self.sound.iter().for_each(|&j| put(j, self.to(j, i)));
                self.unsound.iter().zip(&lies[i]).for_each(|(&j, message)| put(j, message));
                self.columns[i].listen(&inbox).expect("a sound column may listen");
            }
            self.hold_settled(round, &mut settled);
            for (u, lines) in lines.iter_mut().enumerate() {
                lines.iter_mut().zip(&lies).for_each(|(line, lies)| line.extend(&lies[u]));
            }
        }
        lines
    }

    /// Document 02, i, of the reference: the first sound column of an agreement is one of the t + 1 kings, and after its phase all sound columns have one
    /// vote, which none of them changes.
    fn hold_settled(&self, round: usize, settled: &mut Option<u8>) {
        let king = self.sound[0] + 1;
        assert!(king <= self.sizes.t + 1, "column {king} is the first sound one, and no king");
        if self.protocol == Protocol::Agreement && round >= 3 * king + 3 {
            for &i in &self.sound {
                let vote = self.columns[i].vote;
                assert_eq!(*settled.get_or_insert(vote), vote, "column {} after round {round}, where king {king} has settled the vote", i + 1);
            }
        }
    }

    /// What the sound column j says to i.
    fn to(&self, j: usize, i: usize) -> &[u16] {
        &self.said[j][i * self.width..(i + 1) * self.width]
    }

    /// A threshold, or what is one below, as the mood is.
    fn aim(&self, thresholds: &[usize], random: &Random) -> usize {
        let threshold = random.pick(thresholds);
        match self.now {
            Mood::OnIt => threshold,
            Mood::OneBelow => threshold - 1,
            Mood::Helpful => self.sizes.n,
            _ => threshold - random.below(2),
        }
    }

    /// What the unsound columns say to i, one message each.
    fn lies(&self, kind: Kind, i: usize, random: &Random) -> Vec<Vec<u16>> {
        if !self.sound.contains(&i) {
            // Nobody reads what they tell each other.
            return self.each(|| BLANK);
        }
        match (self.now, kind) {
            (Mood::Garbled, _) => self.each(|| random.pick(illegal(kind))),
            (Mood::Noise, _) => self.each(|| any(random)),
            (_, Kind::Post(s)) => self.posted(s as usize - 1, i, random),
            (_, Kind::Exchange) => self.exchanged(i, random),
            (_, Kind::FirstReport) => self.first_reports(i, random),
            (_, Kind::SecondReport) => self.second_reports(i, random),
            (_, Kind::Vote) => self.bits(i, &[self.sizes.quorum()], random),
            (_, Kind::Proposal) => self.bits(i, &[self.sizes.quorum(), self.sizes.t + 1], random),
            (_, Kind::King(_)) => self.each(|| if random.chance(75) { random.below(2) as u16 } else { random.pick(&NO_BIT) }),
            (_, Kind::Points) => self.blockwise(i, self.sizes.t + 1, random),
            (_, Kind::Kept) => self.points_kept(i, random),
        }
    }

    /// Every value of every unsound column by itself.
    fn each(&self, value: impl Fn() -> u16) -> Vec<Vec<u16>> {
        self.unsound.iter().map(|_| (0..self.width).map(|_| value()).collect()).collect()
    }

    /// The unsound columns in any order, the first `count` of which help.
    fn helpers(&self, count: usize, random: &Random) -> Vec<bool> {
        let mut helps = vec![false; self.unsound.len()];
        random.order(helps.len()).into_iter().take(count).for_each(|u| helps[u] = true);
        helps
    }

    /// An unsound poster tells each receiver the record that the sheet has for it, so that the plan's camps arise; now and then with a value that is no
    /// byte, or another's.
    fn posted(&self, poster: usize, i: usize, random: &Random) -> Vec<Vec<u16>> {
        let mut said = self.each(|| any(random));
        for (message, _) in said.iter_mut().zip(&self.unsound).filter(|&(_, &u)| u == poster) {
            let story = if random.chance(90) { i } else { random.below(self.stories.len()) };
            *message = self.stories[story].iter().map(|&byte| byte.into()).collect();
            if random.chance(10) {
                message[random.below(self.width)] = random.pick(&NO_BYTE);
            }
        }
        said
    }

    /// As many agree with i as bring its agreements to the threshold; the others miss by one value, or tell another story.
    fn exchanged(&self, i: usize, random: &Random) -> Vec<Vec<u16>> {
        let (sizes, record) = (&self.sizes, &self.columns[i].record[..self.sizes.m]);
        let as_if = |u: usize, record: &[u8]| [points(sizes, record, u + 1), points(sizes, record, i + 1)].concat();
        let agreed = self.sound.iter().filter(|&&j| self.to(j, i) == as_if(j, record)).count();
        let count = joining(agreed, self.aim(&[sizes.quorum()], random), self.unsound.len());
        let helps = self.helpers(count, random);
        let lie = |(&u, helps): (&usize, bool)| {
            let mut message = as_if(u, record);
            if !helps {
                match random.below(4) {
                    0 => message = as_if(u, &self.stories[random.below(self.stories.len())]),
                    1 => message.fill(BLANK),
                    _ => {
                        let place = random.below(message.len());
                        message[place] = if random.chance(50) { (message[place] + 1) % 257 } else { random.pick(&NO_POINT) };
                    }
                }
            }
            message
        };
        self.unsound.iter().zip(helps).map(lie).collect()
    }

    /// Reports from agreed columns land on the threshold; those that i does not agree with report too, which must not count.
    fn first_reports(&self, i: usize, random: &Random) -> Vec<Vec<u16>> {
        let agrees = |j: &usize| self.columns[i].agreements[*j];
        let have = self.sound.iter().filter(|&j| agrees(j) && self.to(*j, i) == [1]).count();
        let helpers = self.unsound.iter().filter(|&j| agrees(j)).count();
        let mut count = joining(have, self.aim(&[self.sizes.quorum()], random), helpers);
        let report = |u: &usize| {
            if !agrees(u) {
                return vec![if random.chance(80) { 1 } else { BLANK }];
            }
            let helps = count > 0;
            count -= usize::from(helps);
            vec![if helps { 1 } else { random.pick(&NO_REPORT) }]
        };
        self.unsound.iter().map(report).collect()
    }

    /// Second reports count from any columns.
    fn second_reports(&self, i: usize, random: &Random) -> Vec<Vec<u16>> {
        let have = self.sound.iter().filter(|&&j| self.to(j, i) == [1]).count();
        let enough = 2 * self.sizes.t + 1;
        let thresholds = if self.mood == Mood::Late { [enough, enough] } else { [enough, self.sizes.quorum()] };
        let count = joining(have, self.aim(&thresholds, random), self.unsound.len());
        self.helpers(count, random).into_iter().map(|helps| vec![if helps { 1 } else { random.pick(&NO_REPORT) }]).collect()
    }

    /// Votes or proposals of one bit land on a threshold; the rest is the other bit, or none.
    fn bits(&self, i: usize, thresholds: &[usize], random: &Random) -> Vec<Vec<u16>> {
        let bit = random.below(2) as u16;
        let have = self.sound.iter().filter(|&&j| self.to(j, i) == [bit]).count();
        let count = joining(have, self.aim(thresholds, random), self.unsound.len());
        let rest = random.chance(50).then_some(1 - bit);
        let said = |helps| if helps { bit } else { rest.unwrap_or_else(|| random.pick(&NO_BIT)) };
        self.helpers(count, random).into_iter().map(|helps| vec![said(helps)]).collect()
    }

    /// Block by block, points of one value land on a threshold; the value is mostly one that a sound column sends.
    fn blockwise(&self, i: usize, threshold: usize, random: &Random) -> Vec<Vec<u16>> {
        let mut said = vec![vec![BLANK; self.width]; self.unsound.len()];
        let target = self.aim(&[threshold], random);
        for block in 0..self.width {
            let sent: Vec<u16> = self.sound.iter().map(|&j| self.to(j, i)[block]).collect();
            let points: Vec<u16> = sent.iter().copied().filter(|&value| value != BLANK).collect();
            let value = if points.is_empty() || random.chance(15) { random.pick(&[0, 256, 257, random.below(257) as u16]) } else { random.pick(&points) };
            let have = sent.iter().filter(|&&sent| sent == value).count();
            let helps = self.helpers(joining(have, target, self.unsound.len()), random);
            let second = any(random);
            for (message, helps) in said.iter_mut().zip(helps) {
                message[block] = if helps { value } else { second };
            }
        }
        said
    }

    /// Kept points that lie on the sound columns' polynomial, as many as bring it to n - t; the others lie on another story's.
    fn points_kept(&self, i: usize, random: &Random) -> Vec<Vec<u16>> {
        let graded: Vec<usize> = self.sound.iter().copied().filter(|&j| self.columns[j].grade > 0).collect();
        let holder = random.pick(if graded.is_empty() { &self.sound } else { &graded });
        let target = self.aim(&[self.sizes.quorum()], random);
        let of_all = |record: &[u8]| (1..=self.sizes.n).map(|place| points(&self.sizes, record, place)).collect::<Vec<_>>();
        let (right, told) = (of_all(&self.columns[holder].record[..self.sizes.m]), of_all(&self.stories[random.below(self.stories.len())]));
        let mut said = vec![vec![BLANK; self.width]; self.unsound.len()];
        for block in 0..self.width {
            let have = self.sound.iter().filter(|&&j| self.to(j, i)[block] == right[j][block]).count();
            let helps = self.helpers(joining(have, target, self.unsound.len()), random);
            let choice = random.below(4);
            for ((message, &u), helps) in said.iter_mut().zip(&self.unsound).zip(helps) {
                message[block] = match choice {
                    _ if helps => right[u][block],
                    0 => told[u][block],
                    1 => random.pick(&NO_POINT),
                    2 => random.below(257) as u16,
                    _ => BLANK,
                };
            }
        }
        said
    }
}
