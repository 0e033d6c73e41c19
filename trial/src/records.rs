//! Records for the columns of a wall: camps whose sizes lie around the thresholds.
use crate::random::Random;
use reference::field::MODULUS;
use reference::sizes::Sizes;

/// How the sound columns are divided into camps of one record each.
#[derive(Clone, Copy, Debug)]
pub enum Camps {
    /// All hold one record.
    One,
    /// The first camp and the unsound columns together are n - t columns, and so many more.
    Quorum(isize),
    /// The first camp has t columns, and so many more.
    Faults(isize),
    /// As `Quorum`, with around t columns in a second camp and the rest in a third.
    Three(isize),
    /// Every column its own record.
    Scattered,
}

impl Camps {
    pub const ALL: [Camps; 11] = [
        Camps::One,
        Camps::Quorum(0),
        Camps::Quorum(-1),
        Camps::Quorum(1),
        Camps::Quorum(2),
        Camps::Faults(0),
        Camps::Faults(1),
        Camps::Three(0),
        Camps::Three(1),
        Camps::Three(-1),
        Camps::Scattered,
    ];

    /// Of `sound` columns, which camp each is in.
    pub fn of(self, sizes: &Sizes, sound: usize, random: &Random) -> Vec<usize> {
        let unsound = sizes.n - sound;
        let (first, second) = match self {
            Camps::One => (sound as isize, 0),
            Camps::Quorum(more) => (sizes.quorum() as isize - unsound as isize + more, sound as isize),
            Camps::Faults(more) => (sizes.t as isize + more, sound as isize),
            Camps::Three(more) => (sizes.quorum() as isize - unsound as isize + more, sizes.t as isize + random.below(3) as isize - 1),
            Camps::Scattered => return (0..sound).collect(),
        };
        let first = first.clamp(0, sound as isize) as usize;
        let second = (second.max(0) as usize).min(sound - first);
        let mut camps = vec![2; sound];
        for (at, place) in random.order(sound).into_iter().enumerate() {
            camps[place] = if at < first { 0 } else { usize::from(at >= first + second) + 1 };
        }
        camps
    }
}

pub fn any(m: usize, random: &Random) -> Vec<u8> {
    (0..m).map(|_| if random.chance(20) { random.pick(&[0, 1, 255]) } else { random.byte() }).collect()
}

/// Another record, often one that meets the given one at d points in every block in which they differ.
pub fn another(sizes: &Sizes, record: &[u8], random: &Random) -> Vec<u8> {
    if random.chance(40) {
        return any(sizes.m, random);
    }
    let mut other = record.to_vec();
    let whole = sizes.m / (sizes.d + 1);
    if whole == 0 {
        other[0] = other[0].wrapping_add(1);
        return other;
    }
    for _ in 0..random.between(1, whole) {
        let start = random.below(whole) * (sizes.d + 1);
        let block = &mut other[start..start + sizes.d + 1];
        if let Some(near) = meeting(block, sizes, random) {
            block.copy_from_slice(&near);
        }
    }
    other
}

/// A block of bytes that differs from this one by a multiple of (x - p) .. over d columns p, if one is found.
fn meeting(block: &[u8], sizes: &Sizes, random: &Random) -> Option<Vec<u8>> {
    for _ in 0..20 {
        let mut product = vec![random.between(1, 256) as u32];
        for p in random.order(sizes.n).into_iter().take(sizes.d) {
            let minus = MODULUS - (p as u32 + 1);
            let shifted: Vec<u32> = std::iter::once(0).chain(product.iter().copied()).collect();
            product.push(0);
            product.iter_mut().zip(shifted).for_each(|(c, up)| *c = (*c * minus + up) % MODULUS);
        }
        let sum = block.iter().zip(&product).map(|(&byte, c)| u8::try_from((u32::from(byte) + c) % MODULUS).ok());
        if let Some(near) = sum.collect() {
            return Some(near);
        }
    }
    None
}
