//! Gao's decoder: Newton interpolation through the points that are there, the extended Euclidean algorithm on it and the product of
//! (x - place), one division, one count. Fixed arrays, no allocation, a table of inverses; plain loops, which the compiler optimises.
use crate::field::{INVERSE, MODULUS as P, value};
use crate::sizes::Sizes;

/// A polynomial from its constant term on, and its degree; -1 for 0.
#[derive(Clone, Copy)]
struct Poly {
    c: [u32; 33],
    degree: isize,
}

impl Poly {
    const ZERO: Poly = Poly { c: [0; 33], degree: -1 };

    fn constant(value: u32) -> Poly {
        let mut p = Poly::ZERO;
        p.c[0] = value;
        p.degree = if value == 0 { -1 } else { 0 };
        p
    }

    fn lead(&self) -> u32 {
        self.c[self.degree as usize]
    }

    fn settle(&mut self) {
        while self.degree >= 0 && self.lead() == 0 {
            self.degree -= 1;
        }
    }

    /// This times (x - place) plus a value.
    fn raise(&mut self, place: u32, value: u32) {
        let minus = P - place;
        for i in (1..=(self.degree + 1) as usize).rev() {
            self.c[i] = (self.c[i - 1] + self.c[i] * minus) % P;
        }
        self.c[0] = (self.c[0] * minus + value) % P;
        self.degree += 1;
        self.settle();
    }

    /// This minus factor times x^shift times another.
    fn subtract(&mut self, factor: u32, shift: usize, other: &Poly) {
        if other.degree < 0 {
            return;
        }
        let minus = P - factor;
        for i in 0..=other.degree as usize {
            self.c[i + shift] = (self.c[i + shift] + other.c[i] * minus) % P;
        }
        self.degree = self.degree.max(other.degree + shift as isize);
        self.settle();
    }
}

/// The polynomial of the lowest degree that has these values at these places, by Newton's divided differences.
fn interpolated(places: &[u32], values: &mut [u32]) -> Poly {
    let values = &mut values[..places.len()];
    for l in 1..places.len() {
        for i in (l..places.len()).rev() {
            values[i] = (values[i] + P - values[i - 1]) * INVERSE[(places[i] - places[i - l]) as usize] % P;
        }
    }
    let mut sum = Poly::ZERO;
    for i in (0..places.len()).rev() {
        sum.raise(places[i], values[i]);
    }
    sum
}

/// The product of (x - place).
fn product(places: &[u32]) -> Poly {
    let mut product = Poly::constant(1);
    for &place in places {
        product.raise(place, 0);
    }
    product
}

/// Euclid's algorithm until twice the degree of the remainder is below `stop`: that remainder and its cofactor, which times `r1` is the remainder at every place
/// where `r0` is 0.
fn euclid(mut r0: Poly, mut r1: Poly, stop: usize) -> (Poly, Poly) {
    let (mut v0, mut v1) = (Poly::ZERO, Poly::constant(1));
    while 2 * r1.degree >= stop as isize {
        let inverse = INVERSE[r1.lead() as usize];
        while r0.degree >= r1.degree {
            let factor = r0.lead() * inverse % P;
            let shift = (r0.degree - r1.degree) as usize;
            r0.subtract(factor, shift, &r1);
            v0.subtract(factor, shift, &v1);
        }
        std::mem::swap(&mut r0, &mut r1);
        std::mem::swap(&mut v0, &mut v1);
    }
    (r1, v1)
}

/// r / v, if that leaves nothing over and has at most k coefficients.
fn quotient(mut r: Poly, v: &Poly, k: usize) -> Option<[u16; 4]> {
    let mut c = [0u16; 4];
    let inverse = INVERSE[v.lead() as usize];
    while r.degree >= v.degree {
        let shift = (r.degree - v.degree) as usize;
        if shift >= k {
            return None;
        }
        let factor = r.lead() * inverse % P;
        c[shift] = factor as u16;
        r.subtract(factor, shift, v);
    }
    (r.degree < 0).then_some(c)
}

/// The polynomial of degree at most d that meets at least n - t of the n points, a blank meeting none.
pub fn decode(sizes: &Sizes, points: &[u16]) -> Option<[u16; 4]> {
    let k = sizes.d + 1;
    let mut places = [0u32; 31];
    let mut values = [0u32; 31];
    let mut there = 0;
    for (i, &y) in points.iter().enumerate() {
        if u32::from(y) < P {
            places[there] = i as u32 + 1;
            values[there] = y.into();
            there += 1;
        }
    }
    if there < sizes.quorum() {
        return None;
    }
    let places = &places[..there];
    let (r, v) = euclid(product(places), interpolated(places, &mut values), there + k);
    let c = quotient(r, &v, k)?;
    let met = points.iter().enumerate().filter(|&(i, &y)| value(c.iter().map(|&c| c.into()), i as u32 + 1) == y.into()).count();
    (met >= sizes.quorum()).then_some(c)
}
