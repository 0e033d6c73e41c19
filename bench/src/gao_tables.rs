//! Gao's decoder written for the machine: Lagrange tables for the places 1 to 31 and SSE2 instructions by hand. It shows how far
//! one can go; the one that a programmer would write is the reference's decoder. For x86-64, like the library it is compared with.

use std::arch::x86_64::*;

/// A row of Euclid's algorithm: PAD zeros, W coefficients of a remainder from the lowest, and those of its cofactor.
const PAD: usize = 8;

/// A loop for constants, which can have no `for`.
macro_rules! each {
    ($i:ident in $from:expr, $to:expr => $body:expr) => {{
        let mut $i = $from;
        while $i < $to {
            $body;
            $i += 1;
        }
    }};
}

/// A number from -128 to 129 that equals x modulo 257, and 0 for 0: the product of two such fits in 16 bits.
/// For x below 2^15 - 128 in size.
#[inline(always)]
fn near(x: i16) -> i16 {
    x - ((x + 128) as i32 * 255 >> 16) as i16 * 257
}

/// The same for x below 2^16 - 128 in size.
#[inline(always)]
const fn near32(x: i32) -> i32 {
    x - ((x + 128) * 255 >> 16) * 257
}

/// The powers of 3: all numbers modulo 257 but 0.
static EXP: [i16; 256] = {
    let mut t = [1; 256];
    each!(i in 1, 256 => t[i] = near32(t[i - 1] as i32 * 3) as i16);
    t
};

const fn log(x: i32) -> u8 {
    let mut i = 0;
    while (EXP[i] as i32 - x) % 257 != 0 {
        i += 1;
    }
    i as u8
}

/// The inverse of x stands at x + 128.
static INVERSE: [i16; 258] = {
    let mut t = [0; 258];
    each!(i in 0, 258 => if i != 128 { t[i] = EXP[log(i as i32 - 128).wrapping_neg() as usize] });
    t
};

/// For the places 1 to W - 1, of which the one at i is i + 1.
struct Tables<const W: usize> {
    /// The places, their squares and their cubes.
    powers: [[i16; W]; 3],
    /// The product of (z - x) over the places x.
    all: [i16; W],
    /// The polynomials that are 1 at one place and 0 at the others, for two places at a time, coefficients in turn.
    basis: [[[i16; 8]; 8]; 16],
    /// The logarithm of the place i less the place j, at [j][i].
    apart: [[u8; W]; W],
}

const fn tables<const W: usize>() -> Tables<W> {
    let mut t = Tables { powers: [[0; W]; 3], all: [0; W], basis: [[[0; 8]; 8]; 16], apart: [[0; W]; W] };
    t.all[0] = 1;
    each!(x in 1, W as i32 => each!(back in 1, W + 1 => {
        let j = W - back;
        let below = if j > 0 { t.all[j - 1] as i32 } else { 0 };
        t.all[j] = near32(below - t.all[j] as i32 * x) as i16;
    }));
    each!(i in 0, W - 1 => {
        let x = i as i32 + 1;
        each!(e in 0, 3 => t.powers[e][i] = near32(x.pow(e as u32 + 1)) as i16);
        let mut weight = 0u8;
        each!(j in 0, W - 1 => if j != i {
            t.apart[j][i] = log(i as i32 - j as i32);
            weight = weight.wrapping_sub(t.apart[j][i]);
        });
        let mut quotient = 0;
        each!(back in 1, W => {
            let j = W - 1 - back;
            quotient = near32(quotient * x + t.all[j + 1] as i32);
            t.basis[i / 2][j / 4][j % 4 * 2 + i % 2] = near32(quotient * EXP[weight as usize] as i32) as i16;
        });
    });
    t
}

static NARROW: Tables<16> = tables();
static WIDE: Tables<32> = tables();

/// For n from 4 to 31 and n points.
pub fn decode(n: usize, points: &[u16]) -> Option<[u16; 4]> {
    if n < 16 { run::<16, 32>(&NARROW, n, points) } else { run::<32, 56>(&WIDE, n, points) }
}

/// All widths are fixed, so that the inner loops are whole vectors. A row has ROW numbers: room for a cofactor of
/// degree t.
#[inline(always)]
fn run<const W: usize, const ROW: usize>(tables: &Tables<W>, n: usize, points: &[u16]) -> Option<[u16; 4]> {
    let t = (n - 1) / 3;
    let (k, need) = (t / 3 + 1, n - t);
    // The places beyond n are blank as well.
    let mut raw = [u16::MAX; W];
    raw[..n].copy_from_slice(&points[..n]);
    let (mut y, mut blanks) = ([0; W], 0u8);
    for i in 0..W {
        blanks += (raw[i] > 256) as u8;
        y[i] = if raw[i] > 256 { 0 } else { raw[i] as i16 - if raw[i] > 128 { 257 } else { 0 } };
    }
    let present = W - blanks as usize;
    if present < need {
        return None;
    }

    // With e the product of (z - x) over the blank places x, interpolate through e y, which is 0 there. That is e times
    // the polynomial through the points present, just as `all` is e times their product: Euclid's steps are the same.
    let (mut scaled, mut e) = (y, [1, 0, 0, 0]);
    if present < W - 1 {
        let mut factor = [0u8; W];
        for j in 0..W - 1 {
            if raw[j] > 256 {
                for i in 0..W {
                    factor[i] = factor[i].wrapping_add(tables.apart[j][i]);
                }
                // The leading coefficients of e are below 2^25.
                let x = j as i32 + 1;
                e = [1, e[1] - x, e[2] - e[1] * x, e[3] - e[2] * x];
            }
        }
        for i in 0..n {
            scaled[i] = near(y[i] * EXP[factor[i] as usize]);
        }
    }
    let (mut first, mut second) = ([0; ROW], [0; ROW]);
    first[PAD..PAD + W].copy_from_slice(&tables.all);
    let sums = combine(tables, &scaled, n);
    for j in 0..W {
        let s = (sums[j] & 0xffff) + (sums[j] >> 16);
        second[PAD + j] = near(((s & 255) - (s >> 8)) as i16);
    }
    second[PAD + W] = 1;

    // With m points present there may be m - need errors, so the first remainder of degree less than need is the wanted
    // one, here times e.
    let extra = W - 1 - present;
    let stop = need + extra;
    let (mut a, mut b) = (&mut first, &mut second);
    let at = |row: &[i16; ROW], j: usize| row[PAD + j] as i32;
    let degree = |row: &[i16; ROW], below: usize| (stop..below).rev().find(|&j| at(row, j) != 0).unwrap_or(stop - 1);
    let (mut da, mut db) = (W - 1, degree(b, W - 1));
    let (mut a_lead, mut a_next, mut b_lead, mut b_next) = (at(a, da), at(a, da - 1), at(b, db), at(b, db - 1));
    while db >= stop {
        let inverse = INVERSE[(b_lead + 128) as usize] as i32;
        let (mut lead, mut next) = (0, 0);
        if da == db + 1 {
            let q1 = near32(a_lead * inverse);
            let q0 = near32(a_next * inverse - q1 * near32(b_next * inverse));
            // Ahead of the whole row, because the next step waits for these.
            lead = near32(at(a, db - 1) - q1 * at(b, db - 2) - q0 * b_next);
            next = near32(at(a, db - 2) - q1 * at(b, db - 3) - q0 * at(b, db - 2));
            subtract(a, b, q1 as i16, q0 as i16);
        } else {
            for s in (0..=da - db).rev() {
                let q = near32(at(a, db + s) * inverse) as i16;
                for i in PAD + s..ROW {
                    a[i] = near(a[i] - b[i - s] * q);
                }
            }
        }
        std::mem::swap(&mut a, &mut b);
        (da, a_lead, a_next) = (db, b_lead, b_next);
        (db, b_lead, b_next) = (db - 1, lead, next);
        if lead == 0 {
            db = degree(b, da);
            (b_lead, b_next) = (at(b, db), at(b, db - 1));
        }
    }

    // The remainder over e times the cofactor, of degree v. Leading coefficients suffice, for the points are checked.
    let v = W - 1 - da;
    // The usual end of points without an answer: the quotient would have more than k coefficients.
    if at(b, stop - 1) != 0 && stop > v + extra + k {
        return None;
    }
    let inverse = INVERSE[(at(b, W + v) + 128) as usize] as i32;
    let e = e.map(|e| near32(e % 257));
    let mut divisor = [0; 4];
    for i in 0..4 {
        let sum = (0..=i.min(v)).map(|j| at(b, W + v - j) * e[i - j]).sum();
        divisor[i] = near32(near32(sum) * inverse);
    }
    let mut c = [0; 4];
    for j in (0..k).rev() {
        let known: i32 = (j + 1..k).map(|l| c[l] * divisor[l - j]).sum();
        c[j] = near32(near32(at(b, v + extra + j) * inverse) - known);
    }
    let [c0, c1, c2, c3] = c.map(|c| c as i16);
    let [x, x2, x3] = &tables.powers;
    let mut missed = 0u8;
    for i in 0..W {
        let off = near(near(c3 * x3[i] + c1 * x[i]) + c2 * x2[i] + c0 - y[i]);
        missed += (off != 0 || raw[i] > 256) as u8;
    }
    (W - missed as usize >= need).then(|| c.map(|c| c.rem_euclid(257) as u16))
}

/// The sum of the polynomials of the basis, each times its y.
#[inline(always)]
fn combine<const W: usize>(tables: &Tables<W>, y: &[i16; W], n: usize) -> [i32; W] {
    let mut sums = [0; W];
    // SAFETY: every x86-64 has SSE2; what is read and written are 16 bytes within arrays.
    unsafe {
        let mut vectors = [_mm_setzero_si128(); 8];
        for p in 0..n.div_ceil(2) {
            let pair = _mm_set1_epi32(y[2 * p] as u16 as i32 | (y[2 * p + 1] as i32) << 16);
            for v in 0..W / 4 {
                let two = _mm_loadu_si128(tables.basis[p][v].as_ptr().cast());
                vectors[v] = _mm_add_epi32(vectors[v], _mm_madd_epi16(two, pair));
            }
        }
        for v in 0..W / 4 {
            _mm_storeu_si128(sums[4 * v..4 * v + 4].as_mut_ptr().cast(), vectors[v]);
        }
    }
    sums
}

/// a - (q1 z + q0) b
#[inline(always)]
fn subtract<const ROW: usize>(a: &mut [i16; ROW], b: &[i16; ROW], q1: i16, q0: i16) {
    for i in PAD..ROW {
        let x = b[i - 1] * q1;
        a[i] = near(a[i] + (x >> 8) - (x & 255) - b[i] * q0);
    }
}
