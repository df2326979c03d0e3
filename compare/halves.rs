//! Floats of 16 bits in writing, which are held to IEEE 754 and not to the Rust (02, S-9): the nearest of all binary16 numbers, over exact fractions, and its cases.

use crate::cases::Random;
use crate::check::{write, Item, Kind, Tally};
use std::sync::OnceLock;

pub const EXACT: &str = "16 bits: an exact number (S-9)";
const RULES: [&str; 5] = [
    "16 bits: to the nearest normal number (S-9)", "16 bits: to the nearest below 2^-14 (S-9)", "16 bits: a tie (S-9)", "16 bits: an infinity from 65520 on (S-9)", "16 bits: NaN as 7E00 (S-9)",
];

pub fn is(k: &Kind) -> bool {
    k.kind == 3 && k.q == 16
}

/// How many 2^-24 each pattern without a sign stands for; the infinity, which is the last, counts as 2^16.
fn sizes() -> &'static [u128] {
    static SIZES: OnceLock<Vec<u128>> = OnceLock::new();
    SIZES.get_or_init(|| (0..=0x7C00u32).map(|b| if b < 1024 { b as u128 } else { (1024 + (b as u128 & 1023)) << ((b >> 10) - 1) }).collect())
}

/// A finite f64's size in units of 2^-24, as a fraction; what lies far beyond the range or below it stays there.
fn units(bits: u64) -> (u128, u128) {
    let (x, t) = ((bits >> 52) as i32 & 2047, (bits & ((1 << 52) - 1)) as u128);
    let m = if x == 0 { t } else { t + (1 << 52) };
    let e = x.max(1) - 1075 + 24;
    if e >= 0 { (m << e.min(60), 1) } else { (m, 1 << (-e).min(70)) }
}

/// The half that is written for an f64's bits, and the rule to count it by.
pub fn nearest(bits: u64) -> (u16, &'static str) {
    let f = f64::from_bits(bits);
    if f.is_nan() {
        return (0x7E00, RULES[4]);
    }
    let sign = (bits >> 63 << 15) as u16;
    if f.is_infinite() {
        return (sign | 0x7C00, EXACT);
    }
    let ((n, d), all) = (units(bits), sizes());
    let low = all.partition_point(|&u| u * d <= n) - 1;
    if low == 0x7C00 {
        return (sign | 0x7C00, RULES[3]);
    }
    let (above, below) = (n - all[low] * d, all[low + 1] * d - n);
    let up = above > below || above == below && low % 2 == 1;
    let b = low + up as usize;
    let rule = match b {
        _ if above == 0 => EXACT,
        _ if above == below => RULES[2],
        0x7C00 => RULES[3],
        0..=0x3FF => RULES[1],
        _ => RULES[0],
    };
    (sign | b as u16, rule)
}

/// Any half but a NaN, as an f64.
pub fn any(g: &mut Random) -> f64 {
    let b = g.below(0x7C01) as usize;
    let size = if b == 0x7C00 { f64::INFINITY } else { sizes()[b] as f64 / 2f64.powi(24) };
    if g.below(2) == 0 { size } else { -size }
}

/// An f64 at a half, half way to the next one, or near one of these; the fewer digits are changed, the less it is seen at 32 bits.
pub fn near(g: &mut Random) -> u64 {
    let b = match g.below(4) {
        0 => g.below(0x400),
        1 => 0x7BF0 + g.below(16),
        _ => g.below(0x7C00),
    } as usize;
    let twice = if g.below(4) == 0 { 2 * sizes()[b] } else { sizes()[b] + sizes()[b + 1] };
    let at = (twice as f64 / 2f64.powi(25)).to_bits();
    let digits = g.below(30);
    let far = g.below(1 << digits);
    let bits = match g.below(6) {
        0 | 1 => at,
        2 | 3 => at + 1 + far,
        4 => at.saturating_sub(1 + far),
        _ => (985 + g.below(64)) << 52 | g.next() >> 12,
    };
    bits | g.below(2) << 63
}

pub fn random(t: &mut Tally, cases: u64, seed: u64) {
    let mut g = Random(seed.wrapping_mul(0x9E37_79B9_7F4A_7C15) | 1);
    for _ in 0..cases {
        let k = Kind { kind: 3, p: g.below(2) as u32, q: 16, r: 0, s: 0, mask: vec![] };
        let far = g.below(52);
        let v = match g.below(16) {
            0 => Item { tag: 3, a: g.below(1_000_000), b: g.below(19), text: vec![] },
            1 => Item { tag: 2, a: g.below(140_000).wrapping_sub(70_000), b: 0, text: vec![] },
            2 => Item { tag: 4, a: 0x7FF0_0000_0000_0000 | (g.next() >> 12) >> far | g.below(2) << 63, b: 0, text: vec![] },
            _ => Item { tag: 4, a: near(&mut g), b: 0, text: vec![] },
        };
        write(t, &k, g.below(2) as u32, 2, &v);
    }
}
