//! The inputs: all short fields, and random ones around every boundary.

use crate::check::{read, write, Item, Kind, Tally};
use crate::embedded;

fn kind(kind: u32, p: u32, q: u32, r: u32, s: u32) -> Kind {
    Kind { kind, p, q, r, s, mask: vec![] }
}

fn edited(signed: u32, scale: u32, mask: &[u8]) -> Kind {
    Kind { kind: 8, p: signed, q: 0, r: scale, s: 0, mask: mask.to_vec() }
}

/// One of each reading: every kind with every choice that reading looks at.
fn readings() -> Vec<Kind> {
    let mut all = vec![];
    for p in 0..2 {
        for q in 0..2 {
            for r in [0x20, 0x30, 0, 0xFF] {
                all.push(kind(0, p, q, r, 0));
            }
            all.push(kind(2, p, q, 0, 0));
        }
        all.push(kind(4, p, 0, 0, 0));
        for bits in [16, 32, 64] {
            all.push(kind(3, p, bits, 0, 0));
        }
        all.push(edited(p, 2, b""));
    }
    all.push(kind(5, 0, 0, 0, 0));
    for sign in 0..4 {
        all.push(kind(1, 0, sign, 0, 0));
        all.push(kind(1, 1, sign, 0, 0));
        for p in 0..3 {
            all.push(kind(7, p, sign, 3, 0));
        }
    }
    all
}

pub fn read_short(t: &mut Tally) {
    for k in readings() {
        for page in 0..2 {
            if k.kind != 3 {
                read(t, &k, page, &[]);
                for a in 0..=255u8 {
                    read(t, &k, page, &[a]);
                }
            }
            if k.kind != 3 || k.q == 16 {
                for a in 0..=255u8 {
                    for b in 0..=255u8 {
                        read(t, &k, page, &[a, b]);
                    }
                }
            }
        }
    }
}

fn scalar(tag: u64, a: u64, b: u64) -> Item {
    Item { tag, a, b, text: vec![] }
}

fn text(s: &[u8]) -> Item {
    Item { tag: 1, a: 0, b: s.len() as u64, text: s.to_vec() }
}

fn values() -> Vec<Item> {
    let mut all = vec![scalar(0, 0, 0), scalar(5, 0, 0), scalar(5, 1, 0), scalar(6, 0, 1), scalar(7, 0, 1)];
    for n in [0i64, 1, -1, 5, 9, 10, 99, 100, 127, 128, -128, -129, 255, 256, 32767, -32768, 65536, 999999, i64::MAX, i64::MIN, i64::MIN + 1, 999_999_999_999_999_999, 1_000_000_000_000_000_000] {
        all.push(scalar(2, n as u64, 0));
        if n.unsigned_abs() < 1_000_000_000_000_000_000 {
            for scale in [0, 1, 2, 3, 9, 17, 18] {
                all.push(scalar(3, n as u64, scale));
            }
        }
    }
    for f in [0.0f64, -0.0, 1.0, -1.0, 0.5, 1.5, 2.5, -2.5, 0.1, 65504.0, 65519.0, 65520.0, 65536.0, 6.103515625e-5, 6.1e-5, 5.96e-8, 1e17, 999999999999999900.0, 1e18, 1e19, 1e300, f64::INFINITY, f64::NEG_INFINITY, 3.4e38, 3.5e38, 1e-45, 7e-46] {
        all.push(scalar(4, f.to_bits(), 0));
    }
    for w in [0x7FF8_0000_0000_0000u64, 0xFFF8_0000_0000_0001, 0x7FF0_0000_0000_0001] {
        all.push(scalar(4, w, 0));
    }
    for s in ["", " ", "0", "7", "-7", "+7", "+", "-", "--7", " 12 ", "1 2", "007", "9223372036854775807", "9223372036854775808", "-9223372036854775808", "-9223372036854775809", "1.5", "4f", "4F4", " 4 f ", "zz", "true", "AB", "\u{e9}", "4\u{e9}", "\t9\n", "0x10", "\u{a0}7", "7\u{85}", "4\u{a0}f", "\u{2003}"] {
        all.push(text(s.as_bytes()));
    }
    all
}

/// One of each writing.
fn writings() -> Vec<Kind> {
    let mut all = vec![kind(5, 0, 0, 0, 0), kind(6, 0, 0, 0x20, 0), kind(6, 0, 0, 0xFF, 0)];
    for p in 0..2 {
        all.push(kind(0, p, 1, 0x20, 0));
        all.push(kind(0, p, 1, 0xC1, 0));
        all.push(kind(2, p, 1, 0, 0));
        all.push(kind(4, p, 0, 0, 0));
        for q in 0..4 {
            all.push(kind(1, p, q, 0, 0));
        }
    }
    for p in 0..3 {
        for sign in 0..4 {
            for scale in [0, 1, 2, 18] {
                all.push(kind(7, p, sign, scale, 0));
            }
            all.push(kind(7, p, sign, 2, 3));
        }
    }
    all
}

pub const MASKS: [&str; 40] = [
    "9", "99", "Z9", "ZZ9", "ZZZ", "ZZZ.ZZ", "ZZ,ZZ9.99-", "-ZZ9", "+ZZ9", "ZZ9+", "ZZ9CR", "ZZ9DB", "$ZZ9.99", "$$9", "++9", "--9", "*9", "***.**", "*,**9.99", "9/99/99", "9B9", "909", "ZZZ,ZZZ,ZZ9", "C", "CR", "CX", "9C",
    "D", "DB", "9D", "R9", "X9", "9R", "B", ",", ".", "ZZ9.99CR", "**9.99DB", "999999999999999999", "9999999999999999999999",
];

pub fn write_short(t: &mut Tally) {
    let values = values();
    for page in 0..2 {
        for v in &values {
            for k in writings() {
                for w in 0..11 {
                    if k.kind == 5 && w == 0 {
                        continue;
                    }
                    write(t, &k, page, w, v);
                }
            }
            for order in 0..2 {
                for bits in [16, 32, 64] {
                    write(t, &kind(3, order, bits, 0, 0), page, bits as usize / 8, v);
                }
            }
            for m in MASKS {
                for (signed, scale) in [(0, 0), (1, 2)] {
                    write(t, &edited(signed, scale, m.as_bytes()), page, m.len(), v);
                }
            }
        }
    }
}

pub struct Random(pub u64);

impl Random {
    pub fn next(&mut self) -> u64 {
        self.0 ^= self.0 << 13;
        self.0 ^= self.0 >> 7;
        self.0 ^= self.0 << 17;
        self.0.wrapping_mul(0x2545_F491_4F6C_DD1D)
    }
    pub fn below(&mut self, n: u64) -> u64 {
        (self.next() >> 11) % n
    }
    pub fn pick<T: Clone>(&mut self, of: &[T]) -> T {
        of[self.below(of.len() as u64) as usize].clone()
    }
}

pub fn any_kind(g: &mut Random) -> Kind {
    match g.below(9) {
        0 => kind(0, g.below(2) as u32, g.below(2) as u32, g.pick(&[0x20, 0x30, 0, 0x41, 0x80, 0xFF]), 0),
        1 => kind(1, g.below(2) as u32, g.below(4) as u32, 0, 0),
        2 => kind(2, g.below(2) as u32, g.below(2) as u32, 0, 0),
        3 => kind(3, g.below(2) as u32, g.pick(&[16, 32, 64]), 0, 0),
        4 => kind(4, g.below(2) as u32, 0, 0, 0),
        5 => kind(5, 0, 0, 0, 0),
        6 | 7 => kind(7, g.below(3) as u32, g.below(4) as u32, g.below(19) as u32, g.pick(&[0, 0, 0, 1, 5, 18, 38])),
        _ => {
            let mask = if g.below(3) == 0 { g.pick(&MASKS).as_bytes().to_vec() } else { (0..1 + g.below(14)).map(|_| g.pick(b"99ZZ**,./B0$+-CRDB")).collect() };
            edited(g.below(2) as u32, g.below(19) as u32, &mask)
        }
    }
}

pub fn width(g: &mut Random, k: &Kind) -> usize {
    match k.kind {
        3 => k.q as usize / 8,
        5 => 1 + g.below(4) as usize,
        8 => k.mask.len(),
        _ => {
            let most = if g.below(4) == 0 { 41 } else { 12 };
            g.below(most) as usize
        }
    }
}

/// Bytes that come near what the kind takes.
pub fn bytes(g: &mut Random, k: &Kind, page: u32, w: usize) -> Vec<u8> {
    if embedded::is(k) {
        return embedded::bytes(g, page, w);
    }
    let mut b: Vec<u8> = match (k.kind, k.p) {
        (7, 1) => (0..w).map(|i| if i + 1 == w { (g.below(10) * 16 + 10 + g.below(6)) as u8 } else { (g.below(10) * 16 + g.below(10)) as u8 }).collect(),
        (7, 2) => (0..w).map(|i| if i + 1 == w { g.pick(b"0123456789{}ABCDEFGHIJKLMNOPQR") } else { 48 + g.below(10) as u8 }).collect(),
        (1, _) | (7, _) | (8, _) => {
            let digits = g.below(3) == 0;
            (0..w).map(|i| if digits || (i > 1 && i + 2 < w) { 48 + g.below(10) as u8 } else { g.pick(b"0123456789 +-\t,.CRcrDBdb") }).collect()
        }
        // pads before a zero byte, or nearly so, in every third text
        (0, _) if g.below(3) == 0 && w > 0 => {
            let zero = g.below(w as u64) as usize;
            let pads = zero - g.below(zero as u64 + 1).min(3) as usize;
            (0..w).map(|i| if i == zero { 0 } else if (pads..zero).contains(&i) { k.r as u8 } else { g.pick(b"AB 0z") }).collect()
        }
        (0, _) => (0..w).map(|_| g.pick(b"AB 0\0z\x7f\x80")).collect(),
        _ => (0..w).map(|_| g.next() as u8).collect(),
    };
    if g.below(8) == 0 && w > 0 {
        let i = g.below(w as u64) as usize;
        b[i] = g.next() as u8;
    }
    let raw = matches!((k.kind, k.p), (7, 1) | (2, _) | (3, _) | (4, _) | (5, _));
    if page == 1 && !raw {
        b = rust::ebcdic::encode_slice(&b);
    }
    b
}

fn near_power(g: &mut Random) -> i64 {
    let p = 10i64.pow(g.below(19) as u32);
    let n = match g.below(5) {
        0 => p - 1,
        1 => p,
        2 => g.below(p as u64 + 1) as i64,
        3 => g.below(1000) as i64,
        _ => (1i64 << g.below(63)).wrapping_sub(g.below(3) as i64),
    };
    if g.below(2) == 0 {
        n
    } else {
        -n
    }
}

pub fn any_item(g: &mut Random, k: &Kind) -> Item {
    let favourite = match k.kind {
        0 | 4 => 1,
        1 | 2 => 2,
        3 => 4,
        5 => 5,
        _ => 3,
    };
    match if g.below(3) != 0 { favourite } else { g.below(8) } {
        1 => {
            let n = g.below(14) as usize;
            let s: Vec<u8> = match k.kind {
                4 => (0..n).map(|_| g.pick(b"0123456789abcdefABCDEF0123456789abcdef g")).collect(),
                1 | 2 => (0..1 + g.below(20) as usize).map(|i| if i == 0 { g.pick(b"+-0123456789 ") } else { g.pick(b"01234567890123456789 ") }).collect(),
                _ => (0..n).map(|_| g.pick(b"AB 0\0z")).collect(),
            };
            text(&s)
        }
        2 => scalar(2, (if g.below(4) == 0 { g.next() as i64 } else { near_power(g) }) as u64, 0),
        3 => {
            let n = near_power(g);
            scalar(3, if n.unsigned_abs() < 1_000_000_000_000_000_000 { n } else { n % 1_000_000_000_000_000_000 } as u64, if g.below(3) != 0 { k.r as u64 % 19 } else { g.below(19) })
        }
        4 => {
            let f = match g.below(5) {
                0 => f64::from_bits(g.next()),
                1 => near_power(g) as f64 / 2f64.powi(g.below(30) as i32),
                2 => (f32::from_bits(g.next() as u32)) as f64,
                3 => near_power(g) as f64 / 10f64.powi(g.below(19) as i32),
                _ => (g.below(70000) as f64 - 35000.0) / 2f64.powi(g.below(32) as i32),
            };
            scalar(4, f.to_bits(), 0)
        }
        5 => scalar(5, g.below(2), 0),
        6 => scalar(6, 0, 1),
        7 => scalar(7, 0, 1),
        _ => scalar(0, 0, 0),
    }
}

/// A Decimal field in one of its forms, or an Edited one, that has place for nearly every number.
fn wide_field(g: &mut Random, scale: u32) -> (Kind, usize) {
    if g.below(4) == 0 {
        let k = edited(1, scale, g.pick(&["999999999999999999-", "ZZZ,ZZZ,ZZZ,ZZZ,ZZZ,ZZ9CR", "+ZZZZZZ9.99"]).as_bytes());
        let w = k.mask.len();
        return (k, w);
    }
    let k = kind(7, g.below(3) as u32, g.below(4) as u32, scale, 0);
    let w = if g.below(12) == 0 { 1 + g.below(18) } else { 20 };
    (k, w as usize)
}

/// A Decimal of more scale than the field has, mostly at an exact half or next to one. Scales above 18 and sizes from 10^18 stand in no lawful list; a field's writer takes them all the same.
fn more_scale(g: &mut Random, to: u32) -> Item {
    let from = to + 1 + if g.below(10) == 0 { g.below(30) as u32 } else { g.below(18 - to.min(17) as u64) as u32 };
    let d = 10i128.pow(from - to);
    let most = if from > 18 || g.below(8) == 0 { i64::MAX as i128 } else { 999_999_999_999_999_999 };
    let low = most / d;
    let low = if g.below(2) == 0 { low } else { low.min(10i128.pow(g.below(6) as u32)) };
    let q = if g.below(16) == 0 { low } else { g.below(low as u64 + 1) as i128 };
    let rest = match g.below(8) {
        0..=3 => d / 2,
        4 => d / 2 - 1,
        5 => d / 2 + 1,
        6 => d - 1,
        _ => (g.next() as i128) % d,
    };
    let size = (q * d + rest).min(most) as i64;
    scalar(3, (if g.below(2) == 0 { size } else { -size }) as u64, from as u64)
}

/// A Float whose product by 10^scale is mostly an exact half or next to one: h / 2^(scale + 1) times 10^scale is h * 5^scale / 2, which an f64 holds below 2^53.
fn near_half(g: &mut Random, scale: u32) -> Item {
    let h = g.below((1u64 << 53) / 5u64.pow(scale)) | 1;
    let h = if g.below(2) == 0 { h } else { h % 1000 | 1 };
    let f = h as f64 / 2f64.powi(scale as i32 + 1);
    let bits = match g.below(8) {
        0..=3 => f.to_bits(),
        4 => f.to_bits() + 1 + g.below(3),
        5 => f.to_bits() - 1 - g.below(3),
        6 => ((h as f64 + 0.5) / 10f64.powi(scale as i32)).to_bits(),
        _ => (g.next() as f64 / 2f64.powi(g.below(90) as i32)).to_bits(),
    };
    scalar(4, if g.below(2) == 0 { bits } else { bits | 1 << 63 }, 0)
}

/// S-6: Decimals that lose scale, and Floats into Decimals, so many of each.
pub fn rounding(t: &mut Tally, cases: u64, seed: u64) {
    let mut g = Random(seed.wrapping_mul(0x9E37_79B9_7F4A_7C15) | 1);
    for _ in 0..cases {
        let scale = g.below(19) as u32;
        let page = g.below(2) as u32;
        let (k, w) = wide_field(&mut g, scale);
        let v = more_scale(&mut g, scale);
        write(t, &k, page, w, &v);
        let (k, w) = wide_field(&mut g, scale);
        let v = near_half(&mut g, scale);
        write(t, &k, page, w, &v);
    }
}

pub fn random(t: &mut Tally, cases: u64, seed: u64) {
    let mut g = Random(seed.wrapping_mul(0x9E37_79B9_7F4A_7C15) | 1);
    let end = t.cases() + cases;
    while t.cases() < end {
        let k = any_kind(&mut g);
        let page = g.below(2) as u32;
        let w = width(&mut g, &k);
        if g.below(2) == 0 {
            let b = bytes(&mut g, &k, page, w);
            read(t, &k, page, &b);
        } else {
            let v = any_item(&mut g, &k);
            write(t, &k, page, w, &v);
        }
    }
}
