//! Signed Embedded Ints, which are held to COBOL's rule and not to the Rust: the rule as document 02, S-4, has it, and its cases.

use crate::cases::Random;
use crate::check::{read as check_read, write as check_write, Item, Kind, Tally};
use crate::records::{read_record, Buffers, Entry};
use rust::{ebcdic, Layout};

pub const RULE: &str = "signed Embedded Ints are zoned numbers (02, S-4)";

pub fn is(k: &Kind) -> bool {
    k.kind == 1 && k.p != 0 && k.q == 1
}

fn blank(b: &u8) -> bool {
    matches!(b, 0x09..=0x0D | 0x20)
}

fn trimmed(s: &[u8]) -> &[u8] {
    let a = s.iter().take_while(|b| blank(b)).count();
    let e = s[a..].iter().rev().take_while(|b| blank(b)).count();
    &s[a..s.len() - e]
}

/// The size that digits spell, as far as it matters here.
fn size(digits: impl Iterator<Item = u8>) -> u128 {
    digits.fold(0, |n: u128, d| (n * 10 + d as u128).min(1 << 100))
}

/// Digits with one leading sign or none, of 64 bits; the number of the question that refuses.
fn plain(t: &[u8]) -> Result<i64, u32> {
    let (minus, digits) = match t.first() {
        Some(b'-') => (true, &t[1..]),
        Some(b'+') => (false, &t[1..]),
        _ => (false, t),
    };
    if digits.is_empty() || !digits.iter().all(|b| b.is_ascii_digit()) {
        return Err(8);
    }
    let n = size(digits.iter().map(|b| b - b'0'));
    let n = if minus { -(n as i128) } else { n as i128 };
    i64::try_from(n).map_err(|_| 9)
}

/// "Reading takes a trimmed field of digits whose last byte is one of { } A to R as a zoned number, and any other field as before; a size above 2^63 − 1 so
/// read is refused with 9".
pub fn read(page: u32, part: &[u8]) -> Result<i64, u32> {
    let ascii = if page == 0 { part.to_vec() } else { ebcdic::decode_slice(part) };
    let t = trimmed(&ascii);
    let Some((last, front)) = t.split_last() else { return Ok(0) };
    let place = |of: &[u8]| of.iter().position(|b| b == last);
    let (digit, minus) = match (place(b"{ABCDEFGHI"), place(b"}JKLMNOPQR")) {
        (Some(d), _) => (d, false),
        (_, Some(d)) => (d, true),
        _ => return plain(t),
    };
    if !front.iter().all(|b| b.is_ascii_digit()) {
        return plain(t);
    }
    let n = size(front.iter().map(|b| b - b'0').chain([digit as u8]));
    if n > i64::MAX as u128 {
        return Err(9);
    }
    Ok(if minus { -(n as i64) } else { n as i64 })
}

/// The integer that a value stands for.
fn whole(v: &Item) -> Option<i64> {
    match v.tag {
        0 => Some(0),
        1 => plain(trimmed(&v.text)).ok(),
        2 => Some(v.a as i64),
        3 if v.b == 0 => Some(v.a as i64),
        _ => None,
    }
}

/// "Signed Embedded Ints are now written as zoned numbers of the same width"; "writing −2^63 with 14".
pub fn write(page: u32, width: usize, v: &Item) -> Result<Vec<u8>, u32> {
    let n = whole(v).ok_or(13u32)?;
    let digits = n.unsigned_abs().to_string().into_bytes();
    if n == i64::MIN || digits.len() > width {
        return Err(14);
    }
    let mut b = vec![b'0'; width - digits.len()];
    b.extend(digits);
    let last = (b[width - 1] - b'0') as usize;
    b[width - 1] = if n < 0 { b"}JKLMNOPQR"[last] } else { b"{ABCDEFGHI"[last] };
    Ok(if page == 0 { b } else { ebcdic::encode_slice(&b) })
}

// ---- the cases

pub const FIELD: Kind = Kind { kind: 1, p: 1, q: 1, r: 0, s: 0, mask: vec![] };

/// Fields on either side of each limit.
const TEXTS: [&str; 34] = [
    "}", "{", "R", "J", "A", "I", "S", "z", "r", "12}", "1}2", "}12", "12r", "12", "-12", "+12", "-", "", " 12} ", "\t12}\n", "1 2}", "-12}", "12-}", "}}", "A}",
    "922337203685477580G", "922337203685477580P", "922337203685477580H", "922337203685477580Q", "0000922337203685477580Q",
    "9223372036854775807", "-9223372036854775808", "9223372036854775808", "99999999999999999999999999999999999999}",
];

/// Bytes that come near such a field: digits, an overpunched byte behind them, blanks around; at times any byte in one place.
pub fn bytes(g: &mut Random, page: u32, w: usize) -> Vec<u8> {
    let mut b: Vec<u8> = (0..w).map(|_| if g.below(60) == 0 { g.pick(b"{}AR-+ ") } else { 48 + g.below(10) as u8 }).collect();
    let mut end = w;
    if g.below(3) == 0 {
        let (left, right) = (g.below(w as u64 + 1) as usize, g.below(3) as usize);
        b[..left].fill(b' ');
        end = w.saturating_sub(right);
        b[end..].fill(g.pick(b" \t\r"));
    }
    // sizes round 2^63
    if end >= 19 && g.below(3) == 0 {
        let near = (1u64 << 63).wrapping_add(g.below(7)).wrapping_sub(3).to_string().into_bytes();
        b[..end - 19].fill(g.pick(b"0 "));
        b[end - 19..end].copy_from_slice(&near);
    }
    if end > 0 && g.below(5) != 0 {
        let digit = b[end - 1].wrapping_sub(48) as usize % 10;
        b[end - 1] = if g.below(2) == 0 { b"{ABCDEFGHI"[digit] } else { b"}JKLMNOPQR"[digit] };
    }
    if w > 0 && g.below(8) == 0 {
        b[g.below(w as u64) as usize] = g.next() as u8;
    }
    if page == 1 { ebcdic::encode_slice(&b) } else { b }
}

pub fn value(g: &mut Random, w: usize) -> Item {
    let most = 10u64.checked_pow(w.min(19) as u32).unwrap();
    let n = match g.below(6) {
        0 => most - 1,
        1 => most,
        2 => g.below(most),
        3 => (1 << 63) - g.below(3),
        4 => g.below(12),
        _ => g.next() >> g.below(64),
    };
    let n = if n > 1 << 63 { n >> 1 } else { n };
    Item { tag: 2, a: if g.below(2) == 0 { n } else { n.wrapping_neg() }, b: 0, text: vec![] }
}

/// Such an entry as the controller of a table of at most 9: above that, and with a minus, it is refused by 6.
fn controllers(t: &mut Tally) {
    let mut b = Buffers::new();
    for (page, w, n) in (0..2).flat_map(|page| (1..4).flat_map(move |w| (-12i64..=12).map(move |n| (page, w, n)))) {
        let entry = |name, offset, width, kind: Kind, occurs, depending| Entry { name, offset, width, kind, occurs, depending, members: vec![] };
        let entries = [entry(0, 0, w, FIELD, None, None), entry(1, w, 1, Kind { p: 0, q: 0, ..FIELD }, Some(9), Some(0))];
        let layout = Layout::from_fields(entries.iter().map(|e| e.field()).collect()).unwrap();
        let Ok(mut record) = write(page, w as usize, &Item { tag: 2, a: n as u64, b: 0, text: vec![] }) else { continue };
        record.extend(if page == 0 { [b'7'; 9] } else { [0xF7; 9] });
        read_record(t, &mut b, &entries, &layout, &record, page, 400, 400);
    }
}

pub fn random(t: &mut Tally, cases: u64, seed: u64) {
    controllers(t);
    let mut g = Random(seed.wrapping_mul(0x9E37_79B9_7F4A_7C15) | 1);
    for s in TEXTS {
        check_read(t, &FIELD, 0, s.as_bytes());
        check_read(t, &FIELD, 1, &ebcdic::encode_slice(s.as_bytes()));
    }
    for _ in 0..cases {
        let (page, w) = (g.below(2) as u32, g.below(25) as usize);
        if g.below(2) == 0 {
            let b = bytes(&mut g, page, w);
            check_read(t, &FIELD, page, &b);
        } else {
            let v = value(&mut g, w);
            check_write(t, &FIELD, page, w, &v);
        }
    }
}
