//! One field, by the port and by the Rust; a signed Embedded Int by the port and by the model of embedded.rs, a Float of 16 bits in writing by that of halves.rs.

use crate::embedded;
use crate::halves;
use rust::{decode, ebcdic, edited, encode, packed, zoned, Encoding, Endian, Field, FieldKind, Justify, Layout, NumRepr, SignKind, Value};
use std::collections::BTreeMap;

extern "C" {
    fn leaf_to_ascii(b: u8) -> u8;
    fn leaf_to_ebcdic(b: u8) -> u8;
    fn leaf_decode(kind: u32, p: u32, q: u32, r: u32, page: u32, part: *const u8, part_len: usize, text: *mut u8, text_len: usize, item: *mut u64, item_len: usize) -> u32;
    fn leaf_judge(kind: u32, p: u32, q: u32, r: u32, s: u32, mask: *const u8, mask_len: usize, width: usize, tag: u64, a: u64, b: u64, text: *const u8, text_len: usize) -> u32;
    fn leaf_encode(part: *mut u8, part_len: usize, kind: u32, p: u32, q: u32, r: u32, s: u32, mask: *const u8, mask_len: usize, page: u32, tag: u64, a: u64, b: u64, text: *const u8, text_len: usize) -> u32;
}

/// A scalar field: the words of a layout entry, and its mask.
#[derive(Clone, Debug)]
pub struct Kind {
    pub kind: u32,
    pub p: u32,
    pub q: u32,
    pub r: u32,
    pub s: u32,
    pub mask: Vec<u8>,
}

/// A value: the tag and the two words of an item, and a Text's bytes. Tags 6 and 7 stand for an empty List and Struct.
#[derive(Clone, Debug)]
pub struct Item {
    pub tag: u64,
    pub a: u64,
    pub b: u64,
    pub text: Vec<u8>,
}

#[derive(Default)]
pub struct Group {
    cases: u64,
    accepted: u64,
    refused: BTreeMap<u32, u64>,
    listed: BTreeMap<&'static str, (u64, usize, String)>,
    unlisted: u64,
    smallest: Option<(usize, String)>,
}

#[derive(Default)]
pub struct Tally {
    groups: BTreeMap<&'static str, Group>,
    all: u64,
}

/// How often progress is told on standard error.
const STEP: u64 = 1_000_000;

const NAMES: [&str; 9] = ["Text", "Int", "Binary", "Float", "Hex", "Bool", "Pad", "Decimal", "Edited"];

pub enum Seen {
    Same,
    Listed(&'static str),
    Other(String),
}

impl Tally {
    pub fn cases(&self) -> u64 {
        self.all
    }
    /// Whether a case of a group was refused by a number.
    pub fn cases_of(&self, group: &str) -> u64 {
        self.groups.get(group).map_or(0, |g| g.cases)
    }
    pub fn reached(&self, group: &str, number: u32) -> bool {
        self.groups.get(group).map_or(false, |g| g.refused.contains_key(&number))
    }
    pub fn note(&mut self, group: &'static str, refused: u32, seen: Seen, size: usize, input: impl FnOnce() -> String) {
        self.all += 1;
        if self.all % STEP == 0 {
            eprintln!("{:>12} cases, now {group}", self.all);
        }
        let g = self.groups.entry(group).or_default();
        g.cases += 1;
        if refused == 0 {
            g.accepted += 1;
        } else {
            *g.refused.entry(refused).or_default() += 1;
        }
        match seen {
            Seen::Same => {}
            Seen::Listed(rule) => {
                let l = g.listed.entry(rule).or_insert((0, usize::MAX, String::new()));
                l.0 += 1;
                if size < l.1 {
                    (l.1, l.2) = (size, input());
                }
            }
            Seen::Other(how) => {
                g.unlisted += 1;
                if g.smallest.as_ref().map_or(true, |(n, _)| size < *n) {
                    g.smallest = Some((size, format!("{}: {how}", input())));
                }
            }
        }
    }
    /// Prints the table; answers whether every difference is a listed one.
    pub fn print(&self, wanted: u64, seed: u64) -> bool {
        println!("{:<28}{:>10}{:>10}   refused by number", "group", "cases", "accepted");
        let mut listed: BTreeMap<&str, (u64, usize, &str)> = BTreeMap::new();
        let mut unlisted = 0;
        for (name, g) in &self.groups {
            let by: Vec<String> = g.refused.iter().map(|(n, c)| format!("{n}: {c}")).collect();
            println!("{:<28}{:>10}{:>10}   {}", name, g.cases, g.accepted, by.join(", "));
            for (rule, (c, size, input)) in &g.listed {
                let l = listed.entry(rule).or_insert((0, usize::MAX, ""));
                l.0 += c;
                if *size < l.1 {
                    (l.1, l.2) = (*size, input);
                }
            }
            unlisted += g.unlisted;
        }
        println!("\nlisted differences, each with the smallest input that showed it");
        for (rule, (c, _, input)) in &listed {
            println!("{c:>10}  {rule}\n{:12}{}", "", shortened(input));
        }
        for (name, g) in &self.groups {
            if let Some((_, input)) = &g.smallest {
                println!("\nUNLISTED in {name}, {} cases; the smallest: {input}", g.unlisted);
            }
        }
        println!("\n{} cases (seed {seed}), {} unlisted differences", self.cases(), unlisted);
        unlisted == 0 && self.cases() >= wanted
    }
}

/// A listed difference's input, cut where it is long: an unlisted one is printed whole.
fn shortened(input: &str) -> String {
    if input.len() < 600 { input.into() } else { input.chars().take(600).chain(" ..".chars()).collect() }
}

/// Page 037 both ways, and the slices.
pub fn tables(t: &mut Tally) {
    for b in 0..=255u8 {
        let (x, y) = unsafe { (leaf_to_ascii(b), leaf_to_ebcdic(b)) };
        let same = x == ebcdic::to_ascii(b) && y == ebcdic::to_ebcdic(b) && ebcdic::decode_slice(&[b]) == [x] && ebcdic::encode_slice(&[b]) == [y];
        t.note("page 037", 0, if same { Seen::Same } else { Seen::Other(format!("{x:02x} {y:02x}")) }, b as usize, || format!("byte {b:02x}"));
    }
}

fn order(n: u32) -> Endian {
    if n == 0 {
        Endian::Big
    } else {
        Endian::Little
    }
}

fn sign(n: u32) -> SignKind {
    match n {
        0 => SignKind::Unsigned,
        1 => SignKind::Embedded,
        2 => SignKind::LeadingSeparate,
        _ => SignKind::TrailingSeparate,
    }
}

pub fn field(k: &Kind, width: usize) -> Field {
    let kind = match k.kind {
        0 => FieldKind::Text { justify: if k.p == 0 { Justify::Left } else { Justify::Right }, trim: k.q != 0, pad: k.r as u8 },
        1 => FieldKind::Int { signed: k.p != 0, sign: sign(k.q) },
        2 => FieldKind::Binary { endian: order(k.p), signed: k.q != 0 },
        3 => FieldKind::Float { bits: k.q as u8, endian: order(k.p) },
        4 => FieldKind::Hex { order: order(k.p) },
        5 => FieldKind::Bool,
        6 => FieldKind::Pad { pad: k.r as u8 },
        7 => FieldKind::Decimal {
            precision: k.s as u8,
            scale: k.r as u8,
            repr: match k.p {
                0 => NumRepr::Display,
                1 => NumRepr::Comp3,
                _ => NumRepr::Zoned,
            },
            sign: sign(k.q),
        },
        _ => FieldKind::Edited { precision: 18, scale: k.r as u8, signed: k.p != 0, mask: String::from_utf8(k.mask.clone()).unwrap() },
    };
    Field { name: "F".into(), offset: 0, width, kind, occurs: None, depending_on: None, redefines: None }
}

pub fn page(n: u32) -> Encoding {
    if n == 0 {
        Encoding::Ascii
    } else {
        Encoding::Ebcdic
    }
}

const LIMIT: i128 = 1_000_000_000_000_000_000;

/// The port's reading of a part as the Rust's value, or the number that refuses it.
fn port_reads(k: &Kind, pg: u32, part: &[u8]) -> Result<(Value, [u64; 4]), u32> {
    let mut text = [0xAAu8; 256];
    let mut item = [0x55u64; 5];
    let n = unsafe { leaf_decode(k.kind, k.p, k.q, k.r, pg, part.as_ptr(), part.len(), text.as_mut_ptr(), text.len(), item.as_mut_ptr(), item.len()) };
    if n != 0 {
        return Err(n);
    }
    assert_eq!(item[4], 0x55);
    let words = [item[0], item[1], item[2], item[3]];
    let v = match item[1] {
        0 => Value::Null,
        1 => {
            let (a, b) = (item[2] as usize, (item[2] + item[3]) as usize);
            assert!(text[b..].iter().all(|&x| x == 0xAA));
            Value::Text(text[a..b].iter().map(|&c| c as char).collect())
        }
        2 => Value::Int(item[2] as i64),
        3 => Value::Decimal { unscaled: item[2] as i64 as i128, scale: item[3] as u8 },
        4 => Value::Float(f64::from_bits(item[2])),
        5 => Value::Bool(item[2] == 1),
        t => panic!("tag {t}"),
    };
    Ok((v, words))
}

pub fn same(a: &Value, b: &Value) -> bool {
    match (a, b) {
        (Value::Float(x), Value::Float(y)) => x.to_bits() == y.to_bits(),
        _ => a == b,
    }
}

/// What the port reads in a part, and how that stands to what the Rust reads there.
pub fn reads(k: &Kind, pg: u32, part: &[u8]) -> (Result<Value, u32>, Seen) {
    if embedded::is(k) {
        let ours = port_reads(k, pg, part).map(|x| x.0);
        let model = embedded::read(pg, part).map(Value::Int);
        let seen = if ours == model { Seen::Listed(embedded::RULE) } else { Seen::Other(format!("port {ours:?}, model {model:?}")) };
        return (ours, seen);
    }
    let layout = Layout::from_fields(vec![field(k, part.len())]).unwrap();
    let ours = port_reads(k, pg, part);
    let theirs = decode::decode_record(&layout, part, page(pg)).map(|mut f| f.pop().map_or(Value::Null, |x| x.1));
    let ascii: Vec<u8> = part.iter().map(|&b| if pg == 0 { b } else { ebcdic::to_ascii(b) }).collect();
    let high = ascii.iter().any(|&b| b >= 0x80);
    let seen = match (&ours, &theirs) {
        (Ok((Value::Text(a), _)), _) if pad_before_zero(k, &ascii) && *a == text_of(k, &ascii) => Seen::Listed("the pad before the first 0 byte of a left-justified Text is cut too (S-5)"),
        (a, b) if pad_before_zero(k, &ascii) => Seen::Other(format!("port {:?}, definition {:?}, Rust {b:?}", a.as_ref().map(|x| &x.0), text_of(k, &ascii))),
        (Ok((a, _)), Ok(b)) if same(a, b) => Seen::Same,
        (Err(8), Err(_)) | (Err(9), Err(_)) => Seen::Same,
        (Ok((Value::Float(a), _)), Ok(Value::Float(b))) if a.is_nan() && b.is_nan() && k.q != 64 && a.to_bits() == 0x7FF8_0000_0000_0000 => Seen::Listed("NaN of 16 or 32 bits reads as 0x7FF8000000000000"),
        (Ok((Value::Text(a), _)), Ok(Value::Text(_))) if k.kind == 0 && high && *a == text_of(k, &ascii) => Seen::Listed("bytes from 0x80 are kept in Text"),
        (Err(8), Ok(_)) if matches!(k.kind, 1 | 7 | 8) && k.p_is_text() && high => Seen::Listed("bytes from 0x80 refused in Int, Display, Edited (8)"),
        (Err(9), Ok(Value::Decimal { unscaled, .. })) if unscaled.abs() >= LIMIT => Seen::Listed("Decimal sizes from 10^18 (9)"),
        (Err(9), Ok(Value::Int(n))) if k.kind == 2 && k.q == 0 && *n < 0 => Seen::Listed("unsigned Binary from 2^63 (9)"),
        (Err(8), Ok(Value::Int(_))) if k.kind == 1 && k.q >= 2 && two_signs(&ascii) => Seen::Listed("a sign besides a separate one in Int (8)"),
        (Err(9), Ok(Value::Int(_))) if k.kind == 1 && k.q >= 2 && two_signs(&ascii) => Seen::Listed("a sign besides a separate one in Int (8)"),
        (a, b) => Seen::Other(format!("port {:?}, Rust {:?}", a.as_ref().map(|x| &x.0), b)),
    };
    (ours.map(|x| x.0), seen)
}

/// Reads one part both ways.
pub fn read(t: &mut Tally, k: &Kind, pg: u32, part: &[u8]) {
    let (ours, seen) = reads(k, pg, part);
    let ascii: Vec<u8> = part.iter().map(|&b| if pg == 0 { b } else { ebcdic::to_ascii(b) }).collect();
    let high = ascii.iter().any(|&b| b >= 0x80);
    let group = match k.kind {
        7 if k.p == 1 => {
            leaf_same(t, "packed::decode", packed::decode(part), &ours, part);
            "read packed"
        }
        7 if k.p == 2 => {
            leaf_same(t, "zoned::decode", zoned::decode(&ascii), &ours, part);
            "read zoned"
        }
        8 => {
            if !high {
                leaf_same(t, "edited::decode", edited::decode(&ascii, k.r as u8, k.p != 0), &ours, part);
            }
            "read Edited"
        }
        7 => "read Display",
        1 if embedded::is(k) => "read Int, signed Embedded",
        n => ["read Text", "read Int", "read Binary", "read Float", "read Hex", "read Bool", "read Pad"][n as usize],
    };
    t.note(group, ours.as_ref().err().copied().unwrap_or(0), seen, part.len(), || format!("reading {} {k:?} page {pg} bytes {part:02x?}", NAMES[k.kind as usize]));
}

/// A Text field's text by the definition, bytes kept as they are: right-justified the pad goes first and then all from the first 0 byte on, left-justified the other way round.
fn text_of(k: &Kind, ascii: &[u8]) -> String {
    let s: String = ascii.iter().map(|&b| b as char).collect();
    let pad = k.r as u8 as char;
    let before_zero = |t: &str| t.split('\0').next().unwrap_or("").to_string();
    match (k.q != 0, k.p != 0) {
        (false, _) => s,
        (true, true) => before_zero(s.trim_start_matches(pad)),
        (true, false) => before_zero(&s).trim_end_matches(pad).to_string(),
    }
}

/// The Text fields whose answer 02's S-5 changed: trimmed, left-justified, the pad not 0, and the byte before the first 0 byte is the pad.
fn pad_before_zero(k: &Kind, ascii: &[u8]) -> bool {
    let zero = ascii.iter().position(|&b| b == 0);
    k.kind == 0 && k.q != 0 && k.p == 0 && k.r != 0 && zero.map_or(false, |z| z > 0 && ascii[z - 1] == k.r as u8)
}

impl Kind {
    fn p_is_text(&self) -> bool {
        self.kind != 7 || self.p == 0
    }
}

fn two_signs(ascii: &[u8]) -> bool {
    ascii.iter().filter(|&&b| b == b'+' || b == b'-').count() >= 2
}

fn leaf_same(t: &mut Tally, group: &'static str, theirs: rust::Result<i128>, ours: &Result<Value, u32>, part: &[u8]) {
    let seen = match (ours, &theirs) {
        (Ok(Value::Decimal { unscaled, .. }), Ok(n)) if unscaled == n => Seen::Same,
        (Err(8), Err(_)) | (Err(9), Err(_)) => Seen::Same,
        (Err(9), Ok(n)) if n.abs() >= LIMIT => Seen::Listed("Decimal sizes from 10^18 (9)"),
        (a, b) => Seen::Other(format!("port {a:?}, Rust {b:?}")),
    };
    t.note(group, ours.as_ref().err().copied().unwrap_or(0), seen, part.len(), || format!("bytes {part:02x?}"));
}

/// The Rust's value of an item; None for a text that a Rust String cannot hold.
pub fn value(v: &Item) -> Option<Value> {
    Some(match v.tag {
        0 => Value::Null,
        1 => Value::Text(String::from_utf8(v.text.clone()).ok()?),
        2 => Value::Int(v.a as i64),
        3 => Value::Decimal { unscaled: v.a as i64 as i128, scale: v.b as u8 },
        4 => Value::Float(f64::from_bits(v.a)),
        5 => Value::Bool(v.a == 1),
        6 => Value::List(vec![]),
        _ => Value::Struct(vec![]),
    })
}

/// The whole number nearest to n / d, an exact half to the even one, and whether it was one.
fn nearest(n: i128, d: i128) -> (i128, bool) {
    let low = n.div_euclid(d);
    let (above, below) = (n - low * d, (low + 1) * d - n);
    let up = above > below || above == below && low % 2 != 0;
    (low + i128::from(up), above == below)
}

/// A finite f64 as a fraction, through its bits. From 2^100 on the denominator stays, since nothing of the number is left there.
fn fraction(f: f64) -> (i128, i128) {
    let (x, t) = ((f.to_bits() >> 52) as i32 & 2047, (f.to_bits() & ((1 << 52) - 1)) as i128);
    let m = if x == 0 { t } else { t + (1 << 52) };
    let e = x.max(1) - 1075;
    let n = if f.is_sign_negative() { -m } else { m };
    if e >= 0 { (n << e.min(70), 1) } else { (n, 1 << (-e).min(100)) }
}

/// Where digits are dropped on the way into a Decimal or Edited field, the Rust is no reference (S-6): the number that the field is to hold, over exact fractions, and the rule to count it by.
fn dropped(k: &Kind, v: &Value) -> Option<(i128, &'static str)> {
    let (n, d, rules) = match v {
        Value::Decimal { unscaled, scale } if k.kind >= 7 && *scale as u32 > k.r => {
            (*unscaled, 10i128.pow(*scale as u32 - k.r), ["a Decimal loses digits: to the nearest (S-6)", "a Decimal loses digits: an exact half (S-6)"])
        }
        Value::Float(f) if k.kind >= 7 && (f * 10u64.pow(k.r) as f64).is_finite() => {
            let (n, d) = fraction(f * 10u64.pow(k.r) as f64);
            (n, d, ["a Float's product: to the nearest (S-6)", "a Float's product: an exact half (S-6)"])
        }
        _ => return None,
    };
    let (q, half) = nearest(n, d);
    (n % d != 0).then_some((q, rules[half as usize]))
}

/// What the port writes for a value: the number that refuses it, the bytes, and how that stands to what the Rust writes.
pub fn writes(k: &Kind, pg: u32, width: usize, v: &Item) -> Option<(u32, Vec<u8>, Seen)> {
    let mut theirs_value = value(v)?;
    let dropped = dropped(k, &theirs_value);
    if let Some((unscaled, _)) = dropped {
        theirs_value = Value::Decimal { unscaled, scale: k.r as u8 };
    }
    let taken = if k.kind == 5 { 1 } else { width };
    let mut buf = vec![0xAAu8; taken + 8];
    let n = unsafe { leaf_encode(buf[4..].as_mut_ptr(), taken, k.kind, k.p, k.q, k.r, k.s, k.mask.as_ptr(), k.mask.len(), pg, v.tag, v.a, v.b, v.text.as_ptr(), v.text.len()) };
    let judged = unsafe { leaf_judge(k.kind, k.p, k.q, k.r, k.s, k.mask.as_ptr(), k.mask.len(), width, v.tag, v.a, v.b, v.text.as_ptr(), v.text.len()) };
    let untouched = buf[..4].iter().chain(&buf[4 + taken..]).all(|&b| b == 0xAA) && (n == 0 || buf.iter().all(|&b| b == 0xAA));
    if embedded::is(k) {
        let model = embedded::write(pg, width, v);
        let same = untouched && judged == n && model.as_ref().map_or_else(|&m| m == n, |b| n == 0 && b[..] == buf[4..4 + taken]);
        let seen = if same { Seen::Listed(embedded::RULE) } else { Seen::Other(format!("port {n} {:02x?}, judged {judged}, model {model:02x?}", &buf)) };
        return Some((n, buf[4..4 + taken].to_vec(), seen));
    }
    let rust_writes = |k: &Kind, width: usize| {
        let mut layout = Layout::from_fields(vec![field(k, width)]).unwrap();
        layout.record_len = 0;
        encode::encode_record(&layout, &[("F".into(), theirs_value.clone())], page(pg))
    };
    // the float is the Rust's own, at 64 bits
    if halves::is(k) && n == 0 {
        let wide = rust_writes(&Kind { p: 0, q: 64, ..k.clone() }, 8).ok().and_then(|b| b.try_into().ok()).map(u64::from_be_bytes);
        let model = wide.map(halves::nearest);
        let ours = [buf[4], buf[5]];
        let ours = if k.p == 0 { u16::from_be_bytes(ours) } else { u16::from_le_bytes(ours) };
        let seen = match model {
            Some((h, rule)) if untouched && judged == 0 && h == ours => Seen::Listed(rule),
            _ => Seen::Other(format!("port {ours:04x}, judged {judged}, model {model:x?} of {wide:x?}")),
        };
        return Some((n, buf[4..4 + taken].to_vec(), seen));
    }
    let theirs = rust_writes(k, width);
    let high = v.tag == 1 && v.text.iter().any(|&b| b >= 0x80);
    let size_at = |scale: i128, unscaled: i128, from: i128| if from < scale { unscaled.checked_mul(10i128.pow((scale - from) as u32)) } else { Some(unscaled / 10i128.pow((from - scale) as u32)) };
    let big = match theirs_value {
        Value::Int(i) => size_at(k.r as i128, i as i128, 0).map_or(true, |x| x.abs() >= LIMIT),
        Value::Decimal { unscaled, scale } => size_at(k.r as i128, unscaled, scale as i128).map_or(true, |x| x.abs() >= LIMIT),
        Value::Float(f) => (f * 10f64.powi(k.r as i32)).abs() >= 1e18,
        _ => false,
    };
    let nan = matches!(theirs_value, Value::Float(f) if f.is_nan());
    let seen = if !untouched {
        Seen::Other("a byte outside the part, or of a refused part, changed".into())
    } else if judged != n {
        Seen::Other(format!("judged {judged}, written {n}"))
    } else {
        match (&theirs, n) {
            (Ok(b), 0) if b[..] == buf[4..4 + taken] => Seen::Same,
            (Err(_), 13..=15) => Seen::Same,
            (Ok(_), 0) if nan && k.kind == 3 && k.q == 32 && pattern(&buf[4..8], k.p) == 0x7FC0_0000 => Seen::Listed("NaN writes 0x7FC00000 to 32 bits"),
            (Ok(_), 13) if high && matches!(k.kind, 1 | 2 | 4) => Seen::Listed("bytes from 0x80 in text meant as a number or hex (13)"),
            (Ok(_), 14) if big && k.kind >= 7 => Seen::Listed("Decimal sizes from 10^18 in writing (14)"),
            (Ok(_), 13) if nan && k.kind >= 7 => Seen::Listed("NaN into Decimal (13)"),
            (Ok(_), 13) if v.tag == 4 && k.kind == 0 => Seen::Listed("Float into Text (13)"),
            (Ok(_), 13) if matches!(k.kind, 1 | 2) && v.tag == 1 && outside64(&v.text) => Seen::Listed("integer text outside 64 bits (13)"),
            (Ok(_), 15) if k.kind == 8 && half_marker(&k.mask) => Seen::Listed("C without R, D without B in a mask (15)"),
            (a, n) => Seen::Other(format!("port {n} {:02x?}, Rust {a:02x?}", &buf[4..4 + taken])),
        }
    };
    let seen = match (seen, dropped) {
        (Seen::Same, Some((_, rule))) => Seen::Listed(rule),
        (seen, _) => seen,
    };
    Some((n, buf[4..4 + taken].to_vec(), seen))
}

/// Writes one value both ways, into a part that holds 0xAA before.
pub fn write(t: &mut Tally, k: &Kind, pg: u32, width: usize, v: &Item) {
    let Some((n, part, seen)) = writes(k, pg, width, v) else { return };
    let group = match k.kind {
        7 if k.p == 1 => "write packed",
        7 if k.p == 2 => "write zoned",
        7 => "write Display",
        8 => "write Edited",
        1 if embedded::is(k) => "write Int, signed Embedded",
        n => ["write Text", "write Int", "write Binary", "write Float", "write Hex", "write Bool", "write Pad"][n as usize],
    };
    if v.tag == 3 && v.b == k.r as u64 && k.kind >= 7 {
        let size = v.a as i64 as i128;
        let leaf = match (k.kind, k.p) {
            (7, 1) => Some(("packed::encode", packed::encode(size, width, k.q != 0))),
            (7, 2) => Some(("zoned::encode", zoned::encode(size, width, k.q != 0).map(|b| if pg == 0 { b } else { ebcdic::encode_slice(&b) }))),
            (8, _) => Some(("edited::encode", edited::encode(size, k.r as u8, std::str::from_utf8(&k.mask).unwrap()).map(|b| if pg == 0 { b } else { ebcdic::encode_slice(&b) }))),
            _ => None,
        };
        if let Some((name, leaf)) = leaf {
            let seen = match (&leaf, n) {
                (Ok(b), 0) if b[..] == part[..] => Seen::Same,
                (Err(_), 14) | (Err(_), 15) => Seen::Same,
                (Ok(_), 15) if half_marker(&k.mask) => Seen::Listed("C without R, D without B in a mask (15)"),
                _ => Seen::Other(format!("port {n} {:02x?}, Rust {leaf:02x?}", part)),
            };
            t.note(name, n, seen, width + v.text.len(), || format!("writing {size} {k:?} page {pg} width {width}"));
        }
    }
    t.note(group, n, seen, width + v.text.len(), || format!("writing {v:x?} as {} {k:?} page {pg} width {width}", NAMES[k.kind as usize]));
}

fn pattern(b: &[u8], order: u32) -> u32 {
    let a = [b[0], b[1], b[2], b[3]];
    if order == 0 {
        u32::from_be_bytes(a)
    } else {
        u32::from_le_bytes(a)
    }
}

fn outside64(text: &[u8]) -> bool {
    std::str::from_utf8(text).ok().and_then(|s| s.trim().parse::<i128>().ok()).map_or(false, |n| n < i64::MIN as i128 || n > i64::MAX as i128)
}

/// A C that no R follows, or a D that no B follows, as the mask is read from the left.
fn half_marker(mask: &[u8]) -> bool {
    let mut i = 0;
    while i < mask.len() {
        match (mask[i], mask.get(i + 1)) {
            (b'C', Some(b'R')) | (b'D', Some(b'B')) => i += 1,
            (b'C', _) | (b'D', _) => return true,
            _ => {}
        }
        i += 1;
    }
    false
}
