//! Records converted from one layout to another, against a model that is written from the request alone: the models of reader and writer that `records` holds to the Rust, and
//! a comparison over canonical decimals of 128 bits. The Rust has no such call.
//!
//! Both layouts come from one list of fields, so that most pairs have the same names; the new fields have other kinds, forms, signs, widths and scales, and some cannot hold what
//! the old ones do. Every buffer is dirty at entry and stands between guards; every cell of it is compared. Records whose texts have bytes from 0x80 on are left out, since the model
//! of the writer takes a Rust String.

use crate::cases::Random;
use crate::check::{Item, Kind, Seen, Tally};
use crate::records::{list, raw, whole, written, Entry, Node, Read};
use crate::windows::Lent;
use rust::Value;
use std::collections::HashMap;

extern "C" {
    fn ff_convert_record(
        old_layout: *const u32, old_layout_len: usize, old_masks: *const u8, old_masks_len: usize, old_page: u32, old_record: *const u8, old_record_len: usize,
        new_layout: *const u32, new_layout_len: usize, new_masks: *const u8, new_masks_len: usize, new_page: u32, new_record: *mut u8, new_record_len: usize,
        items: *mut u64, items_len: usize, text: *mut u8, text_len: usize, back_items: *mut u64, back_items_len: usize, back_text: *mut u8, back_text_len: usize,
        counts: *mut i64, counts_len: usize, record_length: *mut u64,
    ) -> u32;
}

/// A layout, with the question on it that fails or 0.
#[derive(Clone, Debug)]
struct Side {
    entries: Vec<Entry>,
    words: Vec<u32>,
    masks: Vec<u8>,
    page: u32,
    fails: u32,
}

impl Side {
    fn under(entries: Vec<Entry>, page: u32) -> Side {
        let (mut words, mut masks) = (vec![], vec![]);
        for e in &entries {
            e.words(&mut words, &mut masks);
        }
        Side { entries, words, masks, page, fails: 0 }
    }
    fn spoil(&mut self, question: u32) {
        match question {
            1 => self.page = 2,
            2 => self.words[3] = 10,
            _ => self.words[6] = 600,
        }
        self.fails = if self.fails == 0 { question } else { self.fails.min(question) };
    }
    /// The questions on the layout itself.
    fn asked(&self, counts: usize) -> Read<()> {
        if self.fails != 0 {
            return Err(self.fails);
        }
        if counts < self.words.len() / 6 { Err(16) } else { Ok(()) }
    }
}

#[derive(Clone, Debug)]
struct Call {
    old: Side,
    record: Vec<u8>,
    new: Side,
    room: usize,
    items: usize,
    text: usize,
    back_items: usize,
    back_text: usize,
    counts: usize,
}

// ---- the model

/// A number without the zeros at its end.
fn canonical(mut n: i128, mut scale: u8) -> (i128, u8) {
    while scale > 0 && n % 10 == 0 {
        n /= 10;
        scale -= 1;
    }
    (n, scale)
}

fn number(v: &Value) -> Option<(i128, u8)> {
    match v {
        Value::Int(n) => Some((*n as i128, 0)),
        Value::Decimal { unscaled, scale } => Some(canonical(*unscaled, *scale)),
        _ => None,
    }
}

/// Why a value read back is another one, or None.
fn differs(old: &Value, new: &Value) -> Option<&'static str> {
    if let (Some(a), Some(b)) = (number(old), number(new)) {
        return match (a, b) {
            _ if a == b => None,
            _ if a.0 == -b.0 && a.1 == b.1 => Some("a minus"),
            _ => Some("a digit"),
        };
    }
    match (old, new) {
        (Value::Text(a), Value::Text(b)) => (a.as_bytes() != b.as_bytes()).then_some("a text"),
        (Value::Bool(a), Value::Bool(b)) => (a != b).then_some("a Bool"),
        (Value::Float(a), Value::Float(b)) if a.is_nan() || b.is_nan() => Some("a NaN"),
        (Value::Float(a), Value::Float(b)) => (a.to_bits() != b.to_bits()).then_some("a float's bits"),
        (Value::List(a), Value::List(b)) if a.len() > b.len() => Some("a surplus element"),
        (Value::List(a), Value::List(b)) if a.len() < b.len() => Some("a missing element"),
        (Value::List(a), Value::List(b)) => a.iter().zip(b).find_map(|(x, y)| differs(x, y)),
        (Value::Struct(a), Value::Struct(b)) if a.len() != b.len() => Some("how many members"),
        (Value::Struct(a), Value::Struct(b)) => a.iter().zip(b).find_map(|(x, y)| if x.0 != y.0 { Some("a member's name") } else { differs(&x.1, &y.1) }),
        _ => Some("what kind of value"),
    }
}

/// Whether the model of the writer can take a value: a Rust String holds no byte from 0x80 on.
fn taken(v: &Value) -> bool {
    match v {
        Value::Text(s) => s.is_ascii(),
        Value::List(ms) => ms.iter().all(taken),
        Value::Struct(ms) => ms.iter().all(|m| taken(&m.1)),
        _ => true,
    }
}

/// A value that was read, as one to be written.
fn node(v: &Value) -> Node {
    let one = |tag, a, b| Node::One(Item { tag, a, b, text: vec![] });
    match v {
        Value::Text(s) => Node::One(Item { tag: 1, a: 0, b: s.len() as u64, text: s.clone().into_bytes() }),
        Value::Int(n) => one(2, *n as u64, 0),
        Value::Decimal { unscaled, scale } => one(3, *unscaled as i64 as u64, *scale as u64),
        Value::Float(x) => one(4, x.to_bits(), 0),
        Value::Bool(b) => one(5, *b as u64, 0),
        Value::List(ms) => Node::List(ms.iter().map(node).collect()),
        Value::Struct(ms) => Node::Struct(ms.iter().map(|(n, m)| (n[2..].parse().unwrap(), node(m))).collect()),
        other => panic!("the reader makes no {other:?}"),
    }
}

/// The new record, or the number that refuses the call and why.
fn model(c: &Call) -> Result<Vec<u8>, (u32, &'static str)> {
    let own = |n: u32| (n, "a question of reader or writer");
    c.old.asked(c.counts).map_err(own)?;
    let old = whole(&c.old.entries, &c.record, c.old.page, c.items, c.text).0.map_err(own)?;
    c.new.asked(c.counts).map_err(own)?;
    let values: Vec<(u32, Node)> = old.iter().map(|(n, v)| (*n, node(v))).collect();
    let bytes = written(&c.new.entries, &values, c.new.page, c.room.min(65536) as u64).0.map_err(own)?;
    let back = match whole(&c.new.entries, &bytes, c.new.page, c.back_items, c.back_text).0 {
        Err(16) => return Err((16, "place to read back")),
        Err(_) => return Err((20, "reading back refuses")),
        Ok(back) => back,
    };
    for (name, new) in &back {
        let first = &old.iter().find(|o| o.0 == *name).unwrap().1;
        if let Some(why) = differs(first, new) {
            return Err((20, why));
        }
    }
    Ok(bytes)
}

// ---- the call

/// Converts both ways; the number and, for a refusal, why.
fn convert(t: &mut Tally, c: &Call) -> (u32, &'static str) {
    let (mut record, mut counts) = (Lent::new(c.room, 0x55u8, 7), Lent::new(c.counts, -3i64, 9));
    let (mut items, mut text) = (Lent::new(c.items, 0x5555u64, 7), Lent::new(c.text, 0x55u8, 7));
    let (mut back_items, mut back_text) = (Lent::new(c.back_items, 0x5555u64, 7), Lent::new(c.back_text, 0x55u8, 7));
    let mut length = 77u64;
    let n = unsafe {
        ff_convert_record(
            c.old.words.as_ptr(), c.old.words.len(), c.old.masks.as_ptr(), c.old.masks.len(), c.old.page, c.record.as_ptr(), c.record.len(),
            c.new.words.as_ptr(), c.new.words.len(), c.new.masks.as_ptr(), c.new.masks.len(), c.new.page, record.at(), c.room,
            items.at(), c.items, text.at(), c.text, back_items.at(), c.back_items, back_text.at(), c.back_text, counts.at(), c.counts, &mut length,
        )
    };
    let (number, why, bytes) = match model(c) {
        Ok(bytes) => (0, "", bytes),
        Err((n, why)) => (n, why, vec![]),
    };
    let mut left = bytes.clone();
    left.resize(c.room.max(bytes.len()), 0);
    let zeros = items.inner().iter().chain(back_items.inner()).all(|&x| x == 0) && text.inner().iter().chain(back_text.inner()).all(|&x| x == 0) && counts.inner().iter().all(|&x| x == 0);
    let guards = items.guarded() && text.guarded() && back_items.guarded() && back_text.guarded() && counts.guarded() && record.guarded();
    let seen = if n != number {
        Seen::Other(format!("port {n}, model {number} ({why})"))
    } else if length != bytes.len() as u64 || record.inner() != &left[..] {
        Seen::Other(format!("port's record {length} {:02x?}, model's {bytes:02x?}", record.inner()))
    } else if !zeros || !guards {
        Seen::Other("work space is not zero, or a guard fell".into())
    } else {
        Seen::Same
    };
    t.note("convert", n, seen, c.old.words.len() + c.new.words.len() + c.record.len(), || format!("{c:?}"));
    (n, why)
}

// ---- the cases

fn kind(kind: u32, p: u32, q: u32, r: u32) -> Kind {
    Kind { kind, p, q, r, s: 0, mask: vec![] }
}

/// A field of the old layout.
fn old_field(g: &mut Random) -> (Kind, u32) {
    match g.below(13) {
        0..=3 => (kind(7, 1, 1, g.below(5) as u32), 2 + g.below(4) as u32),
        4 if g.below(6) == 0 => (kind(7, 1, 1, 0), 11),
        4 => (kind(7, g.pick(&[0, 2]), 1 + g.below(3) as u32, g.below(4) as u32), 3 + g.below(5) as u32),
        5 => (kind(1, 1, 2 + g.below(2) as u32, 0), 2 + g.below(4) as u32),
        6 => (kind(2, g.below(2) as u32, g.below(2) as u32, 0), 1 + g.below(4) as u32),
        7 => (kind(3, g.below(2) as u32, 64, 0), 8),
        8 => (kind(3, g.below(2) as u32, 32, 0), 4),
        9 => (kind(5, 0, 0, 0), 1),
        10 => (kind(4, 0, 0, 0), 1 + g.below(3) as u32),
        _ => (kind(0, g.below(2) as u32, 1, 0x20), g.pick(&[0, 1, 2, 3, 4, 5, 6])),
    }
}

fn printed(scale: u32, mask: &[u8]) -> (Kind, u32) {
    (Kind { kind: 8, p: 1, q: 0, r: scale, s: 0, mask: mask.to_vec() }, mask.len() as u32)
}

/// A field for the same values; one in `bad` is one that may lose some of them.
fn new_field(g: &mut Random, k: &Kind, width: u32, bad: u64) -> (Kind, u32) {
    let lossy = g.below(bad) == 0;
    match (k.kind, lossy) {
        (1 | 2, false) | (7, false) => {
            let scale = if k.kind == 7 { k.r } else { 0 };
            match g.below(7) {
                6 if scale == 2 => printed(2, b"ZZZ,ZZZ,ZZ9.99-"),
                0 if scale == 0 => (kind(2, g.below(2) as u32, 1, 0), 8),
                1 if scale == 0 => (kind(1, 1, 1 + g.below(3) as u32, 0), 16),
                2 => (kind(7, 1, 1, scale + g.below(3) as u32), 9),
                3 => (kind(7, 2, 1 + g.below(3) as u32, scale + g.below(3) as u32), 17),
                _ => (kind(7, 0, 2 + g.below(2) as u32, scale + g.below(3) as u32), 18),
            }
        }
        (1 | 2, true) => (kind(g.pick(&[1, 2, 7, 0]), 0, 0, 0), 1 + g.below(6) as u32),
        (7, true) => match g.below(4) {
            0 => (kind(7, g.below(3) as u32, 0, k.r), 9),
            1 if k.r > 0 => (kind(7, g.below(3) as u32, g.below(4) as u32, k.r - 1), 9),
            2 => (kind(7, 0, 1, k.r), 12),
            3 if g.below(2) == 0 => printed(k.r, g.pick(&[&b"ZZZ9.99"[..], b"$$$9.99-", b"99-"])),
            _ => (kind(g.pick(&[7, 7, 3, 0]), 0, 64, 0), 8),
        },
        (3, false) => (kind(3, g.below(2) as u32, 64, 0), 8),
        (3, true) => (kind(3, 0, g.pick(&[16, 32]), 0), 0),
        (0, false) => (kind(0, g.below(2) as u32, 1, 0x20), width + g.below(4) as u32),
        (0, true) => (kind(g.pick(&[0, 0, 1, 4]), g.below(2) as u32, g.below(2) as u32, if g.below(2) == 0 { 0x20 } else { 0x30 }), g.below(width as u64 + 2) as u32),
        (4, false) => (kind(4, 0, 0, 0), width),
        (4, true) => (kind(g.pick(&[4, 0, 1]), g.below(2) as u32, 0, 0), 2 * width + g.below(2) as u32),
        (_, _) => (k.clone(), width),
    }
}

fn mended((k, w): (Kind, u32)) -> (Kind, u32) {
    // words that question 2 takes: a Float's width is its bits', a Text's flags and pad are its own
    match k.kind {
        3 => (kind(3, k.p.min(1), k.q, 0), k.q / 8),
        0 => (kind(0, k.p.min(1), k.q.min(1), if k.r == 0 { 0x20 } else { k.r }), w),
        1 => (kind(1, k.p.min(1), if k.p == 0 { 0 } else { k.q.min(3) }, 0), w),
        2 => (kind(2, k.p.min(1), k.q.min(1), 0), w),
        4 => (kind(4, k.p.min(1), 0, 0), w),
        7 => (kind(7, k.p, k.q.min(3), k.r), w),
        _ => (k, w),
    }
}

/// Two sequences of the same names, laid one behind the other.
fn pair(g: &mut Random, level: u32, names: &mut u32, counters: &mut Vec<u32>, bad: u64) -> (Vec<Entry>, Vec<Entry>) {
    let (mut old, mut new) = (vec![], vec![]);
    let at = |all: &Vec<Entry>| all.last().map_or(0, |e: &Entry| e.offset + e.reserved() as u32);
    for _ in 0..1 + g.below(if level == 1 { 6 } else { 3 }) {
        let name = if g.below(25) == 0 { g.below(*names as u64 + 1) as u32 } else { *names };
        *names += 1;
        let (occurs, depending) = match g.below(8) {
            0 => (Some(1 + g.below(3) as u32), None),
            1 | 2 if !counters.is_empty() => (if g.below(2) == 0 { None } else { Some(9) }, Some(g.pick(counters))),
            _ => (None, None),
        };
        let again = match occurs {
            Some(n) if depending.is_none() && g.below(bad) == 0 => Some(if g.below(2) == 0 { n + 1 } else { n - 1 }),
            _ => occurs,
        };
        if level < 4 && g.below(6) == 0 {
            let (a, b) = pair(g, level + 1, names, counters, bad);
            let b = if g.below(bad) == 0 { regrouped(g, b) } else { b };
            let group = |members: Vec<Entry>, offset, occurs| {
                let width = members.iter().map(|m: &Entry| m.offset + m.reserved() as u32).max().unwrap_or(0);
                Entry { name, offset, width, kind: kind(9, 0, 0, 0), occurs, depending, members }
            };
            let (x, y) = (group(a, at(&old), occurs), group(b, at(&new), again));
            old.push(x);
            new.push(y);
            continue;
        }
        let counter = occurs.is_none() && depending.is_none() && g.below(4) == 0;
        let (k, w) = if counter { (kind(g.pick(&[1, 7, 7]), 1, 1, 0), 1) } else { old_field(g) };
        let (l, v) = mended(new_field(g, &k, w, bad));
        let x = Entry { name, offset: at(&old), width: w, kind: k, occurs, depending, members: vec![] };
        let y = Entry { name, offset: at(&new), width: v, kind: l, occurs: again, depending, members: vec![] };
        if counter {
            counters.push(name);
        }
        old.push(x);
        new.push(y);
        if g.below(8) == 0 {
            let pad = Entry { name: g.below(*names as u64 + 3) as u32, offset: at(&new), width: g.below(4) as u32, kind: kind(6, 0, 0, 0x2A), occurs: None, depending: None, members: vec![] };
            new.push(pad);
        }
    }
    (old, new)
}

fn one_of(g: &mut Random, all: &[Entry]) -> usize {
    g.below(all.len() as u64) as usize
}

/// A sequence whose entries are laid one behind the other.
fn laid(mut all: Vec<Entry>) -> Vec<Entry> {
    let mut at = 0;
    for e in &mut all {
        e.offset = at;
        at += e.reserved() as u32;
    }
    all
}

/// A new group's members without one of them, or with two of them swapped.
fn regrouped(g: &mut Random, mut members: Vec<Entry>) -> Vec<Entry> {
    let (i, j) = (one_of(g, &members), one_of(g, &members));
    if g.below(2) == 0 { drop(members.remove(i)) } else { members.swap(i, j) }
    laid(members)
}

/// The new layout without some entries, in another order, with one of them twice or a name that the old one lacks.
fn rearranged(g: &mut Random, mut new: Vec<Entry>, names: u32) -> Vec<Entry> {
    match g.below(12) {
        0 if new.len() > 1 => drop(new.remove(one_of(g, &new))),
        1 => {
            let e = new[one_of(g, &new)].clone();
            new.push(e);
        }
        2 => {
            let i = one_of(g, &new);
            new[i].name = names + g.below(2) as u32;
        }
        3 => new.reverse(),
        _ => return new,
    }
    laid(new)
}

fn any_call(g: &mut Random) -> Call {
    let (mut names, mut counters, bad) = (0, vec![], g.pick(&[6, 12, 40, 1000]));
    let (old, new) = pair(g, 1, &mut names, &mut counters, bad);
    let new = rearranged(g, new, names);
    let (mut old, mut new) = (Side::under(old, g.below(2) as u32), Side::under(new, g.below(2) as u32));
    let mut record = vec![];
    for _ in 0..4 {
        let values = list(g, &old.entries, &mut HashMap::new());
        if let Ok(bytes) = written(&old.entries, &values, old.page, 65536).0 {
            record = bytes;
            break;
        }
    }
    if record.is_empty() || g.below(30) == 0 {
        record.clear();
        raw(g, &old.entries, old.page, &mut record);
    }
    match g.below(30) {
        0 => record.truncate(g.below(record.len() as u64 + 1) as usize),
        1 if !record.is_empty() => {
            let i = g.below(record.len() as u64) as usize;
            record[i] = g.next() as u8;
        }
        2 => record.extend([0xFF; 3]),
        _ => {}
    }
    if g.below(60) == 0 {
        let question = 1 + g.below(3) as u32;
        if g.below(2) == 0 { old.spoil(question) } else { new.spoil(question) }
    }
    let counts = old.words.len().max(new.words.len()) / 6;
    let small = |g: &mut Random, n: u64, or: usize| if g.below(40) == 0 { g.below(n) as usize } else { or };
    Call {
        room: small(g, 60, 700), items: small(g, 40, 1600), text: small(g, 8, 400), back_items: small(g, 40, 1600), back_text: small(g, 8, 400),
        counts: if g.below(60) == 0 { g.below(counts as u64 + 2) as usize } else { counts + g.below(3) as usize },
        old, record, new,
    }
}

fn plain(name: u32, offset: u32, width: u32, k: Kind) -> Entry {
    Entry { name, offset, width, kind: k, occurs: None, depending: None, members: vec![] }
}

/// Two questions that both fail: the earlier one's number. Questions of the reader before the writer's, then each two neighbours from the writer's first question to 20, but for 11,
/// which no list that was read comes to, and for the order inside a field, which `records` holds to the Rust.
fn neighbours(t: &mut Tally) {
    let packed = || kind(7, 1, 1, 0);
    let lawful = || Call {
        old: Side::under(vec![plain(0, 0, 3, packed())], 1), record: vec![0x12, 0x34, 0x5D], new: Side::under(vec![plain(0, 0, 6, kind(7, 0, 2, 0))], 0),
        room: 9, items: 4, text: 0, back_items: 4, back_text: 0, counts: 2,
    };
    let with = |change: &dyn Fn(&mut Call)| {
        let mut c = lawful();
        change(&mut c);
        c
    };
    let unsigned = || Side::under(vec![plain(0, 0, 6, kind(7, 1, 0, 0))], 0);
    let two_of = |name| Side::under(vec![plain(name, 0, 6, packed()), plain(name, 6, 6, packed())], 0);
    let table: Vec<(u32, Call)> = vec![
        (0, lawful()),
        (4, with(&|c| { c.record.truncate(2); c.new.spoil(1) })),
        (8, with(&|c| { c.record[2] = 0x11; c.new.spoil(2) })),
        (16, with(&|c| { c.items = 3; c.new.spoil(3) })),
        (1, with(&|c| { c.new.spoil(1); c.new.spoil(2) })),
        (2, with(&|c| { c.new.spoil(2); c.new.spoil(3) })),
        (3, with(&|c| { c.new = two_of(0); c.new.spoil(3) })),
        (16, with(&|c| c.new = two_of(1))),
        (12, with(&|c| { c.new = Side::under(vec![plain(1, 0, 6, packed())], 0); c.room = 0 })),
        (16, with(&|c| { c.new = Side::under(vec![plain(0, 0, 2, packed())], 0); c.room = 1 })),
        (14, with(&|c| { c.new = Side::under(vec![plain(0, 0, 2, packed())], 0); c.back_items = 0 })),
        (16, with(&|c| { c.new = unsigned(); c.back_items = 3 })),
        (20, with(&|c| c.new = unsigned())),
    ];
    for (number, c) in table {
        assert_eq!(convert(t, &c).0, number, "{c:?}");
    }
}

pub fn random(t: &mut Tally, calls: u64, seed: u64) {
    let mut g = Random(seed.wrapping_mul(0x9E37_79B9_7F4A_7C15) | 1);
    neighbours(t);
    let mut whys: HashMap<&'static str, u64> = HashMap::new();
    while t.cases_of("convert") < calls {
        let c = any_call(&mut g);
        if whole(&c.old.entries, &c.record, c.old.page, c.items, c.text).0.is_ok_and(|list| !list.iter().all(|v| taken(&v.1))) {
            continue;
        }
        let (n, why) = convert(t, &c);
        if n == 20 || n == 16 && why == "place to read back" {
            *whys.entry(why).or_default() += 1;
        }
    }
    for number in [1, 2, 3, 4, 5, 6, 7, 8, 9, 10, 12, 13, 14, 15, 16, 20] {
        assert!(t.reached("convert", number), "no conversion was refused by {number}");
    }
    let mut whys: Vec<_> = whys.into_iter().collect();
    whys.sort();
    for (why, n) in &whys {
        println!("  convert, refused after the writer: {why}, {n} times");
    }
    let values = ["a minus", "a digit", "a text", "a NaN", "a float's bits", "a surplus element", "a missing element", "how many members", "a member's name", "what kind of value"];
    for why in values.into_iter().chain(["reading back refuses", "place to read back"]) {
        assert!(whys.iter().any(|w| w.0 == why && w.1 > 20), "too few conversions came to: {why}");
    }
}
