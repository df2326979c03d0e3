//! Whole records and lists, by the port and by the Rust, under random layouts.
//!
//! A model beside the two walks a layout as the Rust does, but takes each scalar field from the port's leaves, which `check` holds to the Rust one by one.
//! So every outcome is compared twice: the port with the model, number and all words and bytes; and the model with the Rust, accepted or not and all values,
//! unless a field on the way differs by a listed rule, or the layout has a Decimal for a controller, which is then counted.

use crate::cases::{any_item, any_kind, bytes, width, Random};
use crate::check::{field, page, reads, same, writes, Item, Kind, Seen, Tally};
use rust::{decode, encode, Field, FieldKind, Layout, Value};
use std::collections::HashMap;

extern "C" {
    pub fn ff_decode_record(
        layout: *const u32, layout_len: usize, masks: *const u8, masks_len: usize, page: u32, record: *const u8, record_len: usize, items: *mut u64, items_len: usize,
        text: *mut u8, text_len: usize, counts: *mut i64, counts_len: usize, words_used: *mut u64, text_used: *mut u64,
    ) -> u32;
    pub fn ff_encode_record(
        layout: *const u32, layout_len: usize, masks: *const u8, masks_len: usize, page: u32, items: *const u64, items_len: usize, text: *const u8, text_len: usize,
        record: *mut u8, record_len: usize, counts: *mut i64, counts_len: usize, length: *mut u64,
    ) -> u32;
}

const ABSENT: u32 = 4294967295;

/// An entry of a layout with its members; a group's kind is 9.
#[derive(Clone, Debug)]
pub struct Entry {
    pub name: u32,
    pub offset: u32,
    pub width: u32,
    pub kind: Kind,
    pub occurs: Option<u32>,
    pub depending: Option<u32>,
    pub members: Vec<Entry>,
}

impl Entry {
    pub fn reserved(&self) -> u64 {
        if self.depending.is_some() { 0 } else { self.width as u64 * self.occurs.unwrap_or(1) as u64 }
    }
    pub fn repeated(&self) -> bool {
        self.occurs.is_some() || self.depending.is_some()
    }
    /// Whether the entry's value is the length of the tables that name it: an unrepeated Int, Binary or Decimal of scale 0.
    pub fn controls(&self) -> bool {
        !self.repeated() && (matches!(self.kind.kind, 1 | 2) || self.counts_in_decimal())
    }
    fn counts_in_decimal(&self) -> bool {
        !self.repeated() && self.kind.kind == 7 && self.kind.r == 0
    }
    fn depends(&self) -> bool {
        self.depending.is_some() || self.members.iter().any(|m| m.depends())
    }
    pub fn words(&self, out: &mut Vec<u32>, masks: &mut Vec<u8>) {
        let at = out.len();
        let mask = if self.kind.kind == 8 { masks.len() as u32 } else { 0 };
        masks.extend(&self.kind.mask);
        let k = &self.kind;
        out.extend([self.name, self.offset, self.width, k.kind, self.occurs.unwrap_or(ABSENT), self.depending.unwrap_or(ABSENT), 0, k.p, k.q, k.r, k.s, mask]);
        for m in &self.members {
            m.words(out, masks);
        }
        out[at + 6] = ((out.len() - at) / 12) as u32;
    }
    /// The Rust's field; letter case differs from place to place, since it is ignored.
    pub fn field(&self) -> Field {
        let name = |n: u32, upper: bool| if upper { format!("N-{n}") } else { format!("n-{n}") };
        let mut f = if self.kind.kind == 9 { field(&Kind { kind: 6, ..self.kind.clone() }, self.width as usize) } else { field(&self.kind, self.width as usize) };
        if self.kind.kind == 9 {
            f.kind = FieldKind::Group(self.members.iter().map(|m| m.field()).collect());
        }
        f.name = name(self.name, self.offset % 2 == 0);
        f.offset = self.offset as usize;
        f.occurs = self.occurs.map(|n| n as usize);
        f.depending_on = self.depending.map(|n| name(n, self.width % 2 == 0));
        f
    }
}

/// A value of the list: a scalar, or a List or Struct of members under their names.
#[derive(Clone, Debug)]
pub enum Node {
    One(Item),
    List(Vec<Node>),
    Struct(Vec<(u32, Node)>),
}

static NULL: Node = Node::One(Item { tag: 0, a: 0, b: 0, text: Vec::new() });

fn item_words(name: u64, n: &Node, out: &mut Vec<u64>, text: &mut Vec<u8>) {
    match n {
        Node::One(v) if v.tag == 1 => {
            out.extend([name, 1, text.len() as u64, v.text.len() as u64]);
            text.extend(&v.text);
        }
        Node::One(v) => out.extend([name, v.tag, v.a, if v.tag == 6 || v.tag == 7 { 1 } else { v.b }]),
        Node::List(ms) => {
            let at = out.len();
            out.extend([name, 6, ms.len() as u64, 0]);
            for m in ms {
                item_words(65536, m, out, text);
            }
            out[at + 3] = ((out.len() - at) / 4) as u64;
        }
        Node::Struct(ms) => {
            let at = out.len();
            out.extend([name, 7, ms.len() as u64, 0]);
            for (n, m) in ms {
                item_words(*n as u64, m, out, text);
            }
            out[at + 3] = ((out.len() - at) / 4) as u64;
        }
    }
}

fn rust_value(n: &Node) -> Option<Value> {
    Some(match n {
        Node::One(v) => crate::check::value(v)?,
        Node::List(ms) => Value::List(ms.iter().map(rust_value).collect::<Option<_>>()?),
        Node::Struct(ms) => Value::Struct(ms.iter().map(|(n, m)| Some((format!("n-{n}"), rust_value(m)?))).collect::<Option<_>>()?),
    })
}

/// The Rust's list; None for a text that a Rust String cannot hold.
pub fn rust_list(list: &[(u32, Node)]) -> Option<Vec<(String, Value)>> {
    list.iter().map(|(n, v)| Some((format!("N-{n}"), rust_value(v)?))).collect()
}

pub fn list_words(list: &[(u32, Node)]) -> (Vec<u64>, Vec<u8>) {
    let (mut items, mut text) = (vec![], vec![]);
    for (n, v) in list {
        item_words(*n as u64, v, &mut items, &mut text);
    }
    (items, text)
}

// ---- layouts

pub struct Layouts {
    names: u32,
    left: u32,
    /// one entry in so many is a group
    groups: u64,
    /// so many of twelve entries are Decimals of scale 0, which may be controllers
    decimals: u64,
}

impl Layouts {
    fn entry(&mut self, g: &mut Random, level: u32, at: u32, numbers: &mut Vec<u32>) -> Entry {
        self.left = self.left.saturating_sub(1);
        let name = if g.below(12) == 0 && self.names > 0 { g.below(self.names as u64) as u32 } else { self.names += 1; self.names - 1 };
        let offset = match g.below(10) {
            0 => at + g.below(6) as u32,
            1 => g.below(at as u64 + 1) as u32,
            _ => at,
        };
        let (occurs, depending) = match g.below(10) {
            0 => (Some(g.below(4) as u32), None),
            1 => (Some(1 + g.below(3) as u32), None),
            2 | 3 if !numbers.is_empty() => (if g.below(2) == 0 { None } else { Some(1 + g.below(5) as u32) }, Some(g.pick(numbers))),
            4 if g.below(20) == 0 => (Some(g.pick(&[65535, 300])), Some(g.below(self.names as u64 + 2) as u32)),
            _ => (None, None),
        };
        if level < 8 && self.left > 0 && g.below(self.groups) == 0 {
            let mut members = vec![];
            let mut next = 0;
            for _ in 0..g.below(4) + u64::from(self.groups < 3) {
                if self.left == 0 {
                    break;
                }
                let m = self.entry(g, level + 1, next, numbers);
                next = (m.offset as u64 + m.reserved()).min(9000) as u32;
                members.push(m);
            }
            let width = if g.below(4) == 0 { g.below(20) as u32 } else { next };
            return Entry { name, offset, width, kind: Kind { kind: 9, p: 0, q: 0, r: 0, s: 0, mask: vec![] }, occurs, depending, members };
        }
        let mut k = match g.below(12) {
            n if n < self.decimals => Kind { kind: 7, p: g.below(3) as u32, q: g.below(4) as u32, r: 0, s: 0, mask: vec![] },
            n if n < 4 => Kind { kind: 1 + g.below(2) as u32, p: 0, q: 0, r: 0, s: 0, mask: vec![] },
            _ => any_kind(g),
        };
        if g.below(14) == 0 {
            k = Kind { kind: 6, p: 0, q: 0, r: g.pick(&[0x20, 0, 0x80]), s: 0, mask: vec![] };
        }
        let mut w = width(g, &k) as u32;
        if (matches!(k.kind, 1 | 2) || k.kind == 7 && k.r == 0) && g.below(3) != 0 {
            w = 1 + g.below(2) as u32;
        }
        let e = Entry { name, offset, width: w, kind: k, occurs, depending, members: vec![] };
        if e.controls() {
            numbers.push(name);
        }
        e
    }
    pub fn any(g: &mut Random) -> Vec<Entry> {
        let left = g.pick(&[1, 2, 3, 6, 12, 30, 60]);
        let mut l = Layouts { names: 0, left, groups: g.pick(&[4, 4, 4, 4, 2, 1]), decimals: g.pick(&[0, 0, 0, 6]) };
        let mut all = vec![];
        let mut numbers = vec![];
        let mut at = 0;
        for _ in 0..1 + g.below(8) {
            if l.left == 0 {
                break;
            }
            let e = l.entry(g, 1, at, &mut numbers);
            at = (e.offset as u64 + e.reserved()).min(9000) as u32;
            all.push(e);
        }
        all
    }
}

// ---- the reader's model

struct Reader<'a> {
    record: &'a [u8],
    page: u32,
    items: usize,
    text: usize,
    counts: HashMap<u32, i64>,
    listed: Option<&'static str>,
    other: Option<String>,
}

pub type Read<T> = Result<T, u32>;

impl Reader<'_> {
    fn place(&mut self, words: usize, text: usize) -> Read<()> {
        if self.items < words || self.text < text {
            return Err(16);
        }
        self.items -= words;
        self.text -= text;
        Ok(())
    }
    fn seq(&mut self, entries: &[Entry], base: u64) -> Read<(Vec<(u32, Value)>, u64)> {
        let (mut out, mut shift, mut end) = (vec![], 0u64, base);
        for e in entries {
            let at = base + e.offset as u64 + shift;
            let (v, taken) = self.field(e, at)?;
            shift += taken.saturating_sub(e.reserved());
            end = end.max(at + taken);
            if e.kind.kind == 6 {
                continue;
            }
            match v {
                Value::Int(n) => drop(self.counts.insert(e.name, n)),
                Value::Decimal { unscaled, .. } if e.counts_in_decimal() => drop(self.counts.insert(e.name, unscaled as i64)),
                _ => {}
            }
            out.push((e.name, v));
        }
        Ok((out, end - base))
    }
    fn field(&mut self, e: &Entry, at: u64) -> Read<(Value, u64)> {
        let n = match e.depending {
            Some(c) => {
                let n = *self.counts.get(&c).ok_or(5u32)?;
                if n < 0 || e.occurs.map_or(false, |max| n as u64 > max as u64) {
                    return Err(6);
                }
                n as u64
            }
            None => match e.occurs {
                Some(n) => n as u64,
                None => return self.one(e, at),
            },
        };
        if e.kind.kind != 6 {
            self.place(4, 0)?;
        }
        let (mut all, mut taken) = (vec![], 0);
        for _ in 0..n {
            let (v, t) = self.one(e, at + taken)?;
            if t == 0 {
                return Err(10);
            }
            taken += t;
            all.push(v);
        }
        Ok((Value::List(all), taken))
    }
    fn one(&mut self, e: &Entry, at: u64) -> Read<(Value, u64)> {
        if e.kind.kind == 9 {
            self.place(4, 0)?;
            let (members, taken) = self.seq(&e.members, at)?;
            return Ok((Value::Struct(members.into_iter().map(|(n, v)| (format!("n-{n}"), v)).collect()), taken));
        }
        let end = at + e.width as u64;
        if end > self.record.len() as u64 {
            return Err(7);
        }
        if e.kind.kind == 6 {
            return Ok((Value::Null, e.width as u64));
        }
        let (v, seen) = reads(&e.kind, self.page, &self.record[at as usize..end as usize]);
        match seen {
            Seen::Same => {}
            Seen::Listed(rule) => self.listed = self.listed.or(Some(rule)),
            Seen::Other(how) => self.other = Some(how),
        }
        let v = v?;
        if e.repeated() && e.width == 0 {
            return Err(10);
        }
        self.place(4, if let Value::Text(s) = &v { s.chars().count() } else { 0 })?;
        Ok((v, e.width as u64))
    }
}

fn all<'a>(entries: &'a [Entry], out: &mut Vec<&'a Entry>) {
    for e in entries {
        out.push(e);
        all(&e.members, out);
    }
}

/// The rule by which a layout is held to the model alone: a Decimal of scale 0 carries a controller's name.
fn counted_by_decimal(entries: &[Entry]) -> Option<&'static str> {
    let mut every = vec![];
    all(entries, &mut every);
    let looked: Vec<u32> = every.iter().filter_map(|e| e.depending).collect();
    every.iter().any(|e| e.counts_in_decimal() && looked.contains(&e.name)).then_some("a Decimal of scale 0 carries a controller's name (S-1)")
}

pub fn whole(entries: &[Entry], record: &[u8], page: u32, items: usize, text: usize) -> (Read<Vec<(u32, Value)>>, Option<&'static str>, Option<String>) {
    let length = entries.iter().map(|e| e.offset as u64 + e.reserved()).max().unwrap_or(0);
    if record.len() > 65536 || (!entries.iter().any(|e| e.depends()) && (record.len() as u64) < length) {
        return (Err(4), None, None);
    }
    let mut r = Reader { record, page, items, text, counts: HashMap::new(), listed: counted_by_decimal(entries), other: None };
    let out = r.seq(entries, 0).map(|x| x.0);
    (out, r.listed, r.other)
}

/// The values of item words; a wrong count or span fails.
fn values(words: &[u64], text: &[u8], said: &mut usize, lists: bool) -> Result<Vec<(u64, Value)>, String> {
    let (mut at, mut out) = (0, vec![]);
    while at < words.len() {
        let w = &words[at..at + 4];
        if lists != (w[0] == 65536) {
            return Err(format!("name {}", w[0]));
        }
        let mut next = at + 4;
        let v = match w[1] {
            0 => Value::Null,
            1 => {
                if w[2] as usize != *said {
                    return Err(format!("text at {} and not {said}", w[2]));
                }
                *said += w[3] as usize;
                Value::Text(text[w[2] as usize..*said].iter().map(|&c| c as char).collect())
            }
            2 => Value::Int(w[2] as i64),
            3 => Value::Decimal { unscaled: w[2] as i64 as i128, scale: w[3] as u8 },
            4 => Value::Float(f64::from_bits(w[2])),
            5 => Value::Bool(w[2] == 1),
            tag => {
                next = at + w[3] as usize * 4;
                if w[3] == 0 || next > words.len() {
                    return Err(format!("span {}", w[3]));
                }
                let ms = values(&words[at + 4..next], text, said, tag == 6)?;
                if ms.len() as u64 != w[2] {
                    return Err(format!("{} members and not {}", w[2], ms.len()));
                }
                if tag == 6 { Value::List(ms.into_iter().map(|x| x.1).collect()) } else { Value::Struct(ms.into_iter().map(|(n, v)| (format!("n-{n}"), v)).collect()) }
            }
        };
        out.push((w[0], v));
        at = next;
    }
    Ok(out)
}

fn equal(a: &Value, b: &Value) -> bool {
    match (a, b) {
        (Value::List(x), Value::List(y)) => x.len() == y.len() && x.iter().zip(y).all(|(p, q)| equal(p, q)),
        (Value::Struct(x), Value::Struct(y)) => x.len() == y.len() && x.iter().zip(y).all(|(p, q)| p.0.eq_ignore_ascii_case(&q.0) && equal(&p.1, &q.1)),
        _ => same(a, b),
    }
}

/// The record buffers of a run, kept between cases so that they hold anything at entry.
pub struct Buffers {
    items: Vec<u64>,
    text: Vec<u8>,
    counts: Vec<i64>,
    record: Vec<u8>,
}

impl Buffers {
    pub fn new() -> Buffers {
        Buffers { items: vec![0x5555; 60_000], text: vec![0x55; 90_000], counts: vec![-3; 1100], record: vec![0x55; 70_000] }
    }
}

/// Reads one record both ways.
pub fn read_record(t: &mut Tally, b: &mut Buffers, entries: &[Entry], layout: &Layout, record: &[u8], pg: u32, items: usize, text: usize) {
    let (mut words, mut masks) = (vec![], vec![]);
    for e in entries {
        e.words(&mut words, &mut masks);
    }
    let (items, text, counts) = (items.min(b.items.len()), text.min(b.text.len()), words.len() / 6);
    let (mut used, mut said) = (77u64, 77u64);
    let n = unsafe {
        ff_decode_record(
            words.as_ptr(), words.len(), masks.as_ptr(), masks.len(), pg, record.as_ptr(), record.len(), b.items.as_mut_ptr(), items, b.text.as_mut_ptr(), text, b.counts.as_mut_ptr(), counts, &mut used, &mut said,
        )
    };
    let (model, _, _) = whole(entries, record, pg, items, text);
    // the Rust has no limit on items: what needs more than these is held to the model alone, and so is what differs by a listed rule in a field on the way or by its layout
    let (free, listed, other) = whole(entries, record, pg, 400_000, 400_000);
    let alone = matches!(free, Err(16)) || listed.is_some();
    let theirs = if alone { Err(rust::Error(String::new())) } else { decode::decode_record(layout, record, page(pg)) };
    let clean = b.items[used as usize..items].iter().all(|&w| w == 0) && b.text[said as usize..text].iter().all(|&x| x == 0) && b.counts[..counts].iter().all(|&x| x == 0) && (n == 0 || used + said == 0);
    let seen = if let Some(how) = other {
        Seen::Other(how)
    } else if !clean {
        Seen::Other("unused output or work space is not zero".into())
    } else {
        match &model {
            Err(m) if *m != n => Seen::Other(format!("port {n}, model {m}")),
            Ok(_) if n != 0 => Seen::Other(format!("port {n}, model accepts")),
            Ok(tree) => {
                let mut end = 0;
                match values(&b.items[..used as usize], &b.text[..said as usize], &mut end, false) {
                    Err(how) => Seen::Other(how),
                    Ok(ours) if end as u64 == said && ours.len() == tree.len() && ours.iter().zip(tree).all(|(x, y)| x.0 == y.0 as u64 && equal(&x.1, &y.1)) => Seen::Same,
                    Ok(ours) => Seen::Other(format!("port {ours:?}, model {tree:?}")),
                }
            }
            Err(_) => Seen::Same,
        }
    };
    let seen = match (seen, &free, &theirs) {
        (Seen::Same, Ok(tree), Ok(them)) if tree.len() == them.len() && tree.iter().zip(them).all(|(x, y)| y.0.eq_ignore_ascii_case(&format!("n-{}", x.0)) && equal(&x.1, &y.1)) => Seen::Same,
        (Seen::Same, _, _) if listed.is_some() => Seen::Listed(listed.unwrap()),
        (Seen::Same, Err(_), Err(_)) => Seen::Same,
        (Seen::Same, Err(4), Ok(_)) if record.len() > 65536 => Seen::Listed("records above 65,536 bytes (4)"),
        (Seen::Same, a, them) => Seen::Other(format!("port and model {a:?}, Rust {them:?}")),
        (s, _, _) => s,
    };
    t.note("read record", n, seen, record.len() + words.len(), || format!("layout {entries:?} page {pg} record {record:02x?} items {items} text {text}"));
}

// ---- the writer's model

struct Writer {
    page: u32,
    room: u64,
    record: Vec<u8>,
    listed: Option<&'static str>,
    other: Option<String>,
}

impl Writer {
    fn put(&mut self, at: u64, part: &[u8]) -> Read<()> {
        let end = at + part.len() as u64;
        if end > self.room {
            return Err(16);
        }
        if (self.record.len() as u64) < end {
            self.record.resize(end as usize, 0);
        }
        self.record[at as usize..end as usize].copy_from_slice(part);
        Ok(())
    }
    fn seq(&mut self, entries: &[Entry], values: &[(u32, Node)], base: u64) -> Read<u64> {
        let (mut shift, mut end) = (0u64, base);
        for e in entries {
            let at = base + e.offset as u64 + shift;
            let v = values.iter().find(|x| x.0 == e.name).map_or(&NULL, |x| &x.1);
            let taken = self.field(e, v, at)?;
            shift += taken.saturating_sub(e.reserved());
            end = end.max(at + taken);
        }
        Ok(end - base)
    }
    fn field(&mut self, e: &Entry, v: &Node, at: u64) -> Read<u64> {
        if !e.repeated() {
            return self.one(e, v, at);
        }
        let none = vec![];
        let list = match v {
            Node::List(ms) => ms,
            Node::One(i) if i.tag == 6 || i.tag == 0 => &none,
            _ => return Err(13),
        };
        let n = if e.depending.is_some() { list.len() } else { e.occurs.unwrap() as usize };
        let mut taken = 0;
        for i in 0..n {
            taken += self.one(e, list.get(i).unwrap_or(&NULL), at + taken)?;
        }
        Ok(taken)
    }
    fn one(&mut self, e: &Entry, v: &Node, at: u64) -> Read<u64> {
        if e.kind.kind == 9 {
            return match v {
                Node::Struct(ms) => self.seq(&e.members, ms, at),
                Node::One(i) if i.tag == 7 || i.tag == 0 => self.seq(&e.members, &[], at),
                _ => Err(13),
            };
        }
        let held = Item { tag: 0, a: 0, b: 0, text: vec![] };
        let item = match v {
            Node::One(i) => i.clone(),
            Node::List(_) => Item { tag: 6, ..held },
            Node::Struct(_) => Item { tag: 7, ..held },
        };
        let (n, part, seen) = writes(&e.kind, self.page, e.width as usize, &item).unwrap();
        match seen {
            Seen::Same => {}
            Seen::Listed(rule) => self.listed = self.listed.or(Some(rule)),
            Seen::Other(how) => self.other = Some(how),
        }
        if n != 0 {
            return Err(n);
        }
        self.put(at, &part)?;
        Ok(e.width as u64)
    }
}

fn depth(n: &Node) -> usize {
    1 + match n {
        Node::One(_) => 0,
        Node::List(ms) => ms.iter().map(depth).max().unwrap_or(0),
        Node::Struct(ms) => ms.iter().map(|m| depth(&m.1)).max().unwrap_or(0),
    }
}

pub fn written(entries: &[Entry], values: &[(u32, Node)], page: u32, room: u64) -> (Read<Vec<u8>>, Option<&'static str>, Option<String>) {
    if values.iter().any(|v| depth(&v.1) > 16) {
        return (Err(11), Some("value lists deeper than 16 (11)"), None);
    }
    if entries.iter().any(|e| e.kind.kind != 6 && !values.iter().any(|v| v.0 == e.name)) {
        return (Err(12), None, None);
    }
    let length = entries.iter().map(|e| e.offset as u64 + e.reserved()).max().unwrap_or(0);
    if length > room {
        return (Err(16), None, None);
    }
    let mut w = Writer { page, room, record: vec![0; length as usize], listed: None, other: None };
    let out = w.seq(entries, values, 0);
    (out.map(|_| w.record), w.listed, w.other)
}

/// Writes one list both ways.
pub fn write_record(t: &mut Tally, b: &mut Buffers, entries: &[Entry], layout: &Layout, list: &[(u32, Node)], pg: u32, room: usize) -> Option<Vec<u8>> {
    let them = rust_list(list)?;
    let (mut words, mut masks) = (vec![], vec![]);
    for e in entries {
        e.words(&mut words, &mut masks);
    }
    let (items, text) = list_words(list);
    let (room, counts) = (room.min(b.record.len()), words.len() / 6);
    let mut length = 77u64;
    let n = unsafe {
        ff_encode_record(
            words.as_ptr(), words.len(), masks.as_ptr(), masks.len(), pg, items.as_ptr(), items.len(), text.as_ptr(), text.len(), b.record.as_mut_ptr(), room, b.counts.as_mut_ptr(), counts, &mut length,
        )
    };
    let (model, _, _) = written(entries, list, pg, room.min(65536) as u64);
    // nor has it one on the record
    let (free, listed, other) = written(entries, list, pg, 1_000_000);
    let alone = matches!(free, Err(16)) || listed.is_some();
    let theirs = if alone { Err(rust::Error(String::new())) } else { encode::encode_record(layout, &them, page(pg)) };
    let clean = b.record[length as usize..room].iter().all(|&x| x == 0) && b.counts[..counts].iter().all(|&x| x == 0) && (n == 0 || length == 0);
    let seen = if let Some(how) = other {
        Seen::Other(how)
    } else if !clean {
        Seen::Other("unused output or work space is not zero".into())
    } else {
        match &model {
            Err(m) if *m != n => Seen::Other(format!("port {n}, model {m}")),
            Ok(bytes) if n != 0 || bytes[..] != b.record[..length as usize] => Seen::Other(format!("port {n} {:02x?}, model {bytes:02x?}", &b.record[..length as usize])),
            _ => Seen::Same,
        }
    };
    let seen = match (seen, &free, &theirs) {
        (Seen::Same, _, _) if listed.is_some() => Seen::Listed(listed.unwrap()),
        (Seen::Same, Ok(x), Ok(y)) if x == y => Seen::Same,
        (Seen::Same, Err(_), Err(_)) => Seen::Same,
        (Seen::Same, a, them) => Seen::Other(format!("port and model {a:02x?}, Rust {them:02x?}")),
        (s, _, _) => s,
    };
    t.note("write list", n, seen, items.len() + words.len(), || format!("layout {entries:?} page {pg} list {list:?} room {room}"));
    theirs.ok()
}

// ---- the cases

/// How many nodes a list may still have, kept beside the counts.
const LEFT: u32 = u32::MAX;

/// A value that comes near what the entry takes; `counts` holds what the controllers written so far hold.
fn node(g: &mut Random, e: &Entry, once: bool, counts: &mut HashMap<u32, u64>) -> Node {
    if g.below(60) == 0 {
        return g.pick(&[NULL.clone(), Node::List(vec![]), Node::Struct(vec![]), Node::List(vec![NULL.clone(), NULL.clone()])]);
    }
    if once && e.repeated() {
        let n = match e.depending {
            Some(c) => counts.get(&c).copied().unwrap_or(g.below(3)),
            None => e.occurs.unwrap() as u64,
        };
        let left = counts.get(&LEFT).copied().unwrap_or(400);
        let n = if g.below(20) == 0 { g.below(5) } else { n.min(40).min(left / 4) };
        counts.insert(LEFT, left - n.min(left));
        return Node::List((0..n).map(|_| node(g, e, false, counts)).collect());
    }
    if e.kind.kind == 9 {
        return Node::Struct(list(g, &e.members, counts));
    }
    let mut v = any_item(g, &e.kind);
    if e.controls() && g.below(8) != 0 {
        v = Item { tag: if e.kind.kind == 7 { 3 } else { 2 }, a: g.below(if e.width > 1 { 12 } else { 5 }), b: 0, text: vec![] };
    }
    if once && e.controls() {
        counts.insert(e.name, v.a);
    }
    if v.tag == 1 {
        v.a = 0;
        v.b = v.text.len() as u64;
    }
    if matches!(v.tag, 6 | 7) {
        v = Item { tag: v.tag, a: 0, b: 1, text: vec![] };
    }
    Node::One(v)
}

pub fn list(g: &mut Random, entries: &[Entry], counts: &mut HashMap<u32, u64>) -> Vec<(u32, Node)> {
    let mut out = vec![];
    for e in entries {
        if e.kind.kind == 6 && g.below(20) != 0 {
            continue;
        }
        if g.below(150) != 0 {
            let v = node(g, e, true, counts);
            out.push((e.name, v));
        }
        if g.below(60) == 0 {
            out.push((g.below(20) as u32, NULL.clone()));
        }
    }
    if g.below(15) == 0 && out.len() > 1 {
        let (i, j) = (g.below(out.len() as u64) as usize, g.below(out.len() as u64) as usize);
        out.swap(i, j);
    }
    out
}

/// Bytes that come near what the layout's own order asks for, with no list behind them.
pub fn raw(g: &mut Random, entries: &[Entry], pg: u32, out: &mut Vec<u8>) {
    for e in entries {
        for _ in 0..e.occurs.unwrap_or(1).min(6) {
            if e.kind.kind == 9 {
                raw(g, &e.members, pg, out);
            } else {
                let part = bytes(g, &e.kind, pg, e.width as usize);
                out.extend(part);
            }
        }
    }
}

pub fn random(t: &mut Tally, cases: u64, seed: u64) {
    let mut g = Random(seed.wrapping_mul(0x9E37_79B9_7F4A_7C15) | 1);
    let mut b = Buffers::new();
    let mut done = 0;
    while done < cases {
        let entries = Layouts::any(&mut g);
        let rust = Layout::from_fields(entries.iter().map(|e| e.field()).collect()).unwrap();
        for _ in 0..4 {
            let pg = g.below(2) as u32;
            let mut record = vec![];
            if g.below(4) == 0 {
                raw(&mut g, &entries, pg, &mut record);
            } else {
                let values = list(&mut g, &entries, &mut HashMap::new());
                let room = if g.below(6) == 0 { g.below(80) as usize } else { 66_000 };
                if let Some(bytes) = write_record(t, &mut b, &entries, &rust, &values, pg, room) {
                    record = bytes;
                } else {
                    raw(&mut g, &entries, pg, &mut record);
                }
            }
            match g.below(8) {
                0 => record.truncate(g.below(record.len() as u64 + 1) as usize),
                1 => record.extend((0..g.below(9)).map(|_| g.next() as u8)),
                2 | 3 if !record.is_empty() => {
                    let i = g.below(record.len() as u64) as usize;
                    record[i] = g.next() as u8;
                }
                _ => {}
            }
            let (items, text) = match g.below(8) {
                0 => (g.below(60) as usize, 90_000),
                1 => (60_000, g.below(20) as usize),
                _ => (60_000, 90_000),
            };
            read_record(t, &mut b, &entries, &rust, &record, pg, items, text);
            done += 1;
        }
    }
}
