//! Plain layouts and fitting lists, both decided by the port's own functions: written and read back, the list must come back word for word and byte for byte,
//! also with bytes behind the record.

use crate::cases::Random;
use crate::check::{Item, Kind, Seen, Tally};
use crate::embedded;
use crate::halves;
use crate::records::{list_words, Entry, Node};
use std::collections::HashMap;

extern "C" {
    fn trip_is_plain(layout: *const u32, layout_len: usize, masks: *const u8, masks_len: usize, page: u32) -> u32;
    fn trip_is_fitting(
        layout: *const u32, layout_len: usize, masks: *const u8, masks_len: usize, items: *const u64, items_len: usize, text: *const u8, text_len: usize, counts: *mut i64, counts_len: usize,
    ) -> u32;
    fn trip_round(
        layout: *const u32, layout_len: usize, masks: *const u8, masks_len: usize, page: u32, items: *const u64, items_len: usize, text: *const u8, text_len: usize, behind: *const u8, behind_len: usize,
        record: *mut u8, record_len: usize, counts: *mut i64, counts_len: usize, back: *mut u64, back_len: usize, said: *mut u8, said_len: usize, length: *mut u64, read: *mut u32, used: *mut u64,
        told: *mut u64,
    ) -> u32;
}

const MASKS: [(&str, bool); 12] = [
    ("ZZ9", false), ("99", false), ("ZZ,ZZ9.99-", true), ("-ZZ9", true), ("+ZZ9.99", true), ("ZZ9+", true), ("ZZ9.99CR", true), ("**9.99DB", true), ("$ZZ9.99", false), ("*,**9.99", false), ("9/99/99", false), ("9B9", false),
];

/// A scalar of any kind and a width that plain layouts have; how many digits its mask takes is kept in the list's making.
fn scalar(g: &mut Random) -> (Kind, u32) {
    let kind = |kind, p, q, r, s| Kind { kind, p, q, r, s, mask: vec![] };
    let wide = |g: &mut Random| {
        let most = if g.below(5) == 0 { 30 } else { 9 };
        1 + g.below(most) as u32
    };
    let flag = |g: &mut Random| g.below(2) as u32;
    match g.below(10) {
        0 => (kind(0, flag(g), flag(g), g.pick(&[0x20, 0x30, 0, 0x80, 0xFF]), 0), wide(g)),
        1 | 2 => (kind(1, flag(g), g.below(4) as u32, 0, 0), wide(g)),
        3 => (kind(2, flag(g), flag(g), 0, 0), 1 + g.below(8) as u32),
        4 => {
            let bits = g.pick(&[16, 32, 64]);
            (kind(3, flag(g), bits, 0, 0), bits / 8)
        }
        5 => (kind(4, flag(g), 0, 0, 0), wide(g)),
        6 => (kind(5, 0, 0, 0, 0), 1),
        7 | 8 => {
            let w = wide(g);
            let precision = g.below(w as u64 + 1) as u32;
            let scale = if g.below(3) == 0 { 0 } else { g.below(19) as u32 };
            (kind(7, g.below(3) as u32, g.below(4) as u32, scale, precision), w)
        }
        _ => {
            let (mask, _) = g.pick(&MASKS);
            let mut k = kind(8, flag(g), 0, g.below(4) as u32, 0);
            k.mask = mask.as_bytes().to_vec();
            (k, mask.len() as u32)
        }
    }
}

struct Plain {
    names: u32,
    left: u32,
}

impl Plain {
    fn seq(&mut self, g: &mut Random, level: u32, most: u64, known: &mut Vec<u32>, sure: bool) -> (Vec<Entry>, u64) {
        let (mut all, mut at) = (vec![], 0u64);
        for i in 0..1 + g.below(most) {
            if self.left == 0 && i > 0 {
                break;
            }
            let e = self.entry(g, level, at, known, sure && i == 0);
            at = e.offset as u64 + e.reserved();
            all.push(e);
        }
        (all, at)
    }
    fn entry(&mut self, g: &mut Random, level: u32, at: u64, known: &mut Vec<u32>, sure: bool) -> Entry {
        self.left = self.left.saturating_sub(1);
        let name = self.names;
        self.names += 1;
        let offset = (at + if g.below(6) == 0 { g.below(4) } else { 0 }) as u32;
        let (occurs, depending) = match g.below(8) {
            _ if sure => (None, None),
            0 | 1 => (Some(g.below(4) as u32), None),
            2 | 3 if !known.is_empty() => (if g.below(2) == 0 { None } else { Some(4 + g.below(3) as u32) }, Some(g.pick(known))),
            _ => (None, None),
        };
        let single = occurs.is_none() && depending.is_none();
        if !sure && level < 8 && self.left > 0 && g.below(4) == 0 {
            let before = known.len();
            let (members, end) = self.seq(g, level + 1, 4, known, !single);
            if !single {
                known.truncate(before);
            }
            let width = if g.below(4) == 0 { g.below(20) as u32 } else { end.min(60_000) as u32 };
            return Entry { name, offset, width, kind: Kind { kind: 9, p: 0, q: 0, r: 0, s: 0, mask: vec![] }, occurs, depending, members };
        }
        let (mut kind, width) = scalar(g);
        if depending.is_none() && g.below(14) == 0 {
            kind = Kind { kind: 6, p: 0, q: 0, r: g.pick(&[0x20, 0, 0x80]), s: 0, mask: vec![] };
        }
        let e = Entry { name, offset, width, kind, occurs, depending, members: vec![] };
        if e.controls() {
            known.push(name);
        }
        e
    }
}

fn below_power(g: &mut Random, digits: u32) -> u64 {
    let most = 10u64.pow(digits.min(18));
    match g.below(4) {
        0 => most - 1,
        1 => g.below(10).min(most - 1),
        _ => g.below(most),
    }
}

fn value(g: &mut Random, e: &Entry) -> Item {
    let (k, w, controls) = (&e.kind, e.width, e.controls());
    let item = |tag, a, b| Item { tag, a, b, text: vec![] };
    let texts = |s: Vec<u8>| Item { tag: 1, a: 0, b: s.len() as u64, text: s };
    let signed = |n: u64, minus: bool| if minus { (n as i64).wrapping_neg() as u64 } else { n };
    match k.kind {
        0 => {
            // untrimmed: any bytes, pads and zeros among them
            if k.q == 0 {
                return texts((0..w).map(|_| match g.below(5) {
                    0 => g.next() as u8,
                    1 => k.r as u8,
                    2 => 0,
                    _ => g.pick(b"AB 0z"),
                }).collect());
            }
            let n = g.below(w as u64 + 1);
            let mut s: Vec<u8> = (0..n).map(|_| if g.below(4) == 0 { 1 + g.below(255) as u8 } else { g.pick(b"AB 0z") }).collect();
            let end = if k.p == 0 { s.len().wrapping_sub(1) } else { 0 };
            if !s.is_empty() && s[end] == k.r as u8 {
                s[end] = b'X';
            }
            texts(s)
        }
        1 | 2 if controls && g.below(12) != 0 => item(2, g.below(5), 0),
        7 if controls && g.below(12) != 0 => item(3, g.below(5), 0),
        1 if embedded::is(k) => item(2, { let (n, m) = (below_power(g, w), g.below(2) == 0); signed(n, m) }, 0),
        1 if k.q >= 2 && w >= 2 => item(2, { let (n, m) = (below_power(g, w - 1), g.below(2) == 0); signed(n, m) }, 0),
        1 => item(2, below_power(g, w), 0),
        2 => {
            let bits = 8 * w;
            let n = g.next();
            let v = if k.q != 0 { (n as i64 >> (64 - bits)) as u64 } else { n >> (64 - bits).max(1) };
            item(2, v, 0)
        }
        3 => {
            let f = match k.q {
                16 => halves::any(g).to_bits(),
                32 => {
                    let f = f32::from_bits(g.next() as u32);
                    (if f.is_nan() { 1.5 } else { f } as f64).to_bits()
                }
                _ => g.next(),
            };
            item(4, f, 0)
        }
        4 => texts((0..2 * w).map(|_| g.pick(b"0123456789abcdef")).collect()),
        5 => item(5, g.below(2), 0),
        7 => {
            let (digits, minus) = match k.p {
                0 if k.q >= 2 && w >= 2 => (w - 1, true),
                0 => (w, false),
                1 => (2 * w - 1, k.q != 0),
                _ => (w, k.q != 0),
            };
            let n = below_power(g, digits);
            item(3, signed(n, minus && g.below(2) == 0), k.r as u64)
        }
        _ => {
            let digits = k.mask.iter().filter(|c| b"9Z*".contains(c)).count() as u32;
            let signs = MASKS.iter().any(|m| m.0.as_bytes() == &k.mask[..] && m.1);
            let n = below_power(g, digits);
            item(3, signed(n, k.p != 0 && signs && g.below(2) == 0), k.r as u64)
        }
    }
}

struct Lists {
    counts: HashMap<u32, u64>,
    left: u64,
}

impl Lists {
    fn seq(&mut self, g: &mut Random, entries: &[Entry]) -> Vec<(u32, Node)> {
        entries.iter().filter(|e| e.kind.kind != 6).map(|e| (e.name, self.field(g, e))).collect()
    }
    fn field(&mut self, g: &mut Random, e: &Entry) -> Node {
        if !e.repeated() {
            return self.one(g, e);
        }
        let n = match e.depending {
            Some(c) => self.counts.get(&c).copied().unwrap_or(0),
            None => e.occurs.unwrap() as u64,
        };
        Node::List((0..n.min(self.left)).map(|_| self.one(g, e)).collect())
    }
    fn one(&mut self, g: &mut Random, e: &Entry) -> Node {
        self.left = self.left.saturating_sub(1);
        if e.kind.kind == 9 {
            return Node::Struct(self.seq(g, &e.members));
        }
        let v = value(g, e);
        if e.controls() {
            self.counts.insert(e.name, v.a);
        }
        Node::One(v)
    }
}

/// The values that fit a signed Embedded Int are those that the model writes.
fn embedded_fits(t: &mut Tally, g: &mut Random) {
    let mut counts = [7i64; 2];
    for _ in 0..20_000 {
        let w = g.below(25) as u32;
        let v = embedded::value(g, w as usize);
        let (mut words, items) = (vec![], [0, v.tag, v.a, v.b]);
        Entry { name: 0, offset: 0, width: w, kind: embedded::FIELD, occurs: None, depending: None, members: vec![] }.words(&mut words, &mut vec![]);
        let none = [0u8; 1];
        let fits = unsafe { trip_is_fitting(words.as_ptr(), words.len(), none.as_ptr(), 0, items.as_ptr(), 4, none.as_ptr(), 0, counts.as_mut_ptr(), 2) } == 1;
        let seen = if fits == embedded::write(0, w as usize, &v).is_ok() { Seen::Listed(embedded::RULE) } else { Seen::Other(format!("fitting: {fits}")) };
        t.note(if fits { "fitting, signed Embedded" } else { "not, signed Embedded" }, 0, seen, w as usize, || format!("{v:?} width {w}"));
    }
}

/// The floats that fit 16 bits are those that the model finds exact.
fn halves_fit(t: &mut Tally, g: &mut Random) {
    let mut counts = [7i64; 2];
    for _ in 0..20_000 {
        let bits = match g.below(8) {
            0 => 0x7FF0_0000_0000_0000 + g.below(3) | g.below(2) << 63,
            1 | 2 => halves::any(g).to_bits(),
            _ => halves::near(g),
        };
        let kind = Kind { kind: 3, p: 0, q: 16, r: 0, s: 0, mask: vec![] };
        let (mut words, items) = (vec![], [0, 4, bits, 0]);
        Entry { name: 0, offset: 0, width: 2, kind, occurs: None, depending: None, members: vec![] }.words(&mut words, &mut vec![]);
        let none = [0u8; 1];
        let fits = unsafe { trip_is_fitting(words.as_ptr(), words.len(), none.as_ptr(), 0, items.as_ptr(), 4, none.as_ptr(), 0, counts.as_mut_ptr(), 2) } == 1;
        let seen = if fits == (halves::nearest(bits).1 == halves::EXACT) { Seen::Same } else { Seen::Other(format!("fitting: {fits}")) };
        t.note(if fits { "fitting, 16 bits" } else { "not, 16 bits" }, 0, seen, 0, || format!("{bits:016x}"));
    }
}

pub fn random(t: &mut Tally, cases: u64, seed: u64) {
    let mut g = Random(seed.wrapping_mul(0x9E37_79B9_7F4A_7C15) | 1);
    embedded_fits(t, &mut g);
    halves_fit(t, &mut g);
    let (mut record, mut counts, mut back, mut said) = (vec![0x55u8; 65_536], vec![7i64; 1024], vec![0x55u64; 40_000], vec![0x55u8; 65_536]);
    let mut done = 0;
    while done < cases {
        let mut l = Plain { names: 0, left: g.pick(&[1, 2, 4, 8, 20, 50]) };
        let (entries, _) = l.seq(&mut g, 1, 8, &mut vec![], false);
        let (mut words, mut masks) = (vec![], vec![]);
        entries.iter().for_each(|e| e.words(&mut words, &mut masks));
        let pg = g.below(2) as u32;
        let plain = unsafe { trip_is_plain(words.as_ptr(), words.len(), masks.as_ptr(), masks.len(), pg) } == 1;
        t.note(if plain { "plain layouts" } else { "not plain" }, 0, Seen::Same, words.len(), String::new);
        if !plain {
            continue;
        }
        for _ in 0..4 {
            let list = Lists { counts: HashMap::new(), left: 2_000 }.seq(&mut g, &entries);
            let (items, text) = list_words(&list);
            let work = words.len() / 6;
            let fitting = unsafe { trip_is_fitting(words.as_ptr(), words.len(), masks.as_ptr(), masks.len(), items.as_ptr(), items.len(), text.as_ptr(), text.len(), counts.as_mut_ptr(), work) } == 1;
            t.note(if fitting { "fitting lists" } else { "not fitting" }, 0, Seen::Same, items.len(), String::new);
            if !fitting {
                continue;
            }
            // once with place for just this list and nothing behind the record, once with more place and any bytes behind it
            let mut exact = 65_536;
            for more in [0, 1 + g.below(40)] {
                let behind: Vec<u8> = (0..more).map(|_| g.next() as u8).collect();
                let (room, space) = if more == 0 { (items.len(), text.len()) } else { (back.len(), said.len()) };
                let (mut length, mut read, mut used, mut told) = (0u64, 0u32, 0u64, 0u64);
                let n = unsafe {
                    trip_round(
                        words.as_ptr(), words.len(), masks.as_ptr(), masks.len(), pg, items.as_ptr(), items.len(), text.as_ptr(), text.len(), behind.as_ptr(), behind.len(), record.as_mut_ptr(), exact,
                        counts.as_mut_ptr(), work, back.as_mut_ptr(), room, said.as_mut_ptr(), space, &mut length, &mut read, &mut used, &mut told,
                    )
                };
                let same = n == 0 && read == 0 && back[..used as usize] == items[..] && said[..told as usize] == text[..];
                let clean = back[used as usize..room].iter().all(|&w| w == 0) && said[told as usize..space].iter().all(|&b| b == 0);
                let seen = if same && clean { Seen::Same } else { Seen::Other(format!("written {n}, read {read}, {more} bytes behind: {:x?}", &back[..used as usize])) };
                t.note(if more == 0 { "there and back" } else { "with bytes behind" }, n.max(read), seen, items.len() + words.len(), || format!("layout {entries:?} page {pg} list {list:?}"));
                exact = (length as usize + 7 * (g.below(8) as usize)).min(65_536);
            }
            done += 1;
        }
    }
}
