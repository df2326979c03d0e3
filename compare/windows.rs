//! The window of the last pairs, against a model that is written from the requests alone: pairs in a queue, sums over 128 bits. The Rust has no such call.
//!
//! Runs of records and changeovers from a start, accepted and refused mixed; windows that a stranger wrote, lawful or with one fault; cases in which two
//! neighbours in the order of questions both fail. Every buffer is dirty at entry and stands between guards; every cell of it is compared.

use crate::cases::{bytes, Random};
use crate::check::{writes, Item, Kind, Seen, Tally};
use crate::records::{raw, whole, Entry, Layouts};
use rust::Value;
use std::collections::VecDeque;

extern "C" {
    fn ff_window_start(
        layout: *const u32, layout_len: usize, masks: *const u8, masks_len: usize, page: u32, w: u64, first: u64, second: u64, display: u64, window: *mut u64, window_len: usize, counts: *mut i64,
        counts_len: usize,
    ) -> u32;
    fn ff_window_change(
        layout: *const u32, layout_len: usize, masks: *const u8, masks_len: usize, page: u32, w: u64, first: u64, second: u64, window: *mut u64, window_len: usize, counts: *mut i64, counts_len: usize,
    ) -> u32;
    fn ff_window_add(
        layout: *const u32, layout_len: usize, masks: *const u8, masks_len: usize, page: u32, record: *const u8, record_len: usize, w: u64, first: u64, second: u64, window: *mut u64, window_len: usize,
        items: *mut u64, items_len: usize, text: *mut u8, text_len: usize, counts: *mut i64, counts_len: usize, first_sum: *mut i64, second_sum: *mut i64,
    ) -> u32;
}

const LIMIT: i128 = 1_000_000_000_000;

/// A layout, with the question on it that fails or 0, and what a call is given besides.
#[derive(Clone, Debug)]
struct Call {
    entries: Vec<Entry>,
    words: Vec<u32>,
    masks: Vec<u8>,
    page: u32,
    fails: u32,
    w: u64,
    first: u64,
    second: u64,
    display: u64,
    counts: usize,
    items: usize,
    text: usize,
    record: Vec<u8>,
}

impl Call {
    fn under(entries: Vec<Entry>, page: u32) -> Call {
        let (mut words, mut masks) = (vec![], vec![]);
        for e in &entries {
            e.words(&mut words, &mut masks);
        }
        let counts = words.len() / 6;
        Call { entries, words, masks, page, fails: 0, w: 3, first: 0, second: 1, display: 0, counts, items: 1600, text: 3000, record: vec![] }
    }
    /// Makes question 1, 2 or 3 fail; `fails` is the first of those that were made to.
    fn spoil(&mut self, question: u32) {
        match question {
            1 => self.page = 2,
            2 => self.words[3] = 10,
            _ => self.words[6] = 600,
        }
        self.fails = if self.fails == 0 { question } else { self.fails.min(question) };
    }
}

fn size(e: &Entry) -> u64 {
    1 + e.members.iter().map(size).sum::<u64>()
}

/// The top-level entry of a number, and how many of those before it yield an item.
fn top(entries: &[Entry], number: u64) -> Option<(&Entry, usize)> {
    let (mut at, mut before) = (0, 0);
    for e in entries {
        if at == number {
            return Some((e, before));
        }
        at += size(e);
        before += usize::from(e.kind.kind != 6);
    }
    None
}

fn summed(entries: &[Entry], number: u64) -> Option<(&Entry, usize)> {
    top(entries, number).filter(|(e, _)| e.kind.kind == 7 && !e.repeated())
}

/// Where the two values stand in a list that is read, and their scale.
#[derive(Clone, Copy)]
struct Places {
    first: usize,
    second: usize,
    scale: u32,
}

fn places(c: &Call) -> Option<Places> {
    let (a, b) = (summed(&c.entries, c.first)?, summed(&c.entries, c.second)?);
    (c.first != c.second && a.0.kind.r == b.0.kind.r).then_some(Places { first: a.1, second: b.1, scale: a.0.kind.r })
}

/// The questions that a start asks; the other calls give no display scale.
fn asked(c: &Call, display: u64, window: usize) -> Result<Places, u32> {
    if c.fails != 0 {
        return Err(c.fails);
    }
    if c.counts < 2 * (c.words.len() / 12) {
        return Err(16);
    }
    let at = if (1..=4096).contains(&c.w) { places(c).ok_or(18u32)? } else { return Err(18) };
    if display != 0 && display - 1 >= at.scale as u64 {
        return Err(18);
    }
    if (window as u64) < 2 * c.w + 5 {
        return Err(16);
    }
    Ok(at)
}

type Pairs = VecDeque<(i128, i128)>;

/// What a window is known to hold, its display word, and whether it has passed to half-even rounding.
#[derive(Clone, Default)]
struct Known {
    pairs: Pairs,
    display: u64,
    passed: bool,
}

/// What a window holds, or None where question 24 is answered no.
fn held(w: u64, scale: u32, window: &[u64]) -> Option<Known> {
    if window[0] > w || (window[3] != 0 && window[3] - 1 >= scale as u64) || window[4] > 1 {
        return None;
    }
    let number = |x: u64| x as i64 as i128;
    let pairs: Pairs = (0..window[0] as usize).map(|i| (number(window[5 + 2 * i]), number(window[6 + 2 * i]))).collect();
    let (one, two) = sums(&pairs);
    let small = pairs.iter().all(|p| p.0.abs() < LIMIT && p.1.abs() < LIMIT);
    (small && number(window[1]) == one && number(window[2]) == two).then_some(Known { pairs, display: window[3], passed: window[4] == 1 })
}

fn sums(pairs: &Pairs) -> (i128, i128) {
    (pairs.iter().map(|p| p.0).sum(), pairs.iter().map(|p| p.1).sum())
}

/// The window's words with these pairs in it.
fn laid(known: &Known, window: &[u64]) -> Vec<u64> {
    let mut out = window.to_vec();
    let (one, two) = sums(&known.pairs);
    out[..5].copy_from_slice(&[known.pairs.len() as u64, one as u64, two as u64, known.display, known.passed as u64]);
    for (i, p) in known.pairs.iter().enumerate() {
        out[5 + 2 * i] = p.0 as u64;
        out[6 + 2 * i] = p.1 as u64;
    }
    out
}

/// What a value contributes: at a display scale cut toward zero, or the nearest of the two whole numbers around it, of two that are as near the even one.
fn contributes(v: i128, scale: u32, display: u64, passed: bool) -> i128 {
    if display == 0 {
        return v;
    }
    let d = 10i128.pow(scale - (display as u32 - 1));
    if !passed {
        return v / d;
    }
    let (low, above) = (v.div_euclid(d), v.rem_euclid(d));
    match (2 * above).cmp(&d) {
        std::cmp::Ordering::Less => low,
        std::cmp::Ordering::Greater => low + 1,
        std::cmp::Ordering::Equal => low + low.rem_euclid(2),
    }
}

/// The values of accepted records that lie in the middle of two of their window's scale: before and after the changeover, not negative and negative.
type Halves = [[u64; 2]; 2];

fn is_half(v: i128, scale: u32, display: u64) -> bool {
    display != 0 && {
        let d = 10i128.pow(scale - (display as u32 - 1));
        2 * v.abs() % (2 * d) == d
    }
}

/// The pair that a record gives, or the number that refuses it.
fn given(c: &Call, at: Places) -> Result<(i128, i128), u32> {
    let list = whole(&c.entries, &c.record, c.page, c.items, c.text).0?;
    let number = |i: usize| match &list[i].1 {
        Value::Decimal { unscaled, .. } => *unscaled,
        other => panic!("{other:?} is no Decimal"),
    };
    let pair = (number(at.first), number(at.second));
    if pair.0.abs() >= LIMIT || pair.1.abs() >= LIMIT {
        return Err(19);
    }
    Ok(pair)
}

// ---- lent buffers

/// So many cells between guards; all of them hold anything.
pub struct Lent<T> {
    cells: Vec<T>,
    guard: T,
}

impl<T: Copy + PartialEq> Lent<T> {
    pub fn new(n: usize, dirt: T, guard: T) -> Lent<T> {
        let mut cells = vec![dirt; n + 8];
        cells[..4].fill(guard);
        cells[n + 4..].fill(guard);
        Lent { cells, guard }
    }
    pub fn at(&mut self) -> *mut T {
        self.cells[4..].as_mut_ptr()
    }
    pub fn inner(&self) -> &[T] {
        &self.cells[4..self.cells.len() - 4]
    }
    pub fn guarded(&self) -> bool {
        let n = self.cells.len();
        self.cells[..4].iter().chain(&self.cells[n - 4..]).all(|&x| x == self.guard)
    }
}

fn lend(window: &[u64]) -> Lent<u64> {
    let mut l = Lent::new(window.len(), 0, 0xABCD);
    l.cells[4..4 + window.len()].copy_from_slice(window);
    l
}

/// What a call left: its number, the window, both sums, and whether work space is zero and guards stand.
struct Left {
    number: u32,
    window: Vec<u64>,
    sums: (i64, i64),
    clean: bool,
}

fn start(c: &Call, window: &[u64]) -> Left {
    let (mut w, mut counts) = (lend(window), Lent::new(c.counts, -3i64, 9));
    let number = unsafe {
        ff_window_start(
            c.words.as_ptr(), c.words.len(), c.masks.as_ptr(), c.masks.len(), c.page, c.w, c.first, c.second, c.display, w.at(), window.len(), counts.at(), c.counts,
        )
    };
    let clean = w.guarded() && counts.guarded() && counts.inner().iter().all(|&x| x == 0);
    Left { number, window: w.inner().to_vec(), sums: (0, 0), clean }
}

fn change(c: &Call, window: &[u64]) -> Left {
    let (mut w, mut counts) = (lend(window), Lent::new(c.counts, -3i64, 9));
    let number = unsafe {
        ff_window_change(
            c.words.as_ptr(), c.words.len(), c.masks.as_ptr(), c.masks.len(), c.page, c.w, c.first, c.second, w.at(), window.len(), counts.at(), c.counts,
        )
    };
    let clean = w.guarded() && counts.guarded() && counts.inner().iter().all(|&x| x == 0);
    Left { number, window: w.inner().to_vec(), sums: (0, 0), clean }
}

fn add(c: &Call, window: &[u64]) -> Left {
    let (mut w, mut counts) = (lend(window), Lent::new(c.counts, -3i64, 9));
    let (mut items, mut text) = (Lent::new(c.items, 0x5555u64, 7), Lent::new(c.text, 0x55u8, 7));
    let (mut one, mut two) = (77i64, 77i64);
    let number = unsafe {
        ff_window_add(
            c.words.as_ptr(), c.words.len(), c.masks.as_ptr(), c.masks.len(), c.page, c.record.as_ptr(), c.record.len(), c.w, c.first, c.second, w.at(), window.len(), items.at(), c.items, text.at(), c.text,
            counts.at(), c.counts, &mut one, &mut two,
        )
    };
    let guards = w.guarded() && items.guarded() && text.guarded() && counts.guarded();
    let zeros = items.inner().iter().all(|&x| x == 0) && text.inner().iter().all(|&x| x == 0) && counts.inner().iter().all(|&x| x == 0);
    Left { number, window: w.inner().to_vec(), sums: (one, two), clean: guards && zeros }
}

fn compare(t: &mut Tally, group: &'static str, c: &Call, window: &[u64], left: &Left, number: u32, words: &[u64], sums: (i64, i64)) {
    let seen = if left.number != number {
        Seen::Other(format!("port {}, model {number}", left.number))
    } else if left.window != words {
        Seen::Other(format!("port's window {:?}, model's {words:?}", left.window))
    } else if left.sums != sums {
        Seen::Other(format!("port's sums {:?}, model's {sums:?}", left.sums))
    } else if !left.clean {
        Seen::Other("work space is not zero, or a guard fell".into())
    } else {
        Seen::Same
    };
    t.note(group, left.number, seen, c.words.len() + window.len() + c.record.len(), || format!("{c:?} window {window:?}"));
}

/// Starts a window both ways; the window that the port left.
fn start_both(t: &mut Tally, c: &Call, window: &[u64]) -> Result<Vec<u64>, u32> {
    let left = start(c, window);
    let (number, words) = match asked(c, c.display, window.len()) {
        Err(n) => (n, window.to_vec()),
        Ok(_) => {
            let mut words = window.to_vec();
            words[..2 * c.w as usize + 5].fill(0);
            words[3] = c.display;
            (0, words)
        }
    };
    compare(t, "window start", c, window, &left, number, &words, (0, 0));
    if number == 0 { Ok(left.window) } else { Err(number) }
}

/// The questions before a record; what the window is known to hold, or what its words say.
fn before<'a>(c: &Call, window: &[u64], known: Option<&'a mut Known>, own: &'a mut Known) -> Result<(Places, &'a mut Known), u32> {
    let at = asked(c, 0, window.len())?;
    match known {
        Some(known) => Ok((at, known)),
        None => {
            *own = held(c.w, at.scale, window).ok_or(24u32)?;
            Ok((at, own))
        }
    }
}

/// Passes a window to half-even rounding both ways; the number, and in `window` what the port left.
fn change_both(t: &mut Tally, c: &Call, window: &mut Vec<u64>, known: Option<&mut Known>) -> u32 {
    let left = change(c, window);
    let mut own = Known::default();
    let (number, words) = match before(c, window, known, &mut own) {
        Err(n) => (n, window.clone()),
        Ok((_, known)) => {
            known.passed = true;
            (0, laid(known, window))
        }
    };
    compare(t, "window change", c, window, &left, number, &words, (0, 0));
    *window = left.window;
    number
}

/// Adds a record both ways, where `known` is what the window is known to hold; the pair that it gave, or the number, and in `window` what the port left.
fn add_both(t: &mut Tally, c: &Call, window: &mut Vec<u64>, known: Option<&mut Known>) -> Result<(i128, i128), u32> {
    let left = add(c, window);
    let mut own = Known::default();
    let outcome = before(c, window, known, &mut own).and_then(|(at, known)| {
        let pair = given(c, at)?;
        let came = |v| contributes(v, at.scale, known.display, known.passed);
        let came = (came(pair.0), came(pair.1));
        known.pairs.push_back(came);
        if known.pairs.len() as u64 > c.w {
            known.pairs.pop_front();
        }
        Ok((pair, laid(known, window), sums(&known.pairs)))
    });
    let (number, words, sums) = match &outcome {
        Err(n) => (*n, window.clone(), (0, 0)),
        Ok((_, words, (one, two))) => (0, words.clone(), (*one as i64, *two as i64)),
    };
    compare(t, "window add", c, window, &left, number, &words, sums);
    *window = left.window;
    outcome.map(|o| o.0)
}

// ---- the cases

fn decimal(g: &mut Random, scale: u32) -> (Kind, u32) {
    let p = g.below(3) as u32;
    let width = match (p, g.below(3)) {
        (1, 0) => 7 + g.below(4) as u32,
        (1, _) => 1 + g.below(5) as u32,
        (_, 0) => 12 + g.below(8) as u32,
        _ => 2 + g.below(9) as u32,
    };
    (Kind { kind: 7, p, q: 1 + g.below(3) as u32, r: scale, s: 0, mask: vec![] }, width)
}

fn other(g: &mut Random) -> (Kind, u32) {
    let kind = |kind, p, q, r| Kind { kind, p, q, r, s: 0, mask: vec![] };
    match g.below(6) {
        0 | 1 => (kind(6, 0, 0, 0x20), g.below(4) as u32),
        2 => (kind(0, 0, 1, 0x20), g.below(5) as u32),
        3 => (kind(1, 0, 0, 0), 1 + g.below(2) as u32),
        4 => (kind(5, 0, 0, 0), 1),
        _ => (kind(2, 0, 1, 0), 1 + g.below(8) as u32),
    }
}

/// A layout with some Decimals of one scale at its top level, Pads, groups and tables between them, and names that repeat.
fn layout(g: &mut Random) -> Vec<Entry> {
    let scale = g.below(19) as u32;
    let (mut all, mut at, mut numbers) = (vec![], 0u32, vec![]);
    let parts = 3 + g.below(7);
    for i in 0..parts {
        let name = if g.below(5) == 0 { 0 } else { i as u32 };
        let offset = if g.below(12) == 0 { at + g.below(3) as u32 } else { at };
        let (mut occurs, mut depending, mut members) = (None, None, vec![]);
        let (kind, width) = match g.below(10) {
            _ if i == 0 || i + 1 == parts => decimal(g, scale),
            0..=2 => decimal(g, scale),
            3 => {
                let scale = g.pick(&[scale, (scale + 1) % 19]);
                decimal(g, scale)
            }
            4 => {
                let (kind, width) = decimal(g, scale);
                members = (0..1 + g.below(3) as u32).map(|k| Entry { name: k, offset: k * width, width, kind: kind.clone(), occurs: None, depending: None, members: vec![] }).collect();
                let width = width * members.len() as u32;
                (Kind { kind: 9, p: 0, q: 0, r: 0, s: 0, mask: vec![] }, width)
            }
            5 => {
                occurs = Some(g.below(3) as u32);
                decimal(g, scale)
            }
            6 if !numbers.is_empty() && g.below(2) == 0 => {
                (occurs, depending) = (Some(3), Some(g.pick(&numbers)));
                other(g)
            }
            _ => other(g),
        };
        if kind.kind == 1 && occurs.is_none() {
            numbers.push(name);
        }
        let e = Entry { name, offset, width, kind, occurs, depending, members };
        at = offset + e.reserved() as u32;
        all.push(e);
    }
    all
}

fn near(g: &mut Random) -> i128 {
    let n = match g.below(8) {
        0 => LIMIT - 1 - g.below(2) as i128,
        1 => if g.below(4) == 0 { LIMIT + g.below(3) as i128 } else { LIMIT / 2 },
        2 => 0,
        _ => g.below(1_000_000) as i128,
    };
    if g.below(2) == 0 { n } else { -n }
}

/// The bytes of one scalar: a Decimal's are mostly those of a number near the limits of a window.
fn scalar(g: &mut Random, k: &Kind, page: u32, width: u32) -> Vec<u8> {
    if k.kind == 7 && g.below(40) != 0 {
        for _ in 0..3 {
            let v = Item { tag: 3, a: near(g) as i64 as u64, b: k.r as u64, text: vec![] };
            if let Some((0, part, _)) = writes(k, page, width as usize, &v) {
                return part;
            }
        }
    }
    if k.kind == 1 && g.below(30) != 0 {
        let digits = vec![b'0' + g.below(4) as u8; width as usize];
        return if page == 0 { digits } else { rust::ebcdic::encode_slice(&digits) };
    }
    bytes(g, k, page, width as usize)
}

fn fill(g: &mut Random, entries: &[Entry], base: usize, page: u32, record: &mut Vec<u8>) {
    for e in entries {
        let n = e.occurs.unwrap_or(1).min(6) as usize;
        for k in 0..n {
            let at = base + e.offset as usize + k * e.width as usize;
            if e.kind.kind == 9 {
                fill(g, &e.members, at, page, record);
                continue;
            }
            let part = scalar(g, &e.kind, page, e.width);
            if record.len() < at + part.len() {
                record.resize(at + part.len(), 0);
            }
            record[at..at + part.len()].copy_from_slice(&part);
        }
    }
}

/// Two entries: mostly a lawful pair, where there is one.
fn choose(g: &mut Random, c: &mut Call) {
    let all: Vec<u64> = (0..c.words.len() as u64 / 12).collect();
    let tops: Vec<u64> = all.iter().copied().filter(|&i| summed(&c.entries, i).is_some()).collect();
    for _ in 0..12 {
        (c.first, c.second) = if tops.is_empty() { (0, 1) } else { (g.pick(&tops), g.pick(&tops)) };
        if places(c).is_some() && g.below(12) != 0 {
            break;
        }
    }
    if g.below(25) == 0 {
        let any = g.below(all.len() as u64 + 2);
        let wild = g.pick(&[any, u64::MAX, 1 << 63, c.first]);
        if g.below(2) == 0 {
            c.first = wild;
        } else {
            c.second = wild;
        }
    }
}

fn new_call(g: &mut Random) -> Call {
    let page = g.below(2) as u32;
    let entries = if g.below(4) == 0 {
        // decimals in front of any layout at all
        let scale = g.below(3) as u32;
        let mut all: Vec<Entry> = (0..2 + g.below(2) as u32)
            .map(|i| {
                let (kind, width) = decimal(g, scale);
                Entry { name: i, offset: i * 20, width, kind, occurs: None, depending: None, members: vec![] }
            })
            .collect();
        let shift = 20 * all.len() as u32;
        all.extend(Layouts::any(g).into_iter().map(|mut e| {
            e.offset += shift;
            e
        }));
        all
    } else {
        layout(g)
    };
    let mut c = Call::under(entries, page);
    c.w = match g.below(12) {
        0 => g.pick(&[0, 4096, 4097, u64::MAX, 1 << 63, 4000]),
        _ => 1 + g.below(6),
    };
    choose(g, &mut c);
    let scale = places(&c).map_or(0, |at| at.scale as u64);
    c.display = match g.below(10) {
        0..=2 => 0,
        3 => g.pick(&[scale, scale + 1, scale + 2, u64::MAX, 1 << 32]),
        4..=6 => scale.min(1 + g.below(2)),
        7 | 8 => scale - scale.min(g.below(3)),
        _ => g.below(scale + 1),
    };
    if g.below(40) == 0 {
        let question = g.pick(&[1, 2, 3]);
        c.spoil(question);
    }
    c
}

fn new_record(g: &mut Random, c: &mut Call) {
    c.record.clear();
    if g.below(20) == 0 {
        raw(g, &c.entries, c.page % 2, &mut c.record);
    } else {
        fill(g, &c.entries, 0, c.page % 2, &mut c.record);
    }
    match g.below(24) {
        0 => c.record.truncate(g.below(c.record.len() as u64 + 1) as usize),
        1 => c.record.extend((0..g.below(9)).map(|_| g.next() as u8)),
        2 if !c.record.is_empty() => {
            let i = g.below(c.record.len() as u64) as usize;
            c.record[i] = g.next() as u8;
        }
        3 if g.below(40) == 0 => c.record.resize(65_537, 0x20),
        _ => {}
    }
    (c.items, c.text) = match g.below(24) {
        0 => (g.below(40) as usize, 3000),
        1 => (1600, g.below(4) as usize),
        _ => (1600, 3000),
    };
    c.counts = c.words.len() / 6;
    if g.below(40) == 0 {
        c.counts = g.below(c.counts as u64 + 4) as usize;
    }
}

/// Words for a window of W pairs, or fewer; what is behind it too.
fn words(g: &mut Random, w: u64) -> Vec<u64> {
    let n = if w > 5000 { 20 } else { 2 * w as usize + 5 };
    let n = if g.below(20) == 0 { g.below(n as u64) as usize } else { n + g.below(4) as usize };
    (0..n).map(|_| g.next()).collect()
}

/// A run of records and changeovers from a start. Its end is also compared with a fresh window that is told, value by value, which rule applied.
fn run(t: &mut Tally, g: &mut Random, halves: &mut Halves) {
    let mut c = new_call(g);
    let lent = words(g, c.w);
    let Ok(mut window) = start_both(t, &c, &lent) else {
        // a refused start leaves a stranger's window
        new_record(g, &mut c);
        let mut window = lent;
        let _ = if g.below(2) == 0 { add_both(t, &c, &mut window, None).err() } else { Some(change_both(t, &c, &mut window, None)) };
        return;
    };
    let mut known = Known { display: c.display, ..Known::default() };
    let (mut passed, mut told) = (false, vec![]);
    for _ in 0..3 + g.below(10) {
        new_record(g, &mut c);
        if g.below(5) == 0 {
            passed |= change_both(t, &c, &mut window, Some(&mut known)) == 0;
        } else if let Ok(pair) = add_both(t, &c, &mut window, Some(&mut known)) {
            told.push((pair, passed));
        }
    }
    let scale = places(&c).unwrap().scale;
    let came = |v, rule| contributes(v, scale, c.display, rule);
    for &((a, b), rule) in &told {
        for v in [a, b] {
            halves[rule as usize][(v < 0) as usize] += is_half(v, scale, c.display) as u64;
        }
    }
    let last = told.len().saturating_sub(c.w as usize);
    let fresh = Known { pairs: told[last..].iter().map(|&((a, b), rule)| (came(a, rule), came(b, rule))).collect(), display: c.display, passed };
    let mut words = lent;
    words[..2 * c.w as usize + 5].fill(0);
    let same = window[..5 + 2 * fresh.pairs.len()] == laid(&fresh, &words)[..5 + 2 * fresh.pairs.len()];
    let seen = if same { Seen::Same } else { Seen::Other(format!("after {told:?}")) };
    t.note("window run", 0, seen, c.words.len() + told.len(), || format!("{c:?} window {window:?}"));
}

/// A window that a stranger wrote: lawful, or with one fault of question 24.
fn stranger(t: &mut Tally, g: &mut Random) {
    let mut c = new_call(g);
    let mut window = words(g, c.w);
    if (1..=4096).contains(&c.w) && window.len() as u64 >= 2 * c.w + 5 {
        let n = g.below(c.w.min(40) + 1);
        let pairs: Pairs = (0..n).map(|_| (near(g) % LIMIT, near(g) % LIMIT)).collect();
        let scale = places(&c).map_or(0, |at| at.scale as u64);
        window = laid(&Known { pairs, display: g.below(scale + 1), passed: g.below(2) == 0 }, &window);
        let i = if n == 0 { 5 } else { 5 + g.below(2 * n) as usize };
        match g.below(10) {
            0 => window[0] = c.w + 1 + g.pick(&[0, 1, 1 << 40, u64::MAX - 5000]),
            1 => window[4] = g.pick(&[1, 2, u64::MAX]),
            6 => window[3] = g.pick(&[scale, scale + 1, u64::MAX]),
            2 | 3 if n > 0 => {
                // a large number, and the sum that goes with it
                let old = window[i];
                window[i] = g.pick(&[LIMIT as u64, -LIMIT as i64 as u64, i64::MIN as u64, LIMIT as u64 + 1, LIMIT as u64 - 1]);
                let s = 2 - i % 2;
                window[s] = window[s].wrapping_sub(old).wrapping_add(window[i]);
            }
            4 => {
                let s = 1 + g.below(2) as usize;
                window[s] = window[s].wrapping_add(g.pick(&[1, u64::MAX, 1 << 63]));
            }
            5 if n > 0 => window[0] -= 1,
            _ => {}
        }
    }
    for _ in 0..3 {
        new_record(g, &mut c);
        if g.below(3) == 0 {
            change_both(t, &c, &mut window, None);
        } else {
            let _ = add_both(t, &c, &mut window, None);
        }
    }
}

/// Each two neighbours in the order of questions, both of which fail: the earlier one's number. And the limits of a value's size and of a display word, on either side.
fn neighbours(t: &mut Tally) {
    let packed = |name, offset| Entry { name, offset, width: 7, kind: Kind { kind: 7, p: 1, q: 1, r: 2, s: 0, mask: vec![] }, occurs: None, depending: None, members: vec![] };
    let lawful = || Call { record: [[0, 0, 0, 0, 0, 0, 0x1C]; 2].concat(), ..Call::under(vec![packed(0, 0), packed(1, 7)], 0) };
    let with = |change: &dyn Fn(&mut Call)| {
        let mut c = lawful();
        change(&mut c);
        c
    };
    let fine = vec![0u64; 11];
    let full = vec![4u64; 11];
    let large = [0x10, 0, 0, 0, 0, 0, 0x0C]; // 10^12
    let table: Vec<(u32, Call, Vec<u64>)> = vec![
        (1, with(&|c| { c.spoil(1); c.spoil(2) }), fine.clone()),
        (2, with(&|c| { c.spoil(2); c.spoil(3) }), fine.clone()),
        (3, with(&|c| { c.spoil(3); c.counts = 1 }), fine.clone()),
        (16, with(&|c| { c.counts = 1; c.second = 0 }), fine.clone()),
        (18, with(&|c| c.second = 0), fine[..10].to_vec()),
        (0, with(&|c| c.display = 2), fine.clone()),
        (16, with(&|_| ()), full[..10].to_vec()),
        (24, with(&|c| c.record.truncate(13)), full.clone()),
        (4, with(&|c| { c.record[6] = 0x11; c.record.truncate(13) }), fine.clone()),
        (8, with(&|c| { c.record[6] = 0x11; c.record[7..].copy_from_slice(&large) }), fine.clone()),
        (16, with(&|c| { c.items = 7; c.record[7..].copy_from_slice(&large) }), fine.clone()),
        (19, with(&|c| c.record[7..].copy_from_slice(&large)), fine.clone()),
        (0, with(&|c| c.record[7..].copy_from_slice(&[0x09, 0x99, 0x99, 0x99, 0x99, 0x99, 0x9C])), fine.clone()),
    ];
    for (number, c, window) in table {
        let before_a_record = number <= 3 || number == 18 || (number == 16 && c.items > 7);
        if before_a_record {
            let told = start_both(t, &c, &window).err().unwrap_or(0);
            assert_eq!(told, number, "start: {c:?}");
        }
        if before_a_record || number == 24 {
            assert_eq!(change_both(t, &c, &mut window.clone(), None), number, "change: {c:?} {window:?}");
        }
        let told = add_both(t, &c, &mut window.clone(), None).err().unwrap_or(0);
        assert_eq!(told, number, "add: {c:?} {window:?}");
    }
    // entries of scale 2: display scales 0 and 1, and then those that are not below it, before the window's length
    for (display, number, words) in [(1, 0, 11), (2, 0, 11), (3, 18, 11), (4, 18, 10), (u64::MAX, 18, 0), (2, 16, 10)] {
        let told = start_both(t, &with(&|c| c.display = display), &fine[..words]).err().unwrap_or(0);
        assert_eq!(told, number, "display {display}");
    }
}

/// A full window of 4,096 pairs of the largest size, rolled.
fn widest(t: &mut Tally) {
    let packed = |name, offset| Entry { name, offset, width: 7, kind: Kind { kind: 7, p: 1, q: 1, r: 2, s: 0, mask: vec![] }, occurs: None, depending: None, members: vec![] };
    let record = [[0x09, 0x99, 0x99, 0x99, 0x99, 0x99, 0x9C], [0x09, 0x99, 0x99, 0x99, 0x99, 0x99, 0x9D]].concat();
    let c = Call { record, w: 4096, ..Call::under(vec![packed(0, 0), packed(1, 7)], 0) };
    let mut known = Known { pairs: (0..4096).map(|_| (LIMIT - 1, 1 - LIMIT)).collect(), ..Known::default() };
    let mut window = laid(&known, &vec![7; 2 * 4096 + 6]);
    for _ in 0..3 {
        assert!(add_both(t, &c, &mut window, Some(&mut known)).is_ok());
    }
}

/// So many starts, records, changeovers and runs at least.
pub fn random(t: &mut Tally, calls: u64, seed: u64) {
    let mut g = Random(seed.wrapping_mul(0x9E37_79B9_7F4A_7C15) | 1);
    let mut halves: Halves = [[0; 2]; 2];
    neighbours(t);
    widest(t);
    while ["window add", "window change", "window run"].iter().any(|group| t.cases_of(group) < calls) {
        if g.below(6) == 0 {
            stranger(t, &mut g);
        } else {
            run(t, &mut g, &mut halves);
        }
    }
    eprintln!("exact halves in windows, before and after the changeover, not negative and negative: {halves:?}");
    assert!(halves.iter().flatten().all(|&n| n > 0), "a kind of exact half did not come");
    for number in [1, 2, 3, 4, 5, 6, 7, 8, 9, 10, 16, 18, 19, 24] {
        assert!(t.reached("window add", number), "no record was refused by {number}");
    }
    for number in [1, 2, 3, 16, 18, 24] {
        assert!(t.reached("window change", number), "no changeover was refused by {number}");
        assert!(number == 24 || t.reached("window start", number), "no start was refused by {number}");
    }
}
