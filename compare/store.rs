//! `compare store CASES SEED`: a sample of the Rust's answers, for the program `replay`, which needs no Rust. A line for each step, bytes as pairs of
//! hexadecimal digits and words as hexadecimal numbers:
//!   L 0 0 2 ..      the layout's words         m 5a39   its masks
//!   r 30 ..         a record's bytes           i 0 2 .. a value list's words       t 4f4b   its text bytes
//!   D PAGE NUMBER   reading the record gives the list; a number but 0 refuses
//!   E PAGE NUMBER   writing the list gives the record; a number but 0 refuses
//! Values and bytes are the Rust's own. It gives no numbers: that of a refusal is the model's (records.rs). Cases that differ by a rule of docs/DIFFERENCES.md
//! are left out, and so are layouts with a signed Embedded Int and, in writing, lists with a Float of 16 bits.

use crate::cases::{any_kind, bytes, width, Random};
use crate::records::{list, list_words, raw, rust_list, whole, written, Entry, Layouts};
use crate::check::page;
use crate::embedded;
use rust::{decode, encode, Layout, Value};
use std::collections::{BTreeMap, HashMap};
use std::fmt::Write;

fn hex(b: &[u8]) -> String {
    b.iter().map(|x| format!("{x:02x}")).collect()
}

fn numbers(w: impl Iterator<Item = u64>) -> String {
    w.map(|x| format!(" {x:x}")).collect()
}

/// The item words and text bytes of a value that the Rust gave.
fn item(name: u64, v: &Value, out: &mut Vec<u64>, text: &mut Vec<u8>) {
    let at = out.len();
    out.extend(match v {
        Value::Null => [name, 0, 0, 0],
        Value::Text(s) => [name, 1, text.len() as u64, s.len() as u64],
        Value::Int(n) => [name, 2, *n as u64, 0],
        Value::Decimal { unscaled, scale } => [name, 3, *unscaled as i64 as u64, *scale as u64],
        Value::Float(f) => [name, 4, f.to_bits(), 0],
        Value::Bool(b) => [name, 5, *b as u64, 0],
        Value::List(ms) => [name, 6, ms.len() as u64, 0],
        Value::Struct(ms) => [name, 7, ms.len() as u64, 0],
        _ => unreachable!("no dates"),
    });
    match v {
        Value::Text(s) => text.extend(s.bytes()),
        Value::List(ms) => ms.iter().for_each(|m| item(65536, m, out, text)),
        Value::Struct(ms) => ms.iter().for_each(|(n, m)| item(number(n), m, out, text)),
        _ => return,
    }
    if !matches!(v, Value::Text(_)) {
        out[at + 3] = ((out.len() - at) / 4) as u64;
    }
}

fn number(name: &str) -> u64 {
    name[2..].parse().unwrap()
}

fn small(g: &mut Random) -> Vec<Entry> {
    if g.below(4) == 0 {
        return Layouts::any(g);
    }
    let k = any_kind(g);
    let w = width(g, &k) as u32;
    let occurs = if g.below(6) == 0 { Some(g.below(4) as u32) } else { None };
    vec![Entry { name: 0, offset: g.below(6).saturating_sub(4) as u32, width: w, kind: k, occurs, depending: None, members: vec![] }]
}

fn has_embedded(e: &Entry) -> bool {
    embedded::is(&e.kind) || e.members.iter().any(has_embedded)
}

pub fn store(cases: u64, seed: u64) {
    let mut g = Random(seed.wrapping_mul(0x9E37_79B9_7F4A_7C15) | 1);
    let mut seen: BTreeMap<String, u64> = BTreeMap::new();
    let mut done = 0;
    while done < cases {
        let entries = small(&mut g);
        if entries.iter().any(has_embedded) {
            continue;
        }
        let layout = Layout::from_fields(entries.iter().map(|e| e.field()).collect()).unwrap();
        let (mut words, mut masks) = (vec![], vec![]);
        entries.iter().for_each(|e| e.words(&mut words, &mut masks));
        if words.len() > 120 {
            continue;
        }
        let mut lines = String::new();
        let mut found = 0;
        for _ in 0..4 {
            let pg = g.below(2) as u32;
            let values = list(&mut g, &entries, &mut HashMap::new());
            let (items, text) = list_words(&values);
            let (model, listed, other) = written(&entries, &values, pg, 65536);
            let theirs = rust_list(&values).map(|them| encode::encode_record(&layout, &them, page(pg)));
            let mut record = vec![];
            entries.iter().for_each(|e| if e.kind.kind != 9 { record.extend(bytes(&mut g, &e.kind, pg, e.width as usize)) });
            if let (Some(theirs), None, None) = (theirs, listed, other) {
                let n = model.err().unwrap_or(0);
                if theirs.is_ok() == (n == 0) && items.len() < 400 && theirs.as_ref().map_or(0, |b| b.len()) < 400 {
                    let b = theirs.unwrap_or_default();
                    write!(lines, "i{}\nt {}\nr {}\nE {pg} {n:x}\n", numbers(items.iter().copied()), hex(&text), hex(&b)).unwrap();
                    *seen.entry(format!("E {n}")).or_default() += 1;
                    found += 1;
                    if n == 0 && g.below(2) == 0 {
                        record = b;
                    }
                }
            }
            if g.below(4) == 0 {
                record.clear();
                raw(&mut g, &entries, pg, &mut record);
            }
            if g.below(6) == 0 && !record.is_empty() {
                let i = g.below(record.len() as u64) as usize;
                record[i] = g.next() as u8;
            }
            if g.below(12) == 0 {
                record.truncate(g.below(record.len() as u64 + 1) as usize);
            }
            let (model, listed, other) = whole(&entries, &record, pg, 400, 400);
            if listed.is_some() || other.is_some() || record.len() > 400 || matches!(model, Err(16)) {
                continue;
            }
            let theirs = decode::decode_record(&layout, &record, page(pg));
            let n = model.err().unwrap_or(0);
            if theirs.is_ok() != (n == 0) {
                continue;
            }
            let (mut out, mut text) = (vec![], vec![]);
            theirs.unwrap_or_default().iter().for_each(|(name, v)| item(number(name), v, &mut out, &mut text));
            write!(lines, "r {}\ni{}\nt {}\nD {pg} {n:x}\n", hex(&record), numbers(out.into_iter()), hex(&text)).unwrap();
            *seen.entry(format!("D {n}")).or_default() += 1;
            found += 1;
        }
        if found > 0 {
            println!("L{}\nm {}", numbers(words.iter().map(|&w| w as u64)), hex(&masks));
            print!("{lines}");
            done += found;
        }
    }
    eprintln!("{done} cases (seed {seed}): {seen:?}");
}
