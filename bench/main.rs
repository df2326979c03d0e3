//! Decodes and encodes records of three shapes by the port and by the Rust, on the same inputs, and prints records a second, nanoseconds a byte and the
//! ratio. Both answers are compared first. Rounds alternate between the two, and each figure is the best round's.
#![allow(dead_code)]

#[path = "../compare/cases.rs"]
mod cases;
#[path = "../compare/check.rs"]
mod check;
#[path = "../compare/embedded.rs"]
mod embedded;
#[path = "../compare/halves.rs"]
mod halves;
#[path = "../compare/records.rs"]
mod records;

use check::{page, Kind};
use records::{ff_decode_record, ff_encode_record, Entry};
use rust::{decode, encode, Layout};
use std::hint::black_box;
use std::time::Instant;

const ROUNDS: usize = 15;

fn kind(kind: u32, p: u32, q: u32, r: u32, s: u32) -> Kind {
    Kind { kind, p, q, r, s, mask: vec![] }
}

fn entry(name: u32, offset: u32, width: u32, kind: Kind) -> Entry {
    Entry { name, offset, width, kind, occurs: None, depending: None, members: vec![] }
}

fn table(mut e: Entry, occurs: u32) -> Entry {
    e.occurs = Some(occurs);
    e
}

const TEXT: (u32, u32, u32, u32, u32) = (0, 0, 1, 32, 0);
const PACKED: (u32, u32, u32, u32, u32) = (7, 1, 1, 2, 0);
const DISPLAY: (u32, u32, u32, u32, u32) = (7, 0, 0, 2, 0);
const INT: (u32, u32, u32, u32, u32) = (1, 0, 0, 0, 0);
const BINARY: (u32, u32, u32, u32, u32) = (2, 0, 1, 0, 0);

fn of(k: (u32, u32, u32, u32, u32)) -> Kind {
    kind(k.0, k.1, k.2, k.3, k.4)
}

fn packed(n: u64, width: usize, minus: bool) -> Vec<u8> {
    let digits = format!("{:0>1$}", n, 2 * width - 1);
    let mut nibbles: Vec<u8> = digits.bytes().map(|d| d - b'0').collect();
    nibbles.push(if minus { 0xD } else { 0xC });
    nibbles.chunks(2).map(|x| x[0] << 4 | x[1]).collect()
}

struct Shape {
    name: &'static str,
    page: u32,
    entries: Vec<Entry>,
    record: Vec<u8>,
}

/// 120 bytes on page 1: ten texts of 8 and ten packed numbers of 4.
fn tally() -> Shape {
    let (mut entries, mut record) = (vec![], vec![]);
    for i in 0..10u32 {
        entries.push(entry(2 * i, 12 * i, 8, of(TEXT)));
        entries.push(entry(2 * i + 1, 12 * i + 8, 4, of(PACKED)));
        let text = format!("{:<8}", ["LENS", "BLANK-7", "PRISM", "COATING", "AR", "EDGE", "FRAME-12", "TINT", "POLISH", "BOX"][i as usize]);
        record.extend(rust::ebcdic::encode_slice(text.as_bytes()));
        record.extend(packed(100 + 98_765 * i as u64, 4, i % 3 == 0));
    }
    Shape { name: "tally, 20 fields, page 1", page: 1, entries, record }
}

/// 4,096 bytes on page 0: a head, and 16 groups of a text, a number, a packed table, a binary table and a printed-digits table.
fn tables() -> Shape {
    let member = vec![
        entry(3, 0, 15, of(TEXT)),
        entry(4, 15, 4, of(INT)),
        table(entry(5, 19, 4, of(PACKED)), 20),
        table(entry(6, 99, 4, of(BINARY)), 19),
        table(entry(7, 175, 8, of(DISPLAY)), 10),
    ];
    let mut group = table(entry(2, 16, 255, kind(9, 0, 0, 0, 0)), 16);
    group.members = member;
    let entries = vec![entry(0, 0, 10, of(TEXT)), entry(1, 10, 6, of(INT)), group];
    let mut record = b"JOB-00001 000042".to_vec();
    for i in 0..16u64 {
        record.extend(format!("{:<15}{:04}", format!("LENS {i}"), i * 37).bytes());
        (0..20).for_each(|j| record.extend(packed(j * 4_711 + i, 4, j % 4 == 1)));
        (0..19).for_each(|j| record.extend(((j as i32 - 9) * 65_537).to_be_bytes()));
        (0..10).for_each(|j| record.extend(format!("{:08}", j * 123_457 + i).bytes()));
    }
    Shape { name: "groups of tables, page 0", page: 0, entries, record }
}

fn single() -> Shape {
    Shape { name: "one packed field", page: 0, entries: vec![entry(0, 0, 5, of(PACKED))], record: packed(1_234_567, 5, true) }
}

/// Seconds for one call, the best of the rounds; `f` and `g` take turns.
fn race(mut f: impl FnMut(), mut g: impl FnMut()) -> (f64, f64) {
    let time = |h: &mut dyn FnMut(), n: u64| {
        let start = Instant::now();
        (0..n).for_each(|_| h());
        start.elapsed().as_secs_f64()
    };
    let mut calls = 64;
    while time(&mut g, calls) < 0.02 {
        calls *= 2;
    }
    let (mut best_f, mut best_g) = (f64::MAX, f64::MAX);
    for _ in 0..ROUNDS {
        best_f = best_f.min(time(&mut f, calls) / calls as f64);
        best_g = best_g.min(time(&mut g, calls) / calls as f64);
    }
    (best_f, best_g)
}

fn main() {
    let goal: f64 = std::env::args().nth(1).and_then(|s| s.parse().ok()).unwrap_or(0.0);
    println!("{:<28} {:<7} {:>6} {:>14} {:>14} {:>9} {:>9} {:>7}", "record", "call", "bytes", "port, rec/s", "Rust, rec/s", "ns/byte", "ns/byte", "ratio");
    let mut below = false;
    for shape in [tally(), tables(), single()] {
        let (mut words, mut masks) = (vec![], vec![]);
        shape.entries.iter().for_each(|e| e.words(&mut words, &mut masks));
        let layout = Layout::from_fields(shape.entries.iter().map(|e| e.field()).collect()).unwrap();
        let values = decode::decode_record(&layout, &shape.record, page(shape.page)).unwrap();
        let mut counts = vec![0i64; words.len() / 6];
        // buffers of just the size that the record needs: nothing is left to clear behind the items, and the counts and the record are cleared
        let (mut items, mut text) = (vec![0u64; 65_536], vec![0u8; 65_536]);
        let (mut a, mut b) = (0u64, 0u64);
        let read = |items: &mut [u64], text: &mut [u8], counts: &mut [i64], a: &mut u64, b: &mut u64| unsafe {
            ff_decode_record(
                words.as_ptr(), words.len(), masks.as_ptr(), masks.len(), shape.page, shape.record.as_ptr(), shape.record.len(), items.as_mut_ptr(), items.len(), text.as_mut_ptr(), text.len(),
                counts.as_mut_ptr(), counts.len(), a, b,
            )
        };
        assert_eq!(read(&mut items, &mut text, &mut counts, &mut a, &mut b), 0);
        items.truncate(a as usize);
        text.truncate(b as usize);
        let mut record = vec![0u8; shape.record.len()];
        let mut length = 0u64;
        let write = |record: &mut [u8], counts: &mut [i64], length: &mut u64, items: &[u64], text: &[u8]| unsafe {
            ff_encode_record(
                words.as_ptr(), words.len(), masks.as_ptr(), masks.len(), shape.page, items.as_ptr(), items.len(), text.as_ptr(), text.len(), record.as_mut_ptr(), record.len(), counts.as_mut_ptr(),
                counts.len(), length,
            )
        };
        assert_eq!(write(&mut record, &mut counts, &mut length, &items, &text), 0);
        assert_eq!(record, shape.record);
        assert_eq!(encode::encode_record(&layout, &values, page(shape.page)).unwrap(), shape.record);
        let (list, said) = (items.clone(), text.clone());
        let decoded = race(
            || assert_eq!(read(black_box(&mut items), &mut text, &mut counts, &mut a, &mut b), 0),
            || drop(black_box(decode::decode_record(&layout, black_box(&shape.record), page(shape.page)))),
        );
        let mut counts = vec![0i64; words.len() / 6];
        let encoded = race(
            || assert_eq!(write(black_box(&mut record), &mut counts, &mut length, &list, &said), 0),
            || drop(black_box(encode::encode_record(&layout, black_box(&values), page(shape.page)))),
        );
        for (call, (port, theirs)) in [("decode", decoded), ("encode", encoded)] {
            let n = shape.record.len() as f64;
            println!(
                "{:<28} {:<7} {:>6} {:>14.0} {:>14.0} {:>9.3} {:>9.3} {:>7.2}",
                shape.name, call, n, 1.0 / port, 1.0 / theirs, port * 1e9 / n, theirs * 1e9 / n, theirs / port
            );
            below |= theirs / port < goal;
        }
    }
    println!("buffers as long as the record needs; the port's calls judge the layout, clear the counts and, writing, the record each time");
    if below {
        println!("below the goal of {goal} times the Rust");
        std::process::exit(1);
    }
}
