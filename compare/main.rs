//! Runs the port's leaves and the Rust on the same inputs and compares the answers: every value read, every byte written and not written,
//! and whether it is refused. `compare CASES SEED RECORDS`. Where a change request decides, the port is held to a model of it instead. A difference is counted under
//! the rule of docs/DIFFERENCES.md that names it; any other one fails the run, and the smallest input that shows it is printed.

mod cases;
mod check;
mod convert;
mod embedded;
mod halves;
mod records;
mod store;
mod trips;
mod windows;

use check::Tally;
use std::time::Instant;

fn main() {
    let args: Vec<String> = std::env::args().collect();
    if args.get(1).map_or(false, |s| s == "store") {
        let number = |i: usize, or: u64| args.get(i).and_then(|s| s.parse().ok()).unwrap_or(or);
        return store::store(number(2, 6000), number(3, 1));
    }
    let cases: u64 = args.get(1).and_then(|s| s.parse().ok()).unwrap_or(1_200_000);
    let seed: u64 = args.get(2).and_then(|s| s.parse().ok()).unwrap_or(1);
    let records: u64 = args.get(3).and_then(|s| s.parse().ok()).unwrap_or(cases / 10);
    let start = Instant::now();
    let mut tally = Tally::default();
    let step = |name: &str, t: &Tally| eprintln!("{:>8.1} s  {:<28} {:>9} cases so far", start.elapsed().as_secs_f64(), name, t.cases());
    check::tables(&mut tally);
    cases::read_short(&mut tally);
    step("all short fields read", &tally);
    cases::write_short(&mut tally);
    step("all small values written", &tally);
    embedded::random(&mut tally, 400_000, seed);
    step("signed Embedded Ints", &tally);
    cases::rounding(&mut tally, 250_000, seed);
    step("scales lost, floats rounded", &tally);
    halves::random(&mut tally, 400_000, seed);
    step("floats of 16 bits", &tally);
    let left = cases.saturating_sub(tally.cases());
    cases::random(&mut tally, left.max(200_000), seed);
    step("random fields", &tally);
    records::random(&mut tally, records, seed);
    step("whole records and lists", &tally);
    trips::random(&mut tally, records, seed);
    step("plain layouts, fitting lists", &tally);
    windows::random(&mut tally, records.max(200_000), seed);
    step("windows", &tally);
    convert::random(&mut tally, records.max(200_000), seed);
    step("records converted", &tally);
    if !tally.print(cases, seed) {
        std::process::exit(1);
    }
}
