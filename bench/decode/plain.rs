//! Cuts a log into records and decodes each, in plain Rust, to be timed.
//!
//!     plain FILE ROUNDS      prints a line for each round: nanoseconds over the bytes as they stand, nanoseconds over
//!                            pieces of 65,536 bytes whose records are copied out, records, vectors

#[path = "../plain/reading.rs"]
#[allow(dead_code)]
mod reading;

use reading::{Fault, decode, first};
use std::time::Instant;

fn in_place(log: &[u8], count: u32) -> Result<(u64, u64), Fault> {
    let mut left = &log[40..];
    let mut vectors = 0;
    for _ in 0..count {
        let size = first(left)?.ok_or("TRUNCATED")?;
        vectors += decode(&left[..size])?.vectors.len() as u64;
        left = &left[size..];
    }
    if left.is_empty() { Ok((count as u64, vectors)) } else { Err("TRAILING") }
}

fn in_pieces(log: &[u8], count: u32) -> Result<(u64, u64), Fault> {
    let mut waiting: Vec<u8> = Vec::new();
    let mut cut = 0;
    let mut vectors = 0;
    for piece in log[40..].chunks(65536) {
        waiting.extend_from_slice(piece);
        let mut records: Vec<Box<[u8]>> = Vec::new();
        let mut used = 0;
        while let Some(size) = first(&waiting[used..])? {
            records.push(waiting[used..used + size].into());
            used += size;
        }
        waiting.drain(..used);
        cut += records.len() as u64;
        for record in &records {
            vectors += decode(record)?.vectors.len() as u64;
        }
    }
    if cut == count as u64 && waiting.is_empty() { Ok((cut, vectors)) } else { Err("TRAILING") }
}

fn main() {
    let words: Vec<String> = std::env::args().skip(1).collect();
    let log = std::fs::read(&words[0]).expect("a log");
    let rounds: u32 = words[1].parse().expect("a number of rounds");
    let count = u32::from_be_bytes(log[32..36].try_into().unwrap());
    for _ in 0..rounds {
        let start = Instant::now();
        let (records, vectors) = in_place(&log, count).expect("a good log");
        let place = start.elapsed().as_nanos();
        let start = Instant::now();
        let found = in_pieces(&log, count).expect("a good log");
        let pieces = start.elapsed().as_nanos();
        assert_eq!(found, (records, vectors));
        println!("{place} {pieces} {records} {vectors}");
    }
}
