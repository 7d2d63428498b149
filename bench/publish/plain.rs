//! The yardstick of the publisher: it writes the same pairs into an ordered map of the standard library, and rows into another.
//! Words: 1 where the pairs are held, and else 0, and the commits. Prints nanoseconds of all commits, and of loading the rows.
use std::collections::BTreeMap;
use std::time::Instant;

const ROWS: u64 = 5;

type Place = (u8, Vec<u8>);

fn key_of(id: u64) -> Vec<u8> {
    let mut key = 1u32.to_be_bytes().to_vec();
    key.push(1);
    key.extend_from_slice(&(id as i64).to_be_bytes());
    key
}

fn row_of(id: u64) -> Vec<u8> {
    let mut row = vec![1];
    row.extend_from_slice(&(id as i64).to_be_bytes());
    row.push(1);
    row.extend_from_slice(&7i64.to_be_bytes());
    row
}

fn number_at(bytes: &[u8], at: usize) -> i64 {
    i64::from_be_bytes(bytes[at..at + 8].try_into().unwrap())
}

fn main() {
    let words: Vec<String> = std::env::args().collect();
    let holds = words[1] == "1";
    let commits: u64 = words[2].parse().unwrap();
    let mut pairs: BTreeMap<Place, Vec<u8>> = BTreeMap::new();
    let mut shown: BTreeMap<i64, (i64, i64)> = BTreeMap::new();
    let begun = Instant::now();
    for number in 1..=commits {
        let mut batch = Vec::new();
        for i in 0..ROWS {
            let id = (number * ROWS + i).wrapping_mul(0x9e37_79b1) % (commits * ROWS + 8);
            batch.push(((5, key_of(id)), row_of(id)));
            shown.insert(id as i64, (id as i64, 7));
        }
        let mut applied = number.to_be_bytes().to_vec();
        applied.extend_from_slice(&(number + 100).to_be_bytes());
        batch.push(((6, b"A".to_vec()), applied));
        if holds {
            for (place, value) in batch {
                pairs.insert(place, value);
            }
        }
    }
    let publishing = begun.elapsed();
    let begun = Instant::now();
    let mut loaded: BTreeMap<i64, (i64, i64)> = BTreeMap::new();
    for (place, value) in pairs.range((5, Vec::new())..(6, Vec::new())) {
        let id = number_at(&place.1, 5);
        loaded.insert(id, (number_at(value, 1), number_at(value, 10)));
    }
    let loading = begun.elapsed();
    println!("{} {} {commits} {}", publishing.as_nanos(), loading.as_nanos(), loaded.len());
}
