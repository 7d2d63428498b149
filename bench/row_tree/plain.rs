//! The yardstick of the tree of rows: an ordered map of the standard library, which is written in place.
//! Words: what to time (fill, put, get or walk), the rows, and how many times. Prints nanoseconds of each.
use std::collections::BTreeMap;
use std::time::Instant;

#[derive(Clone, PartialEq, Eq, PartialOrd, Ord)]
#[allow(dead_code)]
enum Value {
    Null,
    Number(i64),
    Text(Vec<u8>),
    Raw(Vec<u8>),
}

type Row = Vec<Value>;

fn key_of(n: u64) -> Row {
    vec![Value::Number(n as i64)]
}

fn row_of(n: u64) -> Row {
    vec![Value::Number(n as i64), Value::Number(7)]
}

fn spread(i: u64, span: u64) -> u64 {
    i.wrapping_mul(0x9e37_79b9_7f4a_7c15).wrapping_add(i >> 7) % span.max(1)
}

fn filled(span: u64) -> BTreeMap<Row, Row> {
    let mut map = BTreeMap::new();
    for i in 0..span {
        let n = i.wrapping_mul(0x9e37_79b1) % span.max(1);
        map.insert(key_of(n), row_of(n));
    }
    map
}

fn main() {
    let words: Vec<String> = std::env::args().collect();
    let what = words[1].as_str();
    let span: u64 = words[2].parse().unwrap();
    let count: u64 = words[3].parse().unwrap();
    let begun = Instant::now();
    let mut map = filled(span);
    let filling = begun.elapsed();
    let begun = Instant::now();
    let mut seen = 0u64;
    match what {
        "put" => {
            for i in 0..count {
                let n = spread(i, span);
                map.insert(key_of(n), row_of(n));
            }
        }
        "get" => {
            for i in 0..count {
                seen += map.contains_key(&key_of(spread(i, span))) as u64;
            }
        }
        "walk" => {
            for _ in 0..count {
                for row in map.values() {
                    seen += row.len() as u64;
                }
            }
        }
        _ => {}
    }
    let took = begun.elapsed();
    let each = match what {
        "fill" => filling.as_nanos() as f64 / span as f64,
        "walk" => took.as_nanos() as f64 / (count * span) as f64,
        _ => took.as_nanos() as f64 / count as f64,
    };
    println!("{each:.1} {seen}");
}
