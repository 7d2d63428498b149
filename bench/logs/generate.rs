//! Writes logs to be timed, each as one file of the archived form (docs/FORMATS.md), over the table HR.EMP.
//!
//!     generate usual TRANSACTIONS FILE      START, four changes and COMMIT for each, a record for each vector
//!     generate unique TRANSACTIONS FILE     the same, with NAME as a unique key that each UPDATE sets too
//!     generate together CHANGES FILE        one transaction of so many changes, a record for each vector
//!     generate updates TRANSACTIONS FILE    1,000 rows, and then START, four updates of them and COMMIT for each, a record for each vector
//!     generate wide RECORDS FILE            records of 65,536 bytes, each with 255 INSERTs; to be decoded alone, not to be folded
//!
//! The same words give the same bytes. Logs of `usual`, `unique`, `together` and `updates` are lawful: each change fits the rows before it.

use std::collections::HashMap;

const HEADER: usize = 40;
const ID: u8 = 0;
const NAME: u8 = 1;
const PAY: u8 = 2;
const NOTE: u8 = 3;

#[derive(Clone)]
enum Value {
    Null,
    Number(i64),
    Text(Vec<u8>),
}

/// Values of the four columns, by their numbers.
type Row = [Value; 4];

#[derive(Clone, Copy)]
struct Xid {
    usn: u16,
    slot: u16,
    sqn: u32,
}

/// A log as it grows: its bytes behind the header, how many records they are, the SCN of the last one, and whether NAME is
/// a unique key.
struct Log {
    bytes: Vec<u8>,
    count: u32,
    scn: u64,
    unique: bool,
}

fn put_value(out: &mut Vec<u8>, value: &Value) {
    match value {
        Value::Null => out.push(0),
        Value::Number(number) => {
            out.push(1);
            out.extend_from_slice(&number.to_be_bytes());
        }
        Value::Text(text) => {
            out.push(2);
            out.extend_from_slice(&(text.len() as u16).to_be_bytes());
            out.extend_from_slice(text);
        }
    }
}

fn put_cells(out: &mut Vec<u8>, row: &Row, columns: &[u8]) {
    out.push(columns.len() as u8);
    for column in columns {
        out.push(*column);
        put_value(out, &row[*column as usize]);
    }
}

fn put_name(out: &mut Vec<u8>, name: &[u8]) {
    out.push(name.len() as u8);
    out.extend_from_slice(name);
}

fn put_xid(out: &mut Vec<u8>, kind: u8, xid: Xid) {
    out.push(kind);
    out.extend_from_slice(&xid.usn.to_be_bytes());
    out.extend_from_slice(&xid.slot.to_be_bytes());
    out.extend_from_slice(&xid.sqn.to_be_bytes());
}

/// A change of table 1: its kind, its transaction, and the cells before and after.
fn put_change(out: &mut Vec<u8>, kind: u8, xid: Xid, old: (&Row, &[u8]), new: (&Row, &[u8])) {
    put_xid(out, kind, xid);
    out.extend_from_slice(&1u32.to_be_bytes());
    put_cells(out, old.0, old.1);
    put_cells(out, new.0, new.1);
}

const ALL: &[u8] = &[ID, NAME, PAY, NOTE];
const NONE: &[u8] = &[];

fn put_insert(out: &mut Vec<u8>, xid: Xid, row: &Row) {
    put_change(out, 2, xid, (row, NONE), (row, ALL));
}

fn put_update(out: &mut Vec<u8>, xid: Xid, old: &Row, new: &Row, set: &[u8]) {
    let logged: Vec<u8> = [ID].iter().chain(set).copied().collect();
    put_change(out, 3, xid, (old, &logged), (new, set));
}

fn put_delete(out: &mut Vec<u8>, xid: Xid, row: &Row) {
    put_change(out, 4, xid, (row, ALL), (row, NONE));
}

impl Log {
    fn new() -> Log {
        Log { bytes: vec![0; HEADER], count: 0, scn: 0, unique: false }
    }

    /// A log with NAME as a unique key.
    fn with_unique() -> Log {
        Log { unique: true, ..Log::new() }
    }

    /// The columns that an UPDATE sets.
    fn set(&self) -> &'static [u8] {
        if self.unique { &[NAME, PAY, NOTE] } else { &[PAY, NOTE] }
    }

    /// A row of this id after so many updates; what it holds follows from the two alone.
    fn row_of(&self, id: i64, times: u32) -> Row {
        let mut row = row_of(id, times);
        if self.unique {
            row[NAME as usize] = Value::Text(format!("EMPLOYEE {id} {times}").into_bytes());
        }
        row
    }

    /// One more record of so many vectors, at the next SCN.
    fn record(&mut self, vectors: u16, body: impl FnOnce(&mut Vec<u8>)) {
        let at = self.bytes.len();
        self.scn += 1;
        self.count += 1;
        self.bytes.extend_from_slice(&[0; 4]);
        self.bytes.extend_from_slice(&self.scn.to_be_bytes());
        self.bytes.extend_from_slice(&vectors.to_be_bytes());
        body(&mut self.bytes);
        let length = (self.bytes.len() - at) as u32;
        self.bytes[at..at + 4].copy_from_slice(&length.to_be_bytes());
    }

    /// The dictionary: HR.EMP with ID and PAY, numbers, NAME and NOTE, texts of up to 30 and 300 bytes; ID is the
    /// primary key. PAY and NOTE may be Null.
    fn dictionary(&mut self) {
        let keys: &[u8] = if self.unique { &[1, ID, 1, 1, NAME] } else { &[1, ID, 0] };
        self.record(2, |out| {
            out.push(8);
            out.extend_from_slice(&1u32.to_be_bytes());
            put_name(out, b"HR");
            put_name(out, b"EMP");
            out.push(4);
            for (name, kind, size, nullable) in
                [(&b"ID"[..], 1u8, 0u16, 0u8), (b"NAME", 2, 30, 0), (b"PAY", 1, 0, 1), (b"NOTE", 2, 300, 1)]
            {
                put_name(out, name);
                out.push(kind);
                out.extend_from_slice(&size.to_be_bytes());
                out.push(nullable);
            }
            out.extend_from_slice(keys);
            out.push(9);
        });
    }

    fn plain(&mut self, kind: u8, xid: Xid) {
        self.record(1, |out| put_xid(out, kind, xid));
    }

    fn finish(mut self) -> Vec<u8> {
        self.bytes[..4].copy_from_slice(b"SRL1");
        self.bytes[4..8].copy_from_slice(&[0, 1, 0, 1]);
        self.bytes[8..12].copy_from_slice(&9u32.to_be_bytes());
        self.bytes[12..16].copy_from_slice(&1u32.to_be_bytes());
        self.bytes[16..24].copy_from_slice(&1u64.to_be_bytes());
        self.bytes[24..32].copy_from_slice(&(self.scn + 1).to_be_bytes());
        self.bytes[32..36].copy_from_slice(&self.count.to_be_bytes());
        self.bytes
    }
}

/// A row of this id after so many updates; what it holds follows from the two alone.
fn row_of(id: i64, times: u32) -> Row {
    let pay = if id % 10 == 0 { Value::Null } else { Value::Number(1000 + id % 977 + times as i64) };
    let note = if (id + times as i64) % 5 == 0 {
        Value::Null
    } else {
        Value::Text(format!("note {times} of employee {id}, as it was told").into_bytes())
    };
    [Value::Number(id), Value::Text(format!("EMPLOYEE {id}").into_bytes()), pay, note]
}

/// Rows by id: how often each was updated.
type Rows = HashMap<i64, u32>;

/// The next change: of four in a row, two INSERTs, an UPDATE and a DELETE, each of a row of its own.
fn change(log: &mut Log, rows: &mut Rows, xid: Xid, number: u64) {
    let four = number / 4;
    match number % 4 {
        0 => insert(log, rows, xid, 2 * four as i64 + 1),
        1 => insert(log, rows, xid, 2 * four as i64 + 2),
        // Odd ids stay and are updated, in no order of their places; even ids go four changes later.
        2 => update(log, rows, xid, 2 * ((four * 7919) % (four + 1)) as i64 + 1),
        _ if four == 0 => insert(log, rows, xid, 0),
        _ => delete(log, rows, xid, 2 * four as i64),
    }
}

fn insert(log: &mut Log, rows: &mut Rows, xid: Xid, id: i64) {
    rows.insert(id, 0);
    let row = log.row_of(id, 0);
    log.record(1, |out| put_insert(out, xid, &row));
}

fn update(log: &mut Log, rows: &mut Rows, xid: Xid, id: i64) {
    let times = rows.get_mut(&id).expect("a row that was put");
    *times += 1;
    let (old, new, set) = (log.row_of(id, *times - 1), log.row_of(id, *times), log.set());
    log.record(1, |out| put_update(out, xid, &old, &new, set));
}

fn delete(log: &mut Log, rows: &mut Rows, xid: Xid, id: i64) {
    let times = rows.remove(&id).expect("a row that was put");
    let row = log.row_of(id, times);
    log.record(1, |out| put_delete(out, xid, &row));
}

fn usual(mut log: Log, transactions: u32) -> Vec<u8> {
    let mut rows = Rows::new();
    log.dictionary();
    for number in 0..transactions {
        let xid = Xid { usn: 1, slot: (number % 64) as u16, sqn: 1 + number / 64 };
        log.plain(1, xid);
        for place in 0..4 {
            change(&mut log, &mut rows, xid, 4 * number as u64 + place);
        }
        log.plain(6, xid);
    }
    log.finish()
}

fn together(changes: u32) -> Vec<u8> {
    let mut log = Log::new();
    let mut rows = Rows::new();
    let xid = Xid { usn: 1, slot: 1, sqn: 1 };
    log.dictionary();
    log.plain(1, xid);
    for number in 0..changes {
        change(&mut log, &mut rows, xid, number as u64);
    }
    log.plain(6, xid);
    log.finish()
}

fn updates(transactions: u32) -> Vec<u8> {
    const ROWS: u64 = 1000;
    let mut log = Log::new();
    let mut rows = Rows::new();
    let first = Xid { usn: 2, slot: 1, sqn: 1 };
    log.dictionary();
    log.plain(1, first);
    for id in 0..ROWS {
        insert(&mut log, &mut rows, first, id as i64);
    }
    log.plain(6, first);
    for number in 0..transactions {
        let xid = Xid { usn: 1, slot: (number % 64) as u16, sqn: 1 + number / 64 };
        log.plain(1, xid);
        for place in 0..4 {
            update(&mut log, &mut rows, xid, ((4 * number as u64 + place) * 7919 % ROWS) as i64);
        }
        log.plain(6, xid);
    }
    log.finish()
}

fn wide(records: u32) -> Vec<u8> {
    let mut log = Log::new();
    let xid = Xid { usn: 1, slot: 1, sqn: 1 };
    // 14 bytes before the vectors; 254 of 257 bytes, and the last takes what is left of 65,536.
    let fixed = 1 + 8 + 4 + 1 + 1 + (1 + 9) + (1 + 3) + (1 + 9) + (1 + 3);
    for number in 0..records {
        log.record(255, |out| {
            for vector in 0..255u32 {
                let size = if vector < 254 { 257 } else { 65536 - 14 - 254 * 257 };
                let name = format!("EMPLOYEE {:08}", (255 * number + vector) % 100_000_000);
                let note = vec![b'A' + (vector % 26) as u8; size - fixed - name.len()];
                let id = (255 * number + vector) as i64;
                let row = [Value::Number(id), Value::Text(name.into_bytes()), Value::Number(7 * id), Value::Text(note)];
                put_insert(out, xid, &row);
            }
        });
    }
    log.finish()
}

fn main() {
    let words: Vec<String> = std::env::args().skip(1).collect();
    let [what, count, file] = &words[..] else {
        panic!("generate usual|unique|together|updates|wide COUNT FILE");
    };
    let count: u32 = count.parse().expect("a count");
    let bytes = match what.as_str() {
        "usual" => usual(Log::new(), count),
        "unique" => usual(Log::with_unique(), count),
        "together" => together(count),
        "updates" => updates(count),
        "wide" => wide(count),
        _ => panic!("usual, unique, together, updates or wide"),
    };
    std::fs::write(file, bytes).expect("the file is written");
}
