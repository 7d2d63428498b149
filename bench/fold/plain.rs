//! A plain fold of one log, to be timed: std alone, one thread, tables changed in place, and no proofs.
//!
//!     plain FILE      prints what `sqlapply fold 1` prints of the log, or one word of a fault
//!
//! It decodes, judges and applies as the program does (docs/FORMATS.md), but tells any fault as one word and stops there:
//! it is a yardstick of speed, and no reference for what is right.

#[path = "../plain/reading.rs"]
#[allow(dead_code)]
mod reading;

use reading::{Cells, Change, Column, Fault, Kind, Op, Table, Value, Vector, Xid, decode, first};
use std::collections::hash_map::Entry;
use std::collections::{BTreeMap, HashMap};
use std::hash::{BuildHasherDefault, Hash, Hasher};
use std::io::{self, Write};

/// A small multiplicative hasher: std's own guards against hostile keys, which is not what limits a good plain program.
#[derive(Default, Clone)]
struct Fast(u64);

impl Hasher for Fast {
    fn finish(&self) -> u64 {
        self.0
    }
    fn write(&mut self, bytes: &[u8]) {
        for part in bytes.chunks(8) {
            let mut word = [0u8; 8];
            word[..part.len()].copy_from_slice(part);
            self.write_u64(u64::from_le_bytes(word));
        }
    }
    fn write_u8(&mut self, number: u8) {
        self.write_u64(number as u64)
    }
    fn write_u16(&mut self, number: u16) {
        self.write_u64(number as u64)
    }
    fn write_u32(&mut self, number: u32) {
        self.write_u64(number as u64)
    }
    fn write_usize(&mut self, number: usize) {
        self.write_u64(number as u64)
    }
    fn write_u64(&mut self, number: u64) {
        self.0 = (self.0.rotate_left(26) ^ number).wrapping_mul(0x9E37_79B9_7F4A_7C15);
    }
    fn write_i64(&mut self, number: i64) {
        self.write_u64(number as u64)
    }
}

type Map<K, V> = HashMap<K, V, BuildHasherDefault<Fast>>;

type Values = Box<[Value]>;

/// A key that a change touches: table, index among its keys, values.
#[derive(Clone, PartialEq, Eq, Hash)]
struct Key {
    table: u32,
    index: u8,
    values: Values,
}

fn cell(cells: &[(u8, Value)], column: u8) -> Option<&Value> {
    // Cells rise, so the place is mostly the column's own number.
    match cells.get(column as usize) {
        Some((found, value)) if *found == column => Some(value),
        _ => cells.iter().find(|(found, _)| *found == column).map(|(_, value)| value),
    }
}

fn key_of(columns: &[u8], first: &[(u8, Value)], then: &[(u8, Value)]) -> Option<Values> {
    columns.iter().map(|&column| cell(first, column).or_else(|| cell(then, column)).cloned()).collect()
}

fn values_of(columns: &[u8], row: &[Value]) -> Values {
    columns.iter().map(|&column| row[column as usize].clone()).collect()
}

fn has_null(values: &[Value]) -> bool {
    values.contains(&Value::Null)
}

fn mask(columns: impl Iterator<Item = u8>) -> u32 {
    columns.fold(0, |mask, column| mask | 1 << column)
}

/// The rows of a table by their primary keys, and of each unique key who owns its values.
#[derive(Default)]
struct Rows {
    rows: BTreeMap<Values, Values>,
    unique: Vec<Map<Values, Values>>,
}

impl Rows {
    fn apply(&mut self, table: &Table, change: Change) -> Result<(), Fault> {
        match change.op {
            Op::Insert => self.insert(table, change.new),
            Op::Update => self.update(table, &change.old, change.new),
            Op::Delete => self.delete(table, &change.old),
        }
    }
    fn insert(&mut self, table: &Table, new: Cells) -> Result<(), Fault> {
        let key = key_of(&table.keys[0], &new, &[]).ok_or("COLUMNS")?;
        let row: Values = new.into_iter().map(|(_, value)| value).collect();
        if self.rows.contains_key(&key) {
            return Err("EXISTS");
        }
        self.own(table, &row, &key)?;
        self.rows.insert(key, row);
        Ok(())
    }
    fn delete(&mut self, table: &Table, old: &Cells) -> Result<(), Fault> {
        let key = key_of(&table.keys[0], old, &[]).ok_or("COLUMNS")?;
        let row = self.rows.remove(&key).ok_or("ABSENT")?;
        if old.iter().any(|(column, value)| row[*column as usize] != *value) {
            return Err("DIFFERS");
        }
        self.disown(table, &row);
        Ok(())
    }
    fn update(&mut self, table: &Table, old: &Cells, new: Cells) -> Result<(), Fault> {
        let primary = &table.keys[0];
        let (one, many);
        let key: &[Value] = match primary[..] {
            [column] => {
                one = cell(old, column).ok_or("COLUMNS")?;
                std::slice::from_ref(one)
            }
            _ => {
                many = key_of(primary, old, &[]).ok_or("COLUMNS")?;
                &many
            }
        };
        let row = self.rows.get_mut(key).ok_or("ABSENT")?;
        if old.iter().any(|(column, value)| row[*column as usize] != *value) {
            return Err("DIFFERS");
        }
        if self.unique.is_empty() && !new.iter().any(|(column, _)| primary.contains(column)) {
            for (column, value) in new {
                row[column as usize] = value;
            }
            return Ok(());
        }
        let before = row.clone();
        let mut after = before.clone();
        let moved = key_of(primary, &new, old).ok_or("COLUMNS")?;
        for (column, value) in new {
            after[column as usize] = value;
        }
        if *moved != *key && self.rows.contains_key(&moved) {
            return Err("EXISTS");
        }
        self.rows.remove(key);
        self.disown(table, &before);
        self.own(table, &after, &moved)?;
        self.rows.insert(moved, after);
        Ok(())
    }
    fn own(&mut self, table: &Table, row: &[Value], key: &[Value]) -> Result<(), Fault> {
        for (owners, columns) in self.unique.iter_mut().zip(&table.keys[1..]) {
            let values = values_of(columns, row);
            if !has_null(&values) && owners.insert(values, key.into()).is_some() {
                return Err("TAKEN");
            }
        }
        Ok(())
    }
    fn disown(&mut self, table: &Table, row: &[Value]) {
        for (owners, columns) in self.unique.iter_mut().zip(&table.keys[1..]) {
            owners.remove(&values_of(columns, row));
        }
    }
}

fn fits(column: &Column, value: &Value) -> bool {
    match (value, column.kind) {
        (Value::Null, _) => column.nullable,
        (Value::Number(_), Kind::Number) => true,
        (Value::Text(bytes), Kind::Text(size)) | (Value::Raw(bytes), Kind::Raw(size)) => bytes.len() <= size as usize,
        _ => false,
    }
}

fn check_change(table: &Table, change: &Change) -> Result<(), Fault> {
    let count = table.columns.len();
    let beyond = |cells: &Cells| cells.last().is_some_and(|(column, _)| *column as usize >= count);
    let wrong = match change.op {
        Op::Insert => !change.old.is_empty() || change.new.len() != count,
        Op::Update => change.new.is_empty(),
        Op::Delete => !change.new.is_empty() || change.old.len() != count,
    };
    if beyond(&change.old) || beyond(&change.new) || wrong {
        return Err("COLUMNS");
    }
    if change.old.iter().chain(&change.new).any(|(column, value)| !fits(&table.columns[*column as usize], value)) {
        return Err("TYPES");
    }
    if change.op == Op::Update {
        let set = mask(change.new.iter().map(|(column, _)| *column));
        let mut want = set | mask(table.keys[0].iter().copied());
        for key in &table.keys[1..] {
            let key = mask(key.iter().copied());
            if key & set != 0 {
                want |= key;
            }
        }
        if mask(change.old.iter().map(|(column, _)| *column)) != want {
            return Err("SUPPLEMENT");
        }
    }
    Ok(())
}

/// Each key that the change touches.
fn touches(table: &Table, change: &Change, mut touch: impl FnMut(Key)) {
    let set = mask(change.new.iter().map(|(column, _)| *column));
    for (index, columns) in table.keys.iter().enumerate() {
        let is_set = mask(columns.iter().copied()) & set != 0;
        if change.op == Op::Update && index > 0 && !is_set {
            continue;
        }
        let mut put = |values: Option<Values>| match values {
            Some(values) if index == 0 || !has_null(&values) => {
                touch(Key { table: change.table, index: index as u8, values })
            }
            _ => {}
        };
        match change.op {
            Op::Insert => put(key_of(columns, &change.new, &[])),
            Op::Delete => put(key_of(columns, &change.old, &[])),
            Op::Update => {
                let old = key_of(columns, &change.old, &[]);
                let new = key_of(columns, &change.new, &change.old);
                if is_set && new != old {
                    put(new);
                }
                put(old);
            }
        }
    }
}

#[derive(Default)]
struct Fold {
    tables: BTreeMap<u32, (Table, Rows)>,
    whole: bool,
    open: Map<Xid, Vec<Change>>,
    locks: Map<Key, (Xid, u32)>,
    scn: u64,
    commits: u64,
}

impl Fold {
    fn log(&mut self, log: &[u8]) -> Result<(), Fault> {
        let long = |at: usize| u64::from_be_bytes(log[at..at + 8].try_into().unwrap());
        if log.len() < 40 || !log.starts_with(b"SRL1\x00\x01\x00\x01") {
            return Err("HEADER");
        }
        let (low, next) = (long(16), long(24));
        let count = u32::from_be_bytes(log[32..36].try_into().unwrap());
        let mut left = &log[40..];
        let mut last = low;
        self.scn = low.wrapping_sub(1);
        for _ in 0..count {
            let size = first(left)?.ok_or("TRUNCATED")?;
            let record = decode(&left[..size])?;
            left = &left[size..];
            if record.scn < last || record.scn >= next {
                return Err("SCN");
            }
            last = record.scn;
            let alone = record.vectors.len() == 1;
            for vector in record.vectors {
                self.vector(record.scn, alone, vector)?;
            }
        }
        if left.is_empty() { Ok(()) } else { Err("TRAILING") }
    }
    fn vector(&mut self, scn: u64, alone: bool, vector: Vector) -> Result<(), Fault> {
        if matches!(vector, Vector::Table(_) | Vector::DictEnd) == self.whole {
            return Err("DICTIONARY");
        }
        match vector {
            Vector::Table(table) => {
                let rows = Rows { rows: BTreeMap::new(), unique: table.keys[1..].iter().map(|_| Map::default()).collect() };
                if self.tables.insert(table.id, (table, rows)).is_some() {
                    return Err("TWICE");
                }
            }
            Vector::DictEnd => self.whole = true,
            Vector::Start(xid) => {
                if self.open.insert(xid, Vec::new()).is_some() {
                    return Err("OPENTWICE");
                }
            }
            Vector::Change(xid, change) => self.change(xid, change)?,
            Vector::Undo(xid) => {
                let change = self.open.get_mut(&xid).ok_or("NOTOPEN")?.pop().ok_or("NOTHING")?;
                self.unlock(&change);
            }
            Vector::Commit(xid) => {
                let changes = self.ended(xid, alone)?;
                if scn <= self.scn && self.commits > 0 {
                    return Err("SCN");
                }
                for change in changes {
                    let (table, rows) = self.tables.get_mut(&change.table).ok_or("NOTABLE")?;
                    rows.apply(table, change)?;
                }
                self.commits += 1;
                self.scn = scn;
            }
            Vector::Rollback(xid) => {
                self.ended(xid, alone)?;
            }
        }
        Ok(())
    }
    fn change(&mut self, xid: Xid, change: Change) -> Result<(), Fault> {
        let changes = self.open.get_mut(&xid).ok_or("NOTOPEN")?;
        let (table, _) = self.tables.get(&change.table).ok_or("NOTABLE")?;
        check_change(table, &change)?;
        let locks = &mut self.locks;
        let mut is_held = false;
        touches(table, &change, |key| {
            let (holder, times) = locks.entry(key).or_insert((xid, 0));
            is_held |= *holder != xid;
            *times += 1;
        });
        changes.push(change);
        if is_held { Err("LOCK") } else { Ok(()) }
    }
    /// The changes of a transaction that ends, whose keys are let go.
    fn ended(&mut self, xid: Xid, alone: bool) -> Result<Vec<Change>, Fault> {
        let changes = self.open.remove(&xid).ok_or("NOTOPEN")?;
        if !alone {
            return Err("ALONE");
        }
        for change in &changes {
            self.unlock(change);
        }
        Ok(changes)
    }
    fn unlock(&mut self, change: &Change) {
        let locks = &mut self.locks;
        touches(&self.tables[&change.table].0, change, |key| {
            if let Entry::Occupied(mut entry) = locks.entry(key) {
                entry.get_mut().1 -= 1;
                if entry.get().1 == 0 {
                    entry.remove();
                }
            }
        });
    }
    fn print(&self, out: &mut impl Write) -> io::Result<()> {
        writeln!(out, "APPLIED_SCN {}", self.scn)?;
        for (table, rows) in self.tables.values() {
            out.write_all(b"TABLE ")?;
            out.write_all(&table.schema)?;
            out.write_all(b".")?;
            out.write_all(&table.name)?;
            writeln!(out, " {}", rows.rows.len())?;
            for row in rows.rows.values() {
                out.write_all(b"ROW")?;
                for value in row.iter() {
                    out.write_all(b" ")?;
                    literal(out, value)?;
                }
                out.write_all(b"\n")?;
            }
        }
        writeln!(out, "END {} {} DRAINED", self.scn, self.commits)
    }
}

fn literal(out: &mut impl Write, value: &Value) -> io::Result<()> {
    match value {
        Value::Null => out.write_all(b"NULL"),
        Value::Number(number) => write!(out, "{number}"),
        Value::Text(text) if text.iter().any(|byte| *byte < 0x20 || *byte == 0x7f) => pairs(out, b"U'", text),
        Value::Text(text) => {
            out.write_all(b"'")?;
            for (place, part) in text.split(|byte| *byte == b'\'').enumerate() {
                if place > 0 {
                    out.write_all(b"''")?;
                }
                out.write_all(part)?;
            }
            out.write_all(b"'")
        }
        Value::Raw(bytes) => pairs(out, b"X'", bytes),
    }
}

fn pairs(out: &mut impl Write, front: &[u8], bytes: &[u8]) -> io::Result<()> {
    out.write_all(front)?;
    for byte in bytes {
        write!(out, "{byte:02X}")?;
    }
    out.write_all(b"'")
}

fn main() -> io::Result<()> {
    let file = std::env::args().nth(1).expect("plain FILE");
    let log = std::fs::read(file)?;
    let mut fold = Fold::default();
    let mut out = io::BufWriter::with_capacity(1 << 16, io::stdout().lock());
    match fold.log(&log) {
        Ok(()) => fold.print(&mut out)?,
        Err(fault) => writeln!(out, "{fault}")?,
    }
    out.flush()
}
