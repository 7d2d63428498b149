//! Loads stores that are changed by chance, and tests what is told of each: the counts of its state, that nothing is kept, or the
//! first bad key. What has to be told says a model of its own, made from the format's rules alone.
//!
//!     stores PROGRAM SEED COUNT      PROGRAM reads stores, and prints a line for each
//!
//! Each store is one of a standby, drawn by chance: logs, tables with unique keys, rules, up to 400 rows, and mostly a mark. One
//! in eight stays so, and must be an image with all of its parts; the others get one to three changes: a byte of a key or a
//! value, a field at a limit, a pair dropped, or put again under another key or in another area, a value cut or made longer,
//! values exchanged, a row under a free key, an area dropped. Some stores have more rules or tables than there may be. The limits
//! of 2^20 logs and rows, and of a row's and a key's width, are not reached.
//!
//! It prints how many stores had each answer, and the most memory that the program held at one time. It ends with 1 at the first
//! wrong answer, whose seed and number it tells: the same seed makes the same stores, whatever the count. It ends so, too, where
//! the program held more than `MOST_MEMORY`, and where an answer that there is came of none of 1,000 stores or more.

use std::collections::{BTreeMap, HashSet};
use std::ffi::{c_int, c_long};
use std::io::{BufRead, BufReader, BufWriter, Write};
use std::process::{Command, ExitCode, Stdio};
use std::sync::mpsc;
use std::thread;

/// The most memory that the program may hold at one time, in KiB.
const MOST_MEMORY: c_long = 16 * 1024;

/// Numbers of the layout are below this one.
const LIMIT: u64 = 1 << 62;

/// The pairs, by area and key.
type Store = BTreeMap<(u8, Vec<u8>), Vec<u8>>;

/// The first words of the `rusage` of 64-bit Linux: two times of two words each, and the peak in KiB; and room for the rest.
#[repr(C)]
struct Usage {
    times: [c_long; 4],
    peak: c_long,
    rest: [c_long; 13],
}

unsafe extern "C" {
    fn getrusage(who: c_int, usage: *mut Usage) -> c_int;
}

/// The most memory in KiB that the ended program held at one time; or this one, which it was at first.
fn peak() -> c_long {
    const CHILDREN: c_int = -1;
    let mut usage = Usage { times: [0; 4], peak: 0, rest: [0; 13] };
    assert_eq!(unsafe { getrusage(CHILDREN, &mut usage) }, 0, "getrusage");
    usage.peak
}

/// Draws by chance, the same ones for the same seed and number.
struct Chance {
    state: u64,
}

impl Chance {
    fn new(seed: u64, number: u64) -> Chance {
        let mixed = seed.wrapping_mul(0xd134_2543_de82_ef95) ^ number.wrapping_mul(0x9e37_79b9_7f4a_7c15);
        let mut chance = Chance { state: (88_172_645_463_325_252 ^ mixed).max(1) };
        for _ in 0..8 {
            chance.draw(1);
        }
        chance
    }

    /// A number below this one.
    fn draw(&mut self, below: u64) -> u64 {
        self.state ^= self.state << 13;
        self.state ^= self.state >> 7;
        self.state ^= self.state << 17;
        (self.state >> 11) % below
    }

    fn place(&mut self, below: usize) -> usize {
        self.draw(below as u64) as usize
    }

    fn one_in(&mut self, times: u64) -> bool {
        self.draw(times) == 0
    }

    fn of<T: Clone>(&mut self, things: &[T]) -> T {
        things[self.place(things.len())].clone()
    }
}

// ---- the model: what is told of a store

#[derive(Clone, PartialEq, Eq, Hash)]
enum Value {
    Null,
    Number(u64),
    Text(Vec<u8>),
    Raw(Vec<u8>),
}

struct Column {
    name: Vec<u8>,
    kind: u8,
    size: usize,
    nullable: bool,
}

struct Table {
    schema: Vec<u8>,
    name: Vec<u8>,
    columns: Vec<Column>,
    keys: Vec<Vec<usize>>,
}

struct Log {
    records: u64,
    length: u64,
}

/// Bytes that are read from their front.
struct Front<'a> {
    left: &'a [u8],
}

impl<'a> Front<'a> {
    fn bytes(&mut self, count: usize) -> Option<&'a [u8]> {
        let (front, left) = self.left.split_at_checked(count)?;
        self.left = left;
        Some(front)
    }

    fn number(&mut self, width: usize) -> Option<u64> {
        Some(self.bytes(width)?.iter().fold(0, |number, byte| number << 8 | u64::from(*byte)))
    }

    /// A number that lies between these two.
    fn count(&mut self, width: usize, least: u64, most: u64) -> Option<usize> {
        self.number(width).filter(|number| (least..=most).contains(number)).map(|number| number as usize)
    }

    fn is_at_end(&self) -> bool {
        self.left.is_empty()
    }
}

fn field(bytes: &[u8], at: usize, width: usize) -> u64 {
    Front { left: &bytes[at..] }.number(width).expect("a field")
}

fn value_in(front: &mut Front) -> Option<Value> {
    match front.number(1)? {
        0 => Some(Value::Null),
        1 => Some(Value::Number(front.number(8)?)),
        2 => {
            let size = front.count(2, 1, 500)?;
            let bytes = front.bytes(size)?;
            std::str::from_utf8(bytes).ok().map(|_| Value::Text(bytes.to_vec()))
        }
        3 => {
            let size = front.count(2, 1, 500)?;
            Some(Value::Raw(front.bytes(size)?.to_vec()))
        }
        _ => None,
    }
}

/// Values up to the end of the bytes.
fn values_in(bytes: &[u8]) -> Option<Vec<Value>> {
    let mut front = Front { left: bytes };
    let mut values = Vec::new();
    while !front.is_at_end() {
        values.push(value_in(&mut front)?);
    }
    Some(values)
}

fn name_in(front: &mut Front) -> Option<Vec<u8>> {
    let size = front.count(1, 1, 30)?;
    Some(front.bytes(size)?.to_vec())
}

fn column_in(front: &mut Front) -> Option<Column> {
    let name = name_in(front)?;
    let kind = front.count(1, 1, 3)? as u8;
    let size = if kind == 1 { front.count(2, 0, 0)? } else { front.count(2, 1, 500)? };
    let nullable = front.count(1, 0, 1)? == 1;
    Some(Column { name, kind, size, nullable })
}

fn key_in(front: &mut Front) -> Option<Vec<usize>> {
    let mut key: Vec<usize> = Vec::new();
    for _ in 0..front.count(1, 1, 32)? {
        let column = front.count(1, 0, 31)?;
        if key.last().is_some_and(|last| *last >= column) {
            return None;
        }
        key.push(column);
    }
    Some(key)
}

fn table_in(value: &[u8]) -> Option<Table> {
    let mut front = Front { left: value };
    let schema = name_in(&mut front)?;
    let name = name_in(&mut front)?;
    let mut columns = Vec::new();
    for _ in 0..front.count(1, 1, 32)? {
        columns.push(column_in(&mut front)?);
    }
    let mut keys = vec![key_in(&mut front)?];
    for _ in 0..front.count(1, 0, 4)? {
        keys.push(key_in(&mut front)?);
    }
    front.is_at_end().then_some(Table { schema, name, columns, keys })
}

fn is_name_byte(byte: u8) -> bool {
    byte.is_ascii_uppercase() || byte.is_ascii_digit() || b"_$#".contains(&byte)
}

fn is_name(name: &[u8]) -> bool {
    name.len() <= 30 && name.first().is_some_and(u8::is_ascii_uppercase) && name.iter().all(|byte| is_name_byte(*byte))
}

fn width(column: &Column) -> usize {
    if column.kind == 1 { 9 } else { 3 + column.size }
}

fn are_distinct<T: Eq + std::hash::Hash>(things: impl Iterator<Item = T>) -> bool {
    let mut seen = HashSet::new();
    things.into_iter().all(|thing| seen.insert(thing))
}

/// The dictionary takes the table behind those before it, which have other ids.
fn is_taken_behind(tables: &BTreeMap<u64, Table>, table: &Table) -> bool {
    let names = [&table.schema, &table.name].into_iter().chain(table.columns.iter().map(|column| &column.name));
    tables.len() < 256
        && tables.values().all(|other| (&other.schema, &other.name) != (&table.schema, &table.name))
        && names.into_iter().all(|name| is_name(name))
        && are_distinct(table.columns.iter().map(|column| &column.name))
        && table.keys.iter().flatten().all(|column| *column < table.columns.len())
        && table.keys[0].iter().all(|column| !table.columns[*column].nullable)
        && are_distinct(table.keys.iter())
        && table.columns.iter().map(width).sum::<usize>() <= 1024
        && table.keys.iter().all(|key| key.iter().map(|column| width(&table.columns[*column])).sum::<usize>() <= 128)
}

fn fits(column: &Column, value: &Value) -> bool {
    match value {
        Value::Null => column.nullable,
        Value::Number(_) => column.kind == 1,
        Value::Text(bytes) => column.kind == 2 && bytes.len() <= column.size,
        Value::Raw(bytes) => column.kind == 3 && bytes.len() <= column.size,
    }
}

fn key_of(row: &[Value], key: &[usize]) -> Vec<Value> {
    key.iter().map(|column| row[*column].clone()).collect()
}

/// The log of this pair, for a standby of this database and first sequence.
fn log_of(dbid: u64, first: u64, key: &[u8], value: &[u8]) -> Option<Log> {
    if key.len() != 4 || value.len() != 48 {
        return None;
    }
    let (from, next) = (field(value, 16, 8), field(value, 24, 8));
    let is_header = value[..8] == *b"SRL1\0\x01\0\x01" && value[12..16] == *key && from >= 1 && next > from;
    let log = Log { records: field(value, 32, 4), length: field(value, 40, 8) };
    let is_whole = log.records >= 1 && field(value, 36, 4) == 0 && log.length >= 40;
    (is_header && is_whole && field(value, 8, 4) == dbid && field(key, 0, 4) >= first).then_some(log)
}

fn is_pattern(bytes: &[u8]) -> bool {
    let parts: Vec<&[u8]> = bytes.split(|byte| *byte == b'.').collect();
    let is_part = |part: &&[u8]| (1..=30).contains(&part.len()) && part.iter().all(|byte| is_name_byte(*byte) || *byte == b'%');
    parts.len() == 2 && parts.iter().all(is_part)
}

/// The rule of this number, as its kind and its bytes.
fn rule_of<'a>(number: u32, key: &[u8], value: &'a [u8]) -> Option<&'a [u8]> {
    if key != number.to_be_bytes() || value.len() < 9 || field(value, 0, 8) >= LIMIT {
        return None;
    }
    let is_rule = match value[8] {
        1 => is_pattern(&value[9..]),
        2 => value.len() == 17,
        _ => false,
    };
    is_rule.then_some(&value[8..])
}

/// The table and the row of this pair, if it fits its table and stands under its own key.
fn row_of<'a>(tables: &'a BTreeMap<u64, Table>, key: &[u8], value: &[u8]) -> Option<(u64, &'a Table, Vec<Value>)> {
    if key.len() < 4 {
        return None;
    }
    let id = field(key, 0, 4);
    let table = tables.get(&id)?;
    let (own, row) = (values_in(&key[4..])?, values_in(value)?);
    let is_row = row.len() == table.columns.len() && table.columns.iter().zip(&row).all(|(column, value)| fits(column, value));
    (is_row && key_of(&row, &table.keys[0]) == own).then_some((id, table, row))
}

fn is_mark(logs: &BTreeMap<u64, Log>, count: u64, key: &[u8], value: &[u8]) -> bool {
    if key != b"M" || value.len() != 65 || value[0] != 1 {
        return false;
    }
    let (q, m, before) = (field(value, 1, 8), field(value, 9, 8), field(value, 17, 8));
    let (at, done) = (field(value, 29, 8), field(value, 37, 4));
    let lies_in = |log: &Log| (40..=log.length).contains(&at) && done <= log.records;
    [q, m, before, at].iter().all(|number| *number < LIMIT)
        && q <= m
        && before <= count
        && logs.get(&field(value, 25, 4)).is_some_and(lies_in)
}

fn bad(area: u8, key: &[u8]) -> String {
    format!("BAD {area} {}", key.iter().map(|byte| format!("{byte:02x}")).collect::<String>())
}

/// What has to be told of the store.
fn told_of(store: &Store) -> String {
    let mut kept = store.iter().filter(|((area, _), _)| (1..=7).contains(area));
    let Some(((area, key), _)) = kept.next() else {
        return "FRESH".to_string();
    };
    let standby = (1, b"S".to_vec());
    if !store.contains_key(&standby) {
        return bad(*area, key);
    }
    let area = |area: u8| store.range((area, Vec::new())..(area + 1, Vec::new())).map(|((_, key), value)| (key, value));

    let (mut dbid, mut first) = (0, 0);
    for (key, value) in area(1) {
        if key != b"S" || value.len() != 17 || !(1..=2).contains(&value[16]) || !store.contains_key(&(2, value[4..8].to_vec())) {
            return bad(1, key);
        }
        (dbid, first) = (field(value, 0, 4), field(value, 4, 4));
    }
    let mut logs = BTreeMap::new();
    for (key, value) in area(2) {
        let Some(log) = log_of(dbid, first, key, value) else {
            return bad(2, key);
        };
        logs.insert(field(key, 0, 4), log);
    }
    let mut tables = BTreeMap::new();
    for (key, value) in area(3) {
        match table_in(value) {
            Some(table) if key.len() == 4 && is_taken_behind(&tables, &table) => tables.insert(field(key, 0, 4), table),
            _ => return bad(3, key),
        };
    }
    let mut rules = HashSet::new();
    for (key, value) in area(4) {
        match rule_of(rules.len() as u32 + 1, key, value) {
            Some(rule) if rules.len() < 256 && rules.insert(rule) => {}
            _ => return bad(4, key),
        }
    }
    let mut rows = 0;
    let mut owned = HashSet::new();
    for (key, value) in area(5) {
        let Some((id, table, row)) = row_of(&tables, key, value) else {
            return bad(5, key);
        };
        for (index, columns) in table.keys.iter().enumerate() {
            let values = key_of(&row, columns);
            if !values.contains(&Value::Null) && !owned.insert((id, index, values)) {
                return bad(5, key);
            }
        }
        rows += 1;
    }
    let Some(applied) = store.get(&(6, b"A".to_vec())) else {
        return bad(6, b"");
    };
    for (key, value) in area(6) {
        if key != b"A" || value.len() != 16 || field(value, 0, 8) >= LIMIT {
            return bad(6, key);
        }
    }
    let (count, scn) = (field(applied, 0, 8), field(applied, 8, 8));
    let mut marks = 0;
    for (key, value) in area(7) {
        if !is_mark(&logs, count, key, value) {
            return bad(7, key);
        }
        marks += 1;
    }
    format!("IMAGE {} {} {} {rows} {count} {scn} {marks}", logs.len(), tables.len(), rules.len())
}

// ---- stores by chance

fn number(value: u64) -> Vec<u8> {
    [&[1][..], &value.to_be_bytes()].concat()
}

fn sized(tag: u8, bytes: &[u8]) -> Vec<u8> {
    [&[tag][..], &(bytes.len() as u16).to_be_bytes(), bytes].concat()
}

fn named(bytes: &[u8]) -> Vec<u8> {
    [&[bytes.len() as u8][..], bytes].concat()
}

/// What a table's rows have behind their ID: a unique CODE that is not Null, a unique EMAIL, and columns of each kind.
#[derive(Clone, Copy)]
struct Shape {
    id: u32,
    two_columns_are_primary: bool,
    email_is_unique: bool,
    others: u64,
}

/// ID and CODE, numbers; EMAIL, a text; then other columns. ID, or ID and CODE, is the primary key.
fn table_value(shape: Shape, name: &[u8]) -> Vec<u8> {
    let mut value = [named(b"HR"), named(name)].concat();
    value.push(3 + shape.others as u8);
    for (name, kind, nullable) in [(&b"ID"[..], 1, 0), (b"CODE", 1, 0), (b"EMAIL", 2, 1)] {
        value.extend(named(name));
        value.extend([kind, 0, if kind == 1 { 0 } else { 40 }, nullable]);
    }
    for other in 0..shape.others {
        value.extend(named(format!("C{other}").as_bytes()));
        let kind = 1 + other as u8 % 3;
        value.extend([kind, 0, if kind == 1 { 0 } else { 60 }, 1]);
    }
    value.extend_from_slice(if shape.two_columns_are_primary { &[2, 0, 1] } else { &[1, 0] });
    value.extend_from_slice(if shape.email_is_unique { &[2, 1, 1, 1, 2] } else { &[1, 1, 1] });
    value
}

/// A row's pair of this table. No two rows with other serial numbers have a key's values in common.
fn row_pair(chance: &mut Chance, shape: Shape, serial: u64) -> ((u8, Vec<u8>), Vec<u8>) {
    let (id, code) = (number(serial.wrapping_mul(0x9e37_79b9_7f4a_7c15)), number(serial));
    let email = if chance.one_in(3) { vec![0] } else { sized(2, format!("{serial}@x").as_bytes()) };
    let primary = if shape.two_columns_are_primary { [&id[..], &code].concat() } else { id.clone() };
    let mut value = [id, code, email].concat();
    for other in 0..shape.others {
        let size = 1 + chance.place(60);
        value.extend(match (chance.draw(4), other % 3) {
            (0, _) => vec![0],
            (_, 0) => number(chance.draw(1 << 40)),
            (_, 1) => sized(2, "aé z'".repeat(10).chars().take(1 + size / 2).collect::<String>().as_bytes()),
            _ => sized(3, &(0..size).map(|_| chance.draw(256) as u8).collect::<Vec<u8>>()),
        });
    }
    ((5, [&shape.id.to_be_bytes()[..], &primary].concat()), value)
}

fn log_value(dbid: u32, seq: u32, first: u64, next: u64, records: u32, length: u64) -> Vec<u8> {
    let mut value = b"SRL1\0\x01\0\x01".to_vec();
    value.extend(dbid.to_be_bytes());
    value.extend(seq.to_be_bytes());
    value.extend(first.to_be_bytes());
    value.extend(next.to_be_bytes());
    value.extend(records.to_be_bytes());
    value.extend([0; 4]);
    value.extend(length.to_be_bytes());
    value
}

fn rule_value(chance: &mut Chance, number: u32) -> Vec<u8> {
    let from = chance.draw(1000).to_be_bytes();
    if chance.one_in(2) {
        return [&from[..], &[1], format!("H_.{}%$", 100 + number).as_bytes()].concat();
    }
    [&from[..], &[2, 0, 1, 0, 1], &number.to_be_bytes()].concat()
}

/// Mostly below the last one; rarely about a limit of 256.
fn count_of(chance: &mut Chance, least: u64, last: u64) -> u32 {
    let few = if chance.one_in(60) { 254 + chance.draw(4) } else { least + chance.draw(last - least) };
    few as u32
}

/// The store of a standby. It has no more tables and rules than there may be, or it tells so.
fn kept_store(chance: &mut Chance) -> (Store, bool) {
    let mut store = Store::new();
    let (dbid, first, base) = (chance.draw(1 << 32) as u32, 1 + chance.draw(300) as u32, 1 + chance.draw(1000));
    let level = 1 + chance.draw(2) as u8;
    let standby = [&dbid.to_be_bytes()[..], &first.to_be_bytes(), &base.to_be_bytes(), &[level]].concat();
    store.insert((1, b"S".to_vec()), standby);

    let mut logs = Vec::new();
    let (mut seq, mut scn) = (first, base + 1);
    for _ in 0..1 + chance.draw(6) {
        let (next, records, length) = (scn + 1 + chance.draw(5000), 1 + chance.draw(1000) as u32, 40 + chance.draw(100_000));
        store.insert((2, seq.to_be_bytes().to_vec()), log_value(dbid, seq, scn, next, records, length));
        logs.push((seq, records, length));
        scn = next;
        seq += if chance.one_in(4) { 2 } else { 1 };
    }

    let tables = count_of(chance, 0, 5);
    let mut shapes = Vec::new();
    let mut id = 0;
    for table in 0..tables {
        id += 1 + chance.draw(300) as u32;
        let (two_columns_are_primary, email_is_unique) = (chance.one_in(2), chance.one_in(2));
        let shape = Shape { id, two_columns_are_primary, email_is_unique, others: chance.draw(5) };
        store.insert((3, id.to_be_bytes().to_vec()), table_value(shape, format!("T{table}").as_bytes()));
        shapes.push(shape);
    }
    let rules = count_of(chance, 0, 7);
    for number in 1..=rules {
        store.insert((4, number.to_be_bytes().to_vec()), rule_value(chance, number));
    }
    for serial in 0..if tables == 0 { 0 } else { chance.draw(400) } {
        let shape = chance.of(&shapes);
        let (place, value) = row_pair(chance, shape, serial);
        store.insert(place, value);
    }

    let count = chance.draw(100_000);
    store.insert((6, b"A".to_vec()), [count.to_be_bytes(), scn.to_be_bytes()].concat());
    if !chance.one_in(4) {
        let (seq, records, length) = chance.of(&logs);
        let q = chance.draw(1 << 40);
        let mut mark = vec![1];
        mark.extend([q, q + chance.draw(1000), chance.draw(count + 1)].map(u64::to_be_bytes).concat());
        mark.extend(seq.to_be_bytes());
        let at = if chance.one_in(4) { length } else { 40 + chance.draw(length - 39) };
        mark.extend(at.to_be_bytes());
        mark.extend((chance.draw(u64::from(records) + 1) as u32).to_be_bytes());
        mark.extend([chance.draw(scn), scn, chance.draw(scn)].map(u64::to_be_bytes).concat());
        store.insert((7, b"M".to_vec()), mark);
    }
    (store, tables <= 256 && rules <= 256)
}

/// The places of fields of numbers, and their widths, in the values of an area.
fn fields_of(area: u8) -> &'static [(usize, usize)] {
    match area {
        1 => &[(0, 4), (4, 4), (8, 8), (16, 1)],
        2 => &[(4, 2), (6, 2), (8, 4), (12, 4), (16, 8), (24, 8), (32, 4), (36, 4), (40, 8)],
        4 => &[(0, 8), (8, 1)],
        5 => &[(0, 1), (1, 8), (9, 1), (10, 8)],
        6 => &[(0, 8), (8, 8)],
        7 => &[(0, 1), (1, 8), (9, 8), (17, 8), (25, 4), (29, 8), (37, 4), (41, 8)],
        _ => &[(0, 1)],
    }
}

/// A number near what it was, or at a limit.
fn other_number(chance: &mut Chance, was: u64) -> u64 {
    let others = [was.wrapping_sub(1), was.wrapping_add(1), 0, 1, 39, 40, 41, LIMIT - 1, LIMIT, u64::MAX];
    chance.of(&others)
}

fn any_bytes(chance: &mut Chance) -> Vec<u8> {
    let size = if chance.one_in(20) { chance.draw(60_000) } else { 1 + chance.draw(20) };
    let byte = chance.one_in(2).then(|| chance.draw(4) as u8);
    (0..size).map(|_| byte.unwrap_or_else(|| chance.draw(256) as u8)).collect()
}

/// A key near this one.
fn other_key(chance: &mut Chance, key: &[u8]) -> Vec<u8> {
    let mut other = key.to_vec();
    match chance.draw(4) {
        0 if other.len() > 1 => drop(other.pop()),
        1 => other.extend(any_bytes(chance)),
        _ => {
            let at = chance.place(other.len());
            other[at] = other[at].wrapping_add(chance.of(&[1, 2, 255, 128]));
        }
    }
    other
}

/// A pair by chance: of an area by chance, so that rows aren't most of them.
fn any_pair(chance: &mut Chance, store: &Store) -> Option<(u8, Vec<u8>)> {
    let mut areas: Vec<u8> = store.keys().map(|(area, _)| *area).collect();
    areas.dedup();
    if areas.is_empty() {
        return None;
    }
    let area = chance.of(&areas);
    let keys: Vec<&(u8, Vec<u8>)> = store.keys().filter(|(other, _)| *other == area).collect();
    Some(chance.of(&keys).clone())
}

/// Changes the store once, and says how.
fn change(chance: &mut Chance, store: &mut Store) -> String {
    let Some(place) = any_pair(chance, store) else {
        return "nothing is left to change".to_string();
    };
    let (area, key) = place.clone();
    let mut value = store[&place].clone();
    let said = bad(area, &key).replacen("BAD", "pair", 1);
    let how = match chance.draw(24) {
        0..=2 => {
            store.remove(&place);
            "dropped"
        }
        3..=5 if !value.is_empty() => {
            let at = chance.place(value.len());
            value[at] ^= 1 + chance.draw(255) as u8;
            store.insert(place, value);
            "a byte of its value changed"
        }
        6..=9 => {
            let (at, width) = chance.of(fields_of(area));
            if at + width <= value.len() {
                let was = field(&value, at, width);
                let other = other_number(chance, was).to_be_bytes();
                value[at..at + width].copy_from_slice(&other[8 - width..]);
            }
            store.insert(place, value);
            "a number of its value changed"
        }
        10 | 11 => {
            store.insert((area, other_key(chance, &key)), value);
            "put again under another key"
        }
        12 | 13 => {
            store.remove(&place);
            store.insert((area, other_key(chance, &key)), value);
            "its key changed"
        }
        14 => {
            value.truncate(chance.place(value.len() + 1));
            store.insert(place, value);
            "its value cut"
        }
        15 => {
            value.extend(any_bytes(chance));
            store.insert(place, value);
            "its value made longer"
        }
        16 | 17 => {
            let area = if chance.one_in(3) { chance.of(&[0, 8, 9, 255]) } else { 1 + chance.draw(7) as u8 };
            store.insert((area, key), value);
            "put in another area"
        }
        18 => {
            let other = any_pair(chance, store).expect("a pair");
            let its = store[&other].clone();
            store.insert(other, value);
            store.insert(place, its);
            "its value exchanged with another's"
        }
        19..=21 if area == 5 && key.len() >= 13 && value.len() >= 18 => {
            // A row of another ID, and in half of the cases another CODE, under the key that it then has.
            let mut key = key;
            let id = chance.draw(1 << 40).to_be_bytes();
            key[5..13].copy_from_slice(&id);
            value[1..9].copy_from_slice(&id);
            if chance.one_in(2) {
                let code = (1000 + chance.draw(1 << 40)).to_be_bytes();
                value[10..18].copy_from_slice(&code);
                if key.len() >= 22 {
                    key[14..22].copy_from_slice(&code);
                }
            }
            if chance.one_in(3) {
                store.remove(&place);
            }
            store.insert((5, key), value);
            "a row under a free key"
        }
        22 if chance.one_in(2) => {
            store.retain(|(other, _), _| *other != area);
            "its area dropped"
        }
        23 if chance.one_in(3) => {
            store.retain(|(other, _), _| !(1..=7).contains(other));
            "all areas of the layout dropped"
        }
        _ => {
            store.insert((area, any_bytes(chance)), any_bytes(chance));
            "any pair put beside it"
        }
    };
    format!("{} {how}", said)
}

/// A store by its number, what has to be told of it, and how it was changed.
fn drawn(seed: u64, number: u64) -> (Store, String, Vec<String>) {
    let mut chance = Chance::new(seed, number);
    let (mut store, is_whole) = kept_store(&mut chance);
    let mut changes = Vec::new();
    if number % 8 == 0 {
        let told = told_of(&store);
        assert_eq!(told.starts_with("IMAGE "), is_whole, "seed {seed}, store {number}: a standby's is an image: {told}");
        return (store, told, changes);
    }
    for _ in 0..1 + chance.draw(3) {
        changes.push(change(&mut chance, &mut store));
    }
    let told = told_of(&store);
    (store, told, changes)
}

fn write_store(out: &mut impl Write, store: &Store) -> std::io::Result<()> {
    for ((area, key), value) in store {
        out.write_all(&[*area])?;
        out.write_all(&(key.len() as u16).to_be_bytes())?;
        out.write_all(&(value.len() as u16).to_be_bytes())?;
        out.write_all(key)?;
        out.write_all(value)?;
    }
    out.write_all(&[0; 5])
}

/// The class that is counted: an image, FRESH, or a bad key of an area.
fn class_of(told: &str, is_changed: bool) -> String {
    match told.split(' ').next() {
        Some("IMAGE") => format!("an image, {}", if is_changed { "changed" } else { "unchanged" }),
        Some("BAD") => format!("a bad key of area {}", told.split(' ').nth(1).unwrap_or("")),
        _ => "nothing kept".to_string(),
    }
}

fn main() -> ExitCode {
    let args: Vec<String> = std::env::args().skip(1).collect();
    let [program, seed, count] = &args[..] else {
        panic!("stores PROGRAM SEED COUNT");
    };
    let seed: u64 = seed.parse().expect("SEED is a number");
    let count: u32 = count.parse().expect("COUNT is a number");
    let mut child = Command::new(program).stdin(Stdio::piped()).stdout(Stdio::piped()).spawn().expect("the program runs");
    let mut input = BufWriter::new(child.stdin.take().expect("an input"));
    let lines = BufReader::new(child.stdout.take().expect("an output")).lines();
    let (send, expected) = mpsc::channel();
    // Where the program ends before all are written, its lines tell so.
    let writer = thread::spawn(move || -> std::io::Result<()> {
        input.write_all(&count.to_be_bytes())?;
        for number in 0..count {
            let (store, told, changes) = drawn(seed, u64::from(number));
            let _ = send.send((told, changes));
            write_store(&mut input, &store)?;
        }
        input.flush()
    });
    let mut classes: BTreeMap<String, u32> = BTreeMap::new();
    let mut answered = 0;
    for line in lines {
        let line = line.expect("a line");
        let Ok((told, changes)) = expected.recv() else {
            println!("a line more than stores: {line:?}");
            return ExitCode::FAILURE;
        };
        if line != told {
            println!("seed {seed}, store {answered}: told {line:?} in place of {told:?}; {}", changes.join("; "));
            let _ = child.kill();
            return ExitCode::FAILURE;
        }
        *classes.entry(class_of(&told, !changes.is_empty())).or_insert(0) += 1;
        answered += 1;
    }
    let status = child.wait().expect("an end");
    let written = writer.join().expect("the stores are drawn");
    let peak = peak();
    let parts: Vec<String> = classes.iter().map(|(class, count)| format!("{count} {class}")).collect();
    println!("seed {seed}, {answered} stores: {}; peak {:.1} MB", parts.join(", "), peak as f64 * 1024.0 / 1e6);
    let is_each = count < 1000 || classes.len() == 10;
    if !status.success() || written.is_err() || answered != count || !is_each || peak > MOST_MEMORY {
        let came = classes.len();
        println!("status {status}, written {written:?}, {answered} of {count} answered, {came} of 10 answers came, {peak} KiB");
        return ExitCode::FAILURE;
    }
    ExitCode::SUCCESS
}
