//! Runs the program over hostile logs, words and devices, and tests each run's end: a status of the manual's table, its line, and
//! the sentence on the standard error.
//!
//!     hostile PROGRAM FOLDER COUNT      FOLDER is a scratch folder
//!
//! Over each of two logs: every cut, every change of one byte, and a byte more; and COUNT times up to four changes by chance. Then
//! COUNT logs whose records are well spelled, with vectors by chance. Then words, things in a log's place, and outputs that take
//! nothing, or not all. It prints how many runs each part had, and the most memory that a run so far held at one time.
//! It ends with 1 at the first run that ends otherwise, and after a part in which a run held more than `MOST_MEMORY`: the largest
//! log here that has records is of 40 KB, and a file of 2^40 bytes is read up to its first bad record. What comes by chance is the
//! same each time.

use std::collections::BTreeMap;
use std::ffi::{c_int, c_long, OsString};
use std::fs::{self, File};
use std::os::unix::ffi::OsStringExt;
use std::os::unix::fs::PermissionsExt;
use std::os::unix::process::ExitStatusExt;
use std::path::{Path, PathBuf};
use std::process::{Command, Output, Stdio};
use std::sync::atomic::{AtomicUsize, Ordering};
use std::sync::Mutex;
use std::thread;

/// The most memory that a run may hold at one time, in KiB.
const MOST_MEMORY: c_long = 16 * 1024;

/// The first words of the `rusage` of 64-bit Linux: two times of two words each, and the peak in KiB; and room for the rest.
#[repr(C)]
struct Usage {
    times: [c_long; 4],
    peak: c_long,
    rest: [c_long; 13],
}

unsafe extern "C" {
    fn getrusage(who: c_int, usage: *mut Usage) -> c_int;
}

/// The most memory in KiB that one of the ended children held at one time; or this program, which each of them was at first.
fn peak() -> c_long {
    const CHILDREN: c_int = -1;
    let mut usage = Usage { times: [0; 4], peak: 0, rest: [0; 13] };
    assert_eq!(unsafe { getrusage(CHILDREN, &mut usage) }, 0, "getrusage");
    usage.peak
}

/// Draws by chance, the same ones for the same seed.
struct Chance {
    state: u64,
}

impl Chance {
    fn new(seed: usize) -> Chance {
        let mut chance = Chance { state: 88_172_645_463_325_252 ^ (seed as u64).wrapping_mul(0x9e37_79b9_7f4a_7c15) };
        for _ in 0..8 {
            chance.draw(1);
        }
        chance
    }

    /// A number below this one.
    fn draw(&mut self, below: u64) -> u64 {
        self.state ^= self.state << 13;
        self.state ^= self.state >> 7;
        self.state ^= self.state << 17;
        (self.state >> 11) % below
    }

    fn place(&mut self, below: usize) -> usize {
        self.draw(below as u64) as usize
    }
}

/// A log as it grows.
struct Log {
    bytes: Vec<u8>,
    count: u32,
    scn: u64,
}

impl Log {
    fn new() -> Log {
        Log { bytes: vec![0; 40], count: 0, scn: 99 }
    }

    fn record(&mut self, vectors: &[Vec<u8>]) {
        self.scn += 1;
        self.count += 1;
        let body: Vec<u8> = vectors.concat();
        self.bytes.extend_from_slice(&(14 + body.len() as u32).to_be_bytes());
        self.bytes.extend_from_slice(&self.scn.to_be_bytes());
        self.bytes.extend_from_slice(&(vectors.len() as u16).to_be_bytes());
        self.bytes.extend_from_slice(&body);
    }

    fn finish(mut self) -> Vec<u8> {
        self.bytes[..8].copy_from_slice(b"SRL1\0\x01\0\x01");
        self.bytes[8..12].copy_from_slice(&9u32.to_be_bytes());
        self.bytes[12..16].copy_from_slice(&1u32.to_be_bytes());
        self.bytes[16..24].copy_from_slice(&100u64.to_be_bytes());
        self.bytes[24..32].copy_from_slice(&(self.scn + 1).to_be_bytes());
        self.bytes[32..36].copy_from_slice(&self.count.to_be_bytes());
        self.bytes
    }
}

/// A vector of this kind of the transaction 1.1.`sqn`.
fn of_transaction(kind: u8, sqn: u32, rest: &[u8]) -> Vec<u8> {
    let mut out = vec![kind, 0, 1, 0, 1];
    out.extend_from_slice(&sqn.to_be_bytes());
    out.extend_from_slice(rest);
    out
}

/// A change of table 1, by its cells before and after.
fn change(kind: u8, sqn: u32, old: &[u8], new: &[u8]) -> Vec<u8> {
    of_transaction(kind, sqn, &[&[0, 0, 0, 1], old, new].concat())
}

fn number(column: u8, value: i64) -> Vec<u8> {
    [&[column, 1][..], &value.to_be_bytes()].concat()
}

fn text(column: u8, tag: u8, value: &[u8]) -> Vec<u8> {
    [&[column, tag][..], &(value.len() as u16).to_be_bytes(), value].concat()
}

fn cells(parts: &[Vec<u8>]) -> Vec<u8> {
    [&[parts.len() as u8][..], &parts.concat()].concat()
}

/// T.A of one number column: a transaction inserts 7.
fn first() -> Vec<u8> {
    let mut log = Log::new();
    log.record(&[vec![8, 0, 0, 0, 1, 1, b'T', 1, b'A', 1, 2, b'I', b'D', 1, 0, 0, 0, 1, 0, 0], vec![9]]);
    log.record(&[of_transaction(1, 3, &[]), change(2, 3, &[0], &cells(&[number(0, 7)]))]);
    log.record(&[of_transaction(6, 3, &[])]);
    log.finish()
}

/// HR.EMP with ID, NAME, EMAIL (unique) and BODY: each kind of vector, and each kind of value.
fn all_kinds() -> Vec<u8> {
    let mut table = vec![8, 0, 0, 0, 1, 2, b'H', b'R', 3, b'E', b'M', b'P', 4];
    for (name, kind, size, nullable) in [(&b"ID"[..], 1u8, 0u16, 0u8), (b"NAME", 2, 30, 1), (b"EMAIL", 2, 30, 1), (b"BODY", 3, 40, 1)] {
        table.push(name.len() as u8);
        table.extend_from_slice(name);
        table.push(kind);
        table.extend_from_slice(&size.to_be_bytes());
        table.push(nullable);
    }
    table.extend_from_slice(&[1, 0, 1, 1, 2]);
    let row = |id: i64, email: &[u8]| cells(&[number(0, id), text(1, 2, b"Ann"), text(2, 2, email), text(3, 3, &[0, 255])]);
    let mut log = Log::new();
    log.record(&[table, vec![9]]);
    log.record(&[of_transaction(1, 1, &[]), change(2, 1, &[0], &row(1, b"a@x")), change(2, 1, &[0], &row(2, b"b@x"))]);
    log.record(&[change(2, 1, &[0], &row(3, b"c@x")), of_transaction(5, 1, &[])]);
    log.record(&[of_transaction(6, 1, &[])]);
    log.record(&[of_transaction(1, 2, &[])]);
    let old = cells(&[number(0, 1), text(2, 2, b"a@x")]);
    let new = cells(&[text(2, 2, b"d@x")]);
    log.record(&[change(3, 2, &old, &new), change(4, 2, &row(2, b"b@x"), &[0])]);
    log.record(&[of_transaction(1, 3, &[]), change(2, 3, &[0], &cells(&[number(0, 4), vec![1, 0], vec![2, 0], vec![3, 0]]))]);
    log.record(&[of_transaction(7, 3, &[])]);
    log.record(&[of_transaction(6, 2, &[])]);
    log.finish()
}

/// HR.EMP with its ID and a unique EMAIL, then up to eight records with vectors by chance: of three transactions, three rows and three
/// emails, so that most logs end at a bad record or an apply conflict, and some don't.
fn by_chance(chance: &mut Chance) -> Vec<u8> {
    let mut table = vec![8, 0, 0, 0, 1, 2, b'H', b'R', 3, b'E', b'M', b'P', 2];
    table.extend_from_slice(&[2, b'I', b'D', 1, 0, 0, 0]);
    table.extend_from_slice(&[5, b'E', b'M', b'A', b'I', b'L', 2, 0, 30, 1]);
    table.extend_from_slice(&[1, 0, 1, 1, 1]);
    let mut log = Log::new();
    log.record(&[table, vec![9]]);
    for _ in 0..1 + chance.draw(8) {
        let ending = chance.draw(4) == 0;
        let count = if ending { 1 } else { 1 + chance.draw(3) };
        let vectors: Vec<Vec<u8>> = (0..count).map(|_| vector_by_chance(chance, ending)).collect();
        log.record(&vectors);
    }
    log.finish()
}

fn vector_by_chance(chance: &mut Chance, ending: bool) -> Vec<u8> {
    let sqn = 1 + chance.draw(3) as u32;
    let id = number(0, chance.draw(3) as i64);
    let mut email = || if chance.draw(4) == 0 { vec![1, 0] } else { text(1, 2, &[b'a' + chance.draw(3) as u8]) };
    let (before, after) = (email(), email());
    if ending {
        return of_transaction(6 + u8::from(chance.draw(4) == 0), sqn, &[]);
    }
    match chance.draw(9) {
        0..=2 => of_transaction(1, sqn, &[]),
        3..=5 => change(2, sqn, &[0], &cells(&[id, after])),
        6 => change(3, sqn, &cells(&[id, before]), &cells(&[after])),
        7 => change(4, sqn, &cells(&[id, before]), &[0]),
        _ => of_transaction(5, sqn, &[]),
    }
}

/// T.A again: a transaction inserts 1,000 rows, whose lines are of about 15 KB.
fn many_rows() -> Vec<u8> {
    let mut log = Log::new();
    log.record(&[vec![8, 0, 0, 0, 1, 1, b'T', 1, b'A', 1, 2, b'I', b'D', 1, 0, 0, 0, 1, 0, 0], vec![9]]);
    log.record(&[of_transaction(1, 3, &[])]);
    for row in 0..1000 {
        log.record(&[change(2, 3, &[0], &cells(&[number(0, 1_000_000_000 + row)]))]);
    }
    log.record(&[of_transaction(6, 3, &[])]);
    log.finish()
}

/// Why this end is none of the table, if it is none.
fn fault_of(output: &Output) -> Option<String> {
    let Some(code) = output.status.code() else {
        return Some(format!("killed by signal {:?}", output.status.signal()));
    };
    let text = String::from_utf8_lossy(&output.stdout).into_owned();
    let last = text.lines().last().unwrap_or("");
    if !text.is_empty() && !text.ends_with('\n') {
        return Some(format!("status {code}, and a last line without its end: {last:?}"));
    }
    let word = |n: usize| last.split(' ').nth(n).unwrap_or("");
    let fits = match code {
        0 => word(0) == "END" && word(3) == "DRAINED",
        2 => last == "FAULT USAGE",
        3 => last == "FAULT ARCHIVE",
        8 => word(0) == "END" && word(3) == "GAP",
        9 => word(0) == "END" && word(3) == "MALFORMED",
        10 => word(0) == "END" && word(3) == "MISMATCH",
        14 => word(0) == "END" && word(3) == "ROWLIMIT",
        15 => last == "FAULT MEMORY",
        17 => last == "FAULT NOTBUILT",
        _ => false,
    };
    if fits && is_explained(code, &output.stderr) {
        return None;
    }
    Some(format!("status {code}, last line {last:?}, on the standard error {:?}", String::from_utf8_lossy(&output.stderr)))
}

/// Whether this is what the standard error has after a run with this code: nothing where all is done, and else a sentence, which
/// names the log's file where the log is its cause, and the page of usage behind it or alone. No byte of a word reaches a terminal
/// unless it is printable.
fn is_explained(code: i32, errors: &[u8]) -> bool {
    let text = String::from_utf8_lossy(errors);
    let is_printable = errors.iter().all(|byte| *byte == b'\n' || (b' '..=b'~').contains(byte));
    let is_sentence = text.ends_with('\n') && text.lines().count() == 1;
    is_printable && match code {
        0 => errors.is_empty(),
        2 => ["sqlapply: ", "Usage: ", "sqlapply 0"].iter().any(|begin| text.starts_with(begin)),
        3 | 8 | 9 | 10 | 14 => is_sentence && text.starts_with("sqlapply: redo/log_"),
        _ => is_sentence && text.starts_with("sqlapply: "),
    }
}

/// A worker's own folder with `redo/` in it.
fn room(folder: &Path, name: usize) -> PathBuf {
    let room = folder.join(format!("room_{name}"));
    fs::create_dir_all(room.join("redo")).expect("a folder");
    room
}

fn run<W: AsRef<std::ffi::OsStr>>(program: &Path, room: &Path, words: &[W]) -> Output {
    Command::new(program).args(words).current_dir(room).stdin(Stdio::null()).output().expect("the program runs")
}

/// The hostile forms of a log, by number.
fn form(log: &[u8], number: usize) -> Option<Vec<u8>> {
    let size = log.len();
    if number < size {
        return Some(log[..number].to_vec());
    }
    let number = number - size;
    if number < 255 * size {
        let mut bytes = log.to_vec();
        bytes[number / 255] ^= (number % 255) as u8 + 1;
        return Some(bytes);
    }
    if number - 255 * size < 256 {
        return Some([log, &[(number - 255 * size) as u8]].concat());
    }
    None
}

/// A log with one to four changes by chance: a byte written over, a piece left out, a piece that comes twice, or a byte more.
fn changed(log: &[u8], chance: &mut Chance) -> Vec<u8> {
    let mut bytes = log.to_vec();
    for _ in 0..1 + chance.draw(4) {
        let from = chance.place(bytes.len());
        let to = (from + 1 + chance.place(24)).min(bytes.len());
        match chance.draw(8) {
            0 => drop(bytes.drain(from..to)),
            1 => {
                let piece = bytes[from..to].to_vec();
                bytes.splice(to..to, piece);
            }
            2 => bytes.insert(from, chance.draw(256) as u8),
            3 => bytes[from] = chance.draw(10) as u8,
            _ => bytes[from] = chance.draw(256) as u8,
        }
        if bytes.is_empty() {
            return bytes;
        }
    }
    bytes
}

/// Runs the logs of all numbers from 0 on, side by side; gives how often each status came.
fn logs(program: &Path, folder: &Path, log_of: impl Fn(usize) -> Option<Vec<u8>> + Sync) -> Result<BTreeMap<i32, usize>, String> {
    let next = AtomicUsize::new(0);
    let told: Mutex<Result<BTreeMap<i32, usize>, String>> = Mutex::new(Ok(BTreeMap::new()));
    thread::scope(|scope| {
        for worker in 0..thread::available_parallelism().map_or(1, |n| n.get()) {
            let (next, told, log_of) = (&next, &told, &log_of);
            scope.spawn(move || {
                let room = room(folder, worker);
                while told.lock().expect("no worker fails").is_ok() {
                    let number = next.fetch_add(1, Ordering::Relaxed);
                    let Some(bytes) = log_of(number) else { return };
                    fs::write(room.join("redo/log_1.srl"), bytes).expect("a log");
                    let output = run(program, &room, &["fold", "1"]);
                    let mut told = told.lock().expect("no worker fails");
                    if let Some(fault) = fault_of(&output) {
                        *told = Err(format!("log {number}: {fault}"));
                    } else if let Ok(counts) = told.as_mut() {
                        *counts.entry(output.status.code().unwrap_or(-1)).or_insert(0) += 1;
                    }
                }
            });
        }
    });
    told.into_inner().expect("no worker fails")
}

fn expect(what: &str, output: &Output, code: i32) -> Result<(), String> {
    if let Some(fault) = fault_of(output) {
        return Err(format!("{what}: {fault}"));
    }
    if output.status.code() == Some(code) { Ok(()) } else { Err(format!("{what}: status {:?} in place of {code}", output.status.code())) }
}

/// Words that are no command, and some that are.
fn words(program: &Path, folder: &Path) -> Result<usize, String> {
    let room = room(folder, 0);
    fs::write(room.join("redo/log_1.srl"), first()).expect("a log");
    let long = "9".repeat(100_000);
    let cases: [(&[&str], i32); 27] = [
        (&[], 2), (&[""], 2), (&["fold"], 2), (&["fold", ""], 2), (&["fold", "0"], 2), (&["fold", "01"], 2), (&["fold", "+1"], 2),
        (&["fold", "-1"], 2), (&["fold", "1 "], 2), (&["fold", "4294967296"], 2), (&["fold", &long], 2), (&["fold", "1", "1"], 2),
        (&["FOLD", "1"], 2), (&["fold", "\u{661}"], 2), (&["fold", "0x1"], 2), (&["fold", "1e0"], 2), (&["--help"], 2), (&["--version"], 2),
        (&["help"], 2), (&["-h"], 2), (&["\u{1b}[2J"], 2),
        (&["fold", "1"], 0), (&["fold", "2"], 8), (&["fold", "4294967295"], 8), (&["run"], 17), (&["mine", "1", "1"], 17), (&["load", "x"], 17),
    ];
    for (words, code) in cases {
        expect(&format!("words {:?}", words.iter().map(|w| &w[..w.len().min(20)]).collect::<Vec<_>>()), &run(program, &room, words), code)?;
    }
    Ok(cases.len())
}

/// So many lists of words by chance, of any bytes but 0.
fn words_by_chance(program: &Path, folder: &Path, count: usize) -> Result<usize, String> {
    let room = room(folder, 0);
    let mut chance = Chance::new(0);
    let known = ["fold", "mine", "run", "load", "1", "2", "4294967295", "4294967296", "00", "-", "--", "fold 1", "\u{ff11}"];
    for number in 0..count {
        let mut words: Vec<OsString> = Vec::new();
        for _ in 0..chance.draw(5) {
            if chance.draw(2) == 0 {
                words.push(known[chance.place(known.len())].into());
                continue;
            }
            let size = chance.draw(70);
            words.push(OsString::from_vec((0..size).map(|_| chance.draw(255) as u8 + 1).collect()));
        }
        let output = run(program, &room, &words);
        if let Some(fault) = fault_of(&output) {
            return Err(format!("words {number}, {words:?}: {fault}"));
        }
    }
    Ok(count)
}

/// Things in a log's place that are none.
fn devices(program: &Path, folder: &Path) -> Result<usize, String> {
    let room = room(folder, 0);
    let path = room.join("redo/log_1.srl");
    fs::remove_file(&path).expect("a log");
    fs::create_dir(&path).expect("a folder");
    expect("a folder in a log's place", &run(program, &room, &["fold", "1"]), 3)?;
    fs::remove_dir(&path).expect("a folder");
    std::os::unix::fs::symlink("nowhere", &path).expect("a link");
    expect("a link that leads nowhere", &run(program, &room, &["fold", "1"]), 8)?;
    fs::remove_file(&path).expect("a link");
    std::os::unix::fs::symlink("log_1.srl", &path).expect("a link");
    expect("a link to itself", &run(program, &room, &["fold", "1"]), 3)?;
    fs::remove_file(&path).expect("a link");
    std::os::unix::fs::symlink("/dev/zero", &path).expect("a link");
    expect("a device in a log's place", &run(program, &room, &["fold", "1"]), 3)?;
    fs::remove_file(&path).expect("a link");
    File::create(&path).and_then(|file| file.set_len(1 << 40)).expect("a file with a hole");
    expect("a hole of 2^40 bytes", &run(program, &room, &["fold", "1"]), 9)?;
    let mut log = first();
    fs::write(&path, &log).expect("a log");
    File::options().write(true).open(&path).and_then(|file| file.set_len(1 << 40)).expect("a log with a hole");
    expect("a log with a hole of 2^40 bytes behind it", &run(program, &room, &["fold", "1"]), 9)?;
    log[32..36].copy_from_slice(&u32::MAX.to_be_bytes());
    fs::write(&path, &log).expect("a log");
    expect("a count of 2^32 - 1 records", &run(program, &room, &["fold", "1"]), 9)?;
    fs::write(&path, first()).expect("a log");
    fs::set_permissions(&path, fs::Permissions::from_mode(0)).expect("permissions");
    let output = run(program, &room, &["fold", "1"]);
    if fs::read(&path).is_err() {
        expect("a log that may not be read", &output, 3)?;
    }
    fs::set_permissions(&path, fs::Permissions::from_mode(0o644)).expect("permissions");
    fs::remove_file(&path).expect("a log");
    fs::remove_dir(room.join("redo")).expect("a folder");
    expect("no folder", &run(program, &room, &["fold", "1"]), 8)?;
    File::create(room.join("redo")).expect("a file");
    let output = run(program, &room, &["fold", "1"]);
    match fault_of(&output) {
        None => Ok(10),
        Some(fault) => Err(format!("a file in the folder's place: {fault}")),
    }
}

/// Outputs that take nothing, or not all.
fn outputs(program: &Path, folder: &Path) -> Result<usize, String> {
    let room = room(folder, 0);
    let path = room.join("redo/log_1.srl");
    fs::write(&path, first()).expect("a log");
    let out = File::options().write(true).open("/dev/full").expect("a full device");
    let full = Command::new(program).args(["fold", "1"]).current_dir(&room).stdin(Stdio::null()).stdout(out).output().expect("the program runs");
    if full.status.code() != Some(5) || !is_explained(5, &full.stderr) {
        return Err(format!("an output that is full: {full:?}"));
    }
    // A disk that fills up: a write takes the bytes up to the limit of a file's size, and the next one takes none.
    fs::write(&path, many_rows()).expect("a log");
    let whole = run(program, &room, &["fold", "1"]);
    expect("1,000 rows", &whole, 0)?;
    let short = "trap '' XFSZ; ulimit -f 8; exec \"$0\" fold 1 > lines 2>/dev/null";
    let status = Command::new("sh").args(["-c", short]).arg(program).current_dir(&room).status().expect("the program runs");
    let lines = fs::read(room.join("lines")).expect("lines");
    if status.code() != Some(5) || lines.len() >= whole.stdout.len() || lines != whole.stdout[..lines.len()] {
        return Err(format!("an output that fills up: status {status:?}, {} bytes of {}", lines.len(), whole.stdout.len()));
    }
    fs::write(&path, first()).expect("a log");
    let closed = Command::new("sh").args(["-c", "exec \"$0\" fold 1 >&- 2>/dev/null"]).arg(program).current_dir(&room).status().expect("the program runs");
    if !matches!(closed.code(), Some(5 | 0)) {
        return Err(format!("an output that is closed: status {closed:?}"));
    }
    let gone = Command::new("sh").args(["-c", "\"$0\" fold 1 2>/dev/null | true; exit 0"]).arg(program).current_dir(&room).status().expect("the program runs");
    if !gone.success() {
        return Err(format!("an output that nobody reads: {gone:?}"));
    }
    // Where the standard error takes nothing, or is closed, the lines and the status are as they are.
    for errors in ["2>/dev/full", "2>&-"] {
        let absent = Command::new("sh").args(["-c", &format!("exec \"$0\" fold 7 {errors}")]).arg(program).current_dir(&room).output().expect("the program runs");
        if absent.status.code() != Some(8) || absent.stdout != b"APPLIED_SCN 0\nEND 0 0 GAP 7 7\n" {
            return Err(format!("a standard error that takes nothing ({errors}): {absent:?}"));
        }
    }
    Ok(7)
}

fn main() {
    let args: Vec<OsString> = std::env::args_os().skip(1).collect();
    let [program, folder, count] = &args[..] else {
        panic!("hostile PROGRAM FOLDER COUNT");
    };
    let (program, folder) = (Path::new(program), Path::new(folder));
    let count: usize = count.to_str().and_then(|count| count.parse().ok()).expect("COUNT is a number");
    let tell = |what: String| -> Result<(), String> {
        let peak = peak();
        println!("{what}; peak {:.1} MB", peak as f64 * 1024.0 / 1e6);
        if peak <= MOST_MEMORY { Ok(()) } else { Err(format!("a run held {peak} KiB")) }
    };
    let told = |what: &str, counts: BTreeMap<i32, usize>| -> Result<(), String> {
        let runs: usize = counts.values().sum();
        let parts: Vec<String> = counts.iter().map(|(code, count)| format!("{count} with status {code}")).collect();
        tell(format!("{what}: {runs} runs: {}", parts.join(", ")))
    };
    let all = || -> Result<(), String> {
        for (name, log) in [("the first log", first()), ("a log of all kinds", all_kinds())] {
            let size = log.len();
            told(&format!("{name}, {size} bytes, each cut and each other byte"), logs(program, folder, |number| form(&log, number))?)?;
            let by_chance = |number| (number < count).then(|| changed(&log, &mut Chance::new(number)));
            told(&format!("{name}, changed by chance"), logs(program, folder, by_chance)?)?;
        }
        let by_chance = |number| (number < count).then(|| by_chance(&mut Chance::new(number)));
        told("records by chance", logs(program, folder, by_chance)?)?;
        tell(format!("words: {} runs", words(program, folder)?))?;
        tell(format!("words by chance: {} runs", words_by_chance(program, folder, 3000)?))?;
        tell(format!("outputs: {} runs", outputs(program, folder)?))?;
        tell(format!("devices: {} runs", devices(program, folder)?))
    };
    if let Err(fault) = all() {
        println!("{fault}");
        std::process::exit(1);
    }
}
