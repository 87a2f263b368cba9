//! The same blocks in ordinary Rust: ordered maps under one mutex, and as many threads as the first word says, each of which takes lanes
//! until none is left and holds the mutex for a block at a time.
//!
//! It does: the same answers, an index as a set of pairs (value, key), undoing what is refused. It doesn't: keep versions, let two blocks
//! run beside each other, test its text, or prove anything.
use std::collections::{BTreeMap, BTreeSet};
use std::fmt::Write as _;
use std::io::{Read, Write as _};
use std::sync::Mutex;
use std::sync::atomic::{AtomicUsize, Ordering};

type Row = [u64; 6];

#[derive(Clone, Copy)]
enum Command {
    Get { table: usize, key: u64, column: usize },
    Put { table: usize, key: u64, row: Row },
    Insert { table: usize, key: u64, row: Row },
    Delete { table: usize, key: u64 },
    Add { table: usize, key: u64, column: usize, by: u64 },
    Subtract { table: usize, key: u64, column: usize, by: u64 },
    Scan { table: usize, low: u64, high: u64, most: usize },
    Find { table: usize, low: u64, high: u64, most: usize },
}

struct Block {
    snapshot: bool,
    commands: Vec<Command>,
}

struct Table {
    name: String,
    columns: usize,
    /// Which column has an index.
    indexed: Option<usize>,
    rows: BTreeMap<u64, Row>,
    index: BTreeSet<(u64, u64)>,
}

impl Table {
    /// Sets a row or takes it away; the old one.
    fn set(&mut self, key: u64, row: Option<Row>) -> Option<Row> {
        let old = match row {
            Some(row) => self.rows.insert(key, row),
            None => self.rows.remove(&key),
        };
        if let Some(column) = self.indexed {
            if old.map(|row| row[column]) != row.map(|row| row[column]) {
                old.map(|row| self.index.remove(&(row[column], key)));
                row.map(|row| self.index.insert((row[column], key)));
            }
        }
        old
    }

    fn print(&self, start: &str, key: u64, row: &Row, out: &mut String) {
        let _ = write!(out, "{start}{key}");
        for value in &row[..self.columns] {
            let _ = write!(out, " {value}");
        }
        out.push('\n');
    }
}

struct Store {
    tables: Vec<Table>,
    /// How many transaction blocks have run.
    stamp: u64,
}

/// Where a block stands in the report: behind the transaction block of the same stamp; those that stand there by lane and number.
type Place = (u64, bool, usize, usize);

/// A block's place, and where its text is.
type Piece = (Place, std::ops::Range<usize>);

fn number(word: &str) -> u64 {
    word.parse().unwrap()
}

fn row_of(words: &[&str]) -> Row {
    let mut row = [0; 6];
    for (value, word) in row.iter_mut().zip(words) {
        *value = number(word);
    }
    row
}

fn command_of(words: &[&str], tables: &[Table], second: bool) -> Command {
    let table = tables.iter().position(|table| table.name == words[1]).unwrap();
    let key = number(words[2]);
    let column = if second && matches!(words[0], "get" | "add" | "sub") { number(words[3]) as usize - 1 } else { 0 };
    match words[0] {
        "get" => Command::Get { table, key, column },
        "put" | "row" => Command::Put { table, key, row: row_of(&words[3..]) },
        "ins" => Command::Insert { table, key, row: row_of(&words[3..]) },
        "del" => Command::Delete { table, key },
        "add" => Command::Add { table, key, column, by: number(words[words.len() - 1]) },
        "sub" => Command::Subtract { table, key, column, by: number(words[words.len() - 1]) },
        "scan" => Command::Scan { table, low: key, high: number(words[3]), most: number(words[4]) as usize },
        _ => Command::Find { table, low: number(words[3]), high: number(words[4]), most: number(words[5]) as usize },
    }
}

/// The tables with their rows, and the lanes.
fn read(text: &str) -> (Vec<Table>, Vec<Vec<Block>>) {
    let (mut tables, mut lanes) = (Vec::<Table>::new(), Vec::<Vec<Block>>::new());
    let second = text.starts_with("cicada 2");
    let mut words = Vec::with_capacity(9);
    for line in text.lines().skip(1) {
        words.clear();
        words.extend(line.split(' '));
        match words[0] {
            "table" => tables.push(Table {
                name: words[1].to_string(),
                columns: words.get(2).map_or(1, |word| number(word) as usize),
                indexed: None,
                rows: BTreeMap::new(),
                index: BTreeSet::new(),
            }),
            "index" => tables.iter_mut().find(|table| table.name == words[1]).unwrap().indexed = Some(number(words[2]) as usize - 1),
            "row" => {
                if let Command::Put { table, key, row } = command_of(&words, &tables, second) {
                    tables[table].set(key, Some(row));
                }
            }
            "lane" => lanes.push(Vec::new()),
            "txn" | "snap" => lanes.last_mut().unwrap().push(Block { snapshot: words[0] == "snap", commands: Vec::new() }),
            "end" | "done" => {}
            _ => lanes.last_mut().unwrap().last_mut().unwrap().commands.push(command_of(&words, &tables, second)),
        }
    }
    (tables, lanes)
}

type Undo = Vec<(usize, u64, Option<Row>)>;

/// Runs a command, and appends its answers; why not, where it is refused.
fn run_command(command: Command, tables: &mut [Table], undo: &mut Undo, out: &mut String) -> Result<(), &'static str> {
    let mut set = |tables: &mut [Table], table: usize, key: u64, row: Option<Row>| {
        let old = tables[table].set(key, row);
        undo.push((table, key, old));
        old
    };
    match command {
        Command::Get { table, key, column } => {
            let _ = match tables[table].rows.get(&key) {
                Some(row) => writeln!(out, "= {}", row[column]),
                None => writeln!(out, "= none"),
            };
        }
        Command::Put { table, key, row } => {
            set(tables, table, key, Some(row));
        }
        Command::Insert { table, key, row } => {
            if tables[table].rows.contains_key(&key) {
                return Err("exists");
            }
            set(tables, table, key, Some(row));
        }
        Command::Delete { table, key } => {
            set(tables, table, key, None).ok_or("missing")?;
        }
        Command::Add { table, key, column, by } => {
            let mut row = *tables[table].rows.get(&key).ok_or("missing")?;
            row[column] = row[column].checked_add(by).ok_or("over")?;
            set(tables, table, key, Some(row));
        }
        Command::Subtract { table, key, column, by } => {
            let mut row = *tables[table].rows.get(&key).ok_or("missing")?;
            row[column] = row[column].checked_sub(by).ok_or("short")?;
            set(tables, table, key, Some(row));
        }
        Command::Scan { table, low, high, most } if low <= high => {
            let table = &tables[table];
            for (key, row) in table.rows.range(low..=high).take(most) {
                table.print(": ", *key, row, out);
            }
        }
        Command::Find { table, low, high, most } if low <= high => {
            let table = &tables[table];
            for (_, key) in table.index.range((low, 0)..=(high, u64::MAX)).take(most) {
                table.print(": ", *key, &table.rows[key], out);
            }
        }
        Command::Scan { .. } | Command::Find { .. } => {}
    }
    Ok(())
}

/// Runs a block under the mutex: its stamp, and the command that was refused. Answers are appended.
fn run_block(block: &Block, store: &Mutex<Store>, undo: &mut Undo, out: &mut String) -> (u64, Option<(usize, &'static str)>) {
    let mut store = store.lock().unwrap();
    let start = out.len();
    store.stamp += !block.snapshot as u64;
    undo.clear();
    for (place, command) in block.commands.iter().enumerate() {
        if let Err(cause) = run_command(*command, &mut store.tables, undo, out) {
            out.truncate(start);
            for (table, key, old) in undo.drain(..).rev() {
                store.tables[table].set(key, old);
            }
            return (store.stamp, Some((place + 1, cause)));
        }
    }
    (store.stamp, None)
}

/// Takes lanes until none is left; the pieces of the report, and their text.
fn work(lanes: &[Vec<Block>], next: &AtomicUsize, store: &Mutex<Store>) -> (Vec<Piece>, String) {
    let (mut pieces, mut text, mut answers, mut undo) = (Vec::new(), String::new(), String::new(), Vec::new());
    loop {
        let lane = next.fetch_add(1, Ordering::Relaxed);
        let Some(blocks) = lanes.get(lane) else {
            return (pieces, text);
        };
        for (number, block) in blocks.iter().enumerate() {
            answers.clear();
            let (stamp, refused) = run_block(block, store, &mut undo, &mut answers);
            let start = text.len();
            let _ = write!(text, "{stamp} {}.{} ", lane + 1, number + 1);
            let _ = match refused {
                Some((command, cause)) => writeln!(text, "no {command} {cause}"),
                None => writeln!(text, "{}", if block.snapshot { "snap" } else { "ok" }),
            };
            text.push_str(&answers);
            pieces.push(((stamp, block.snapshot, lane, number), start..text.len()));
        }
    }
}

fn main() {
    let threads = std::env::args().nth(1).map_or(1, |word| word.parse::<usize>().unwrap());
    let mut text = String::new();
    std::io::stdin().read_to_string(&mut text).unwrap();
    let (tables, lanes) = read(&text);
    let (store, next) = (Mutex::new(Store { tables, stamp: 0 }), AtomicUsize::new(0));
    let worked: Vec<_> = std::thread::scope(|scope| {
        let workers: Vec<_> = (0..threads).map(|_| scope.spawn(|| work(&lanes, &next, &store))).collect();
        workers.into_iter().map(|worker| worker.join().unwrap()).collect()
    });
    let mut pieces: Vec<_> =
        worked.iter().flat_map(|(pieces, text)| pieces.iter().map(move |(place, at)| (*place, &text[at.clone()]))).collect();
    pieces.sort_unstable_by_key(|&(place, _)| place);
    let mut out = String::new();
    for (_, piece) in pieces {
        out.push_str(piece);
    }
    for table in &store.into_inner().unwrap().tables {
        let _ = writeln!(out, "table {}", table.name);
        for (key, row) in &table.rows {
            table.print("", *key, row, &mut out);
        }
    }
    out.push_str("done\n");
    std::io::stdout().write_all(out.as_bytes()).unwrap();
}
