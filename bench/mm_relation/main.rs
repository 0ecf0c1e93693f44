//! Times the rows of one table beside a plain Rust program. With the words `WHO INDEXES COUNT` one of them runs once, at
//! so many rows, for a profiler: `relation` or `plain`, and `none`, `tree`, `hash` or `both`.

#[path = "../random.rs"]
mod random;

use random::Random;
use std::collections::{BTreeMap, BTreeSet, HashMap};
use std::time::Instant;

const COUNT: usize = 1_000_000;
const ROUNDS: usize = 2;

/// A row as it comes in.
#[repr(C)]
#[derive(Clone, Copy)]
struct Line {
    key: i64,
    number: i64,
    letters: [u8; 8],
}

/// What `mm_relation_bench` answers: nanoseconds for each phase, and what it met.
#[repr(C)]
#[derive(Clone, Copy, Default)]
struct Times {
    insert: u64,
    find_keys: u64,
    find_numbers: u64,
    find_texts: u64,
    change_numbers: u64,
    change_texts: u64,
    change_all: u64,
    remove: u64,
    met: u64,
    left: u64,
}

unsafe extern "C" {
    fn mm_relation_bench(lines: *const Line, lines_len: usize, sought: *const Line, sought_len: usize, order: *const u32, order_len: usize, changed: *const Line, changed_len: usize, tree: bool, hash: bool, times: *mut Times) -> bool;
    fn mm_relation_bench_keep(lines: *const Line, lines_len: usize, tree: bool, hash: bool) -> bool;
    fn mallinfo2() -> MallInfo;
}

/// What the C library tells of its heap.
#[repr(C)]
struct MallInfo {
    _arena: usize,
    _ordblks: usize,
    _smblks: usize,
    _hblks: usize,
    hblkhd: usize,
    _usmblks: usize,
    _fsmblks: usize,
    uordblks: usize,
    _fordblks: usize,
    _keepcost: usize,
}

/// The bytes that are taken from the heap, with what the allocator keeps beside each block.
fn taken() -> usize {
    // SAFETY: it takes nothing and only reads.
    let info = unsafe { mallinfo2() };
    info.uordblks + info.hblkhd
}

impl Random {
    /// A row whose number is shared with about one other, and whose text is mostly its own.
    fn line(&mut self, key: u32, count: usize) -> Line {
        Line {
            key: i64::from(key),
            number: self.below(count) as i64,
            letters: std::array::from_fn(|_| b'a' + self.below(26) as u8),
        }
    }
}

/// Which indexes are declared.
#[derive(Clone, Copy)]
struct Indexes {
    name: &'static str,
    tree: bool,
    hash: bool,
}

const ALL_INDEXES: [Indexes; 4] = [
    Indexes { name: "none", tree: false, hash: false },
    Indexes { name: "tree", tree: true, hash: false },
    Indexes { name: "hash", tree: false, hash: true },
    Indexes { name: "both", tree: true, hash: true },
];

/// The same work for both: the rows as they come in, those that are sought, and the order in which rows are changed and
/// taken out, by their places among those that came in.
struct Work {
    lines: Vec<Line>,
    sought: Vec<Line>,
    order: Vec<u32>,
    changed: Vec<Line>,
}

impl Work {
    fn new(count: usize) -> Work {
        let mut random = Random(0x9E37_79B9_7F4A_7C15);
        let keys = random.shuffled(count);
        let lines: Vec<Line> = keys.iter().map(|key| random.line(*key, count)).collect();
        let sought = random.shuffled(count).iter().map(|place| lines[*place as usize]).collect();
        let order = random.shuffled(count);
        let changed = (0..count).map(|_| random.line(0, count)).collect();
        Work { lines, sought, order, changed }
    }
}

fn nanoseconds(start: Instant) -> u64 {
    start.elapsed().as_nanos() as u64
}

fn relation(work: &Work, indexes: Indexes) -> Times {
    let mut times = Times::default();
    // SAFETY: the order has each place of a row once.
    let held = unsafe {
        mm_relation_bench(
            work.lines.as_ptr(),
            work.lines.len(),
            work.sought.as_ptr(),
            work.sought.len(),
            work.order.as_ptr(),
            work.order.len(),
            work.changed.as_ptr(),
            work.changed.len(),
            indexes.tree,
            indexes.hash,
            &mut times,
        )
    };
    assert!(held, "out of memory");
    times
}

/// A row of the plain program.
struct Row {
    key: i64,
    number: i64,
    text: String,
}

/// The plain program: rows in a vector, and maps of their places. Many rows may have one number, so the tree of the
/// numbers is a set of pairs.
struct Table {
    rows: Vec<Option<Row>>,
    free: Vec<u32>,
    by_key: BTreeMap<i64, u32>,
    by_number: Option<BTreeSet<(i64, u32)>>,
    by_text: Option<HashMap<String, Vec<u32>>>,
}

/// Takes a place from under a text.
fn unlist(by_text: &mut HashMap<String, Vec<u32>>, text: &str, place: u32) {
    if let Some(places) = by_text.get_mut(text) {
        if let Some(at) = places.iter().position(|other| *other == place) {
            places.swap_remove(at);
        }
        if places.is_empty() {
            by_text.remove(text);
        }
    }
}

impl Table {
    fn new(indexes: Indexes) -> Table {
        Table {
            rows: Vec::new(),
            free: Vec::new(),
            by_key: BTreeMap::new(),
            by_number: indexes.tree.then(BTreeSet::new),
            by_text: indexes.hash.then(HashMap::new),
        }
    }

    /// None where the key is there.
    fn insert(&mut self, row: Row) -> Option<u32> {
        let place = self.free.last().copied().unwrap_or(self.rows.len() as u32);
        match self.by_key.entry(row.key) {
            std::collections::btree_map::Entry::Occupied(_) => return None,
            std::collections::btree_map::Entry::Vacant(entry) => entry.insert(place),
        };
        if let Some(by_number) = &mut self.by_number {
            by_number.insert((row.number, place));
        }
        if let Some(by_text) = &mut self.by_text {
            by_text.entry(row.text.clone()).or_default().push(place);
        }
        if self.free.pop().is_some() {
            self.rows[place as usize] = Some(row);
        } else {
            self.rows.push(Some(row));
        }
        Some(place)
    }

    fn row(&self, place: u32) -> Option<&Row> {
        self.rows[place as usize].as_ref()
    }

    fn find_key(&self, key: i64) -> Option<&Row> {
        self.row(*self.by_key.get(&key)?)
    }

    fn find_number(&self, number: i64) -> impl Iterator<Item = &Row> {
        let places = self.by_number.iter().flat_map(move |set| set.range((number, 0)..=(number, u32::MAX)));
        places.filter_map(|(_, place)| self.row(*place))
    }

    fn find_text(&self, text: &str) -> impl Iterator<Item = &Row> {
        let places = self.by_text.as_ref().and_then(|map| map.get(text)).into_iter().flatten();
        places.filter_map(|place| self.row(*place))
    }

    fn set_number(&mut self, place: u32, number: i64) {
        let Some(row) = &mut self.rows[place as usize] else { return };
        if let Some(by_number) = &mut self.by_number {
            by_number.remove(&(row.number, place));
            by_number.insert((number, place));
        }
        row.number = number;
    }

    fn set_text(&mut self, place: u32, text: String) {
        let Some(row) = &mut self.rows[place as usize] else { return };
        if let Some(by_text) = &mut self.by_text {
            unlist(by_text, &row.text, place);
            by_text.entry(text.clone()).or_default().push(place);
        }
        row.text = text;
    }

    fn remove(&mut self, place: u32) {
        let Some(row) = self.rows[place as usize].take() else { return };
        self.by_key.remove(&row.key);
        if let Some(by_number) = &mut self.by_number {
            by_number.remove(&(row.number, place));
        }
        if let Some(by_text) = &mut self.by_text {
            unlist(by_text, &row.text, place);
        }
        self.free.push(place);
    }
}

fn text_of(line: &Line) -> String {
    std::str::from_utf8(&line.letters).expect("letters").to_owned()
}

fn row_of(line: &Line) -> Row {
    Row { key: line.key, number: line.number, text: text_of(line) }
}

fn fill(table: &mut Table, lines: &[Line]) -> Vec<u32> {
    lines.iter().map(|line| table.insert(row_of(line)).expect("a key that is not there")).collect()
}

fn plain(work: &Work, indexes: Indexes) -> Times {
    let mut times = Times::default();
    let mut table = Table::new(indexes);
    let start = Instant::now();
    let places = fill(&mut table, &work.lines);
    times.insert = nanoseconds(start);

    let key_of = |row: &Row| row.key.unsigned_abs();
    let start = Instant::now();
    times.met = work.sought.iter().filter_map(|line| table.find_key(line.key)).map(|row| row.number.unsigned_abs()).sum();
    times.find_keys = nanoseconds(start);
    if indexes.tree {
        let start = Instant::now();
        times.met += work.sought.iter().flat_map(|line| table.find_number(line.number)).map(key_of).sum::<u64>();
        times.find_numbers = nanoseconds(start);
    }
    if indexes.hash {
        let texts: Vec<String> = work.sought.iter().map(text_of).collect();
        let start = Instant::now();
        times.met += texts.iter().flat_map(|text| table.find_text(text)).map(key_of).sum::<u64>();
        times.find_texts = nanoseconds(start);
    }

    let in_order = || work.order.iter().map(|place| places[*place as usize]);
    let start = Instant::now();
    for (place, line) in in_order().zip(&work.changed) {
        table.set_number(place, line.number);
    }
    times.change_numbers = nanoseconds(start);
    let start = Instant::now();
    for (place, line) in in_order().zip(&work.changed) {
        table.set_text(place, text_of(line));
    }
    times.change_texts = nanoseconds(start);
    let start = Instant::now();
    for place in &places {
        table.set_number(*place, 7);
    }
    times.change_all = nanoseconds(start);

    let start = Instant::now();
    for place in in_order() {
        table.remove(place);
    }
    times.remove = nanoseconds(start);
    times.left = table.by_key.len() as u64;
    times
}

/// The bytes that the rows and their indexes take, of the relation and of the plain program. The first are never given
/// back.
fn memory(work: &Work, indexes: Indexes) -> (usize, usize) {
    let before = taken();
    // SAFETY: the lines are those of a vector, and nothing is asked of them.
    let held = unsafe { mm_relation_bench_keep(work.lines.as_ptr(), work.lines.len(), indexes.tree, indexes.hash) };
    assert!(held, "out of memory");
    let between = taken();
    let mut table = Table::new(indexes);
    drop(fill(&mut table, &work.lines));
    (between - before, taken() - between)
}

fn best(a: Times, b: Times) -> Times {
    Times {
        insert: a.insert.min(b.insert),
        find_keys: a.find_keys.min(b.find_keys),
        find_numbers: a.find_numbers.min(b.find_numbers),
        find_texts: a.find_texts.min(b.find_texts),
        change_numbers: a.change_numbers.min(b.change_numbers),
        change_texts: a.change_texts.min(b.change_texts),
        change_all: a.change_all.min(b.change_all),
        remove: a.remove.min(b.remove),
        ..b
    }
}

/// One row of the table: what each took for each row, and the ratio.
fn line(count: usize, indexes: Indexes, name: &str, relation: u64, plain: u64) {
    let each = |total: u64| total as f64 / count as f64;
    println!("| {} | {name} | {:.0} | {:.0} | {:.2} |", indexes.name, each(relation), each(plain), each(relation) / each(plain));
}

fn table(count: usize, indexes: Indexes, relation: &Times, plain: &Times) {
    let phases: [(&str, bool, fn(&Times) -> u64); 8] = [
        ("insert", true, |times| times.insert),
        ("find by key", true, |times| times.find_keys),
        ("find by the number's tree", indexes.tree, |times| times.find_numbers),
        ("find by the text's hash", indexes.hash, |times| times.find_texts),
        ("set the number of one row", true, |times| times.change_numbers),
        ("set the text of one row", true, |times| times.change_texts),
        ("set the number of all rows", true, |times| times.change_all),
        ("remove", true, |times| times.remove),
    ];
    for (name, _, of) in phases.into_iter().filter(|(_, is_run, _)| *is_run) {
        line(count, indexes, name, of(relation), of(plain));
    }
}

fn compare(work: &Work) {
    println!("{COUNT} rows, best of {ROUNDS} rounds\n");
    println!("| indexes | ns a row | relation | plain | ratio |");
    println!("|---|---|---|---|---|");
    for indexes in ALL_INDEXES {
        let mut times = [relation(work, indexes), plain(work, indexes)];
        for _ in 1..ROUNDS {
            times[0] = best(times[0], relation(work, indexes));
            times[1] = best(times[1], plain(work, indexes));
        }
        let [relation, plain] = &times;
        assert_eq!((relation.met, relation.left), (plain.met, plain.left));
        table(COUNT, indexes, relation, plain);
    }
    println!("\n| indexes | bytes a row | relation | plain | ratio |");
    println!("|---|---|---|---|---|");
    for indexes in ALL_INDEXES {
        let (relation, plain) = memory(work, indexes);
        line(COUNT, indexes, "kept", relation as u64, plain as u64);
    }
}

/// Runs one of the two once, with the indexes of this name.
fn only(who: &str, name: &str, work: &Work) {
    let indexes = ALL_INDEXES.into_iter().find(|indexes| indexes.name == name).expect("none, tree, hash or both");
    let times = match who {
        "relation" => relation(work, indexes),
        "plain" => plain(work, indexes),
        _ => panic!("relation or plain"),
    };
    assert_eq!(times.left, 0);
    table(work.lines.len(), indexes, &times, &times);
}

fn main() {
    let words: Vec<String> = std::env::args().skip(1).collect();
    match words.as_slice() {
        [] => compare(&Work::new(COUNT)),
        [who, name, count] => only(who, name, &Work::new(count.parse().expect("a number of rows"))),
        _ => panic!("no words, or WHO INDEXES COUNT"),
    }
}
