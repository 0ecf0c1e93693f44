//! Times the T-tree beside Rust's `BTreeMap`. With the words `find WHO TIMES` it only
//! seeks, that often, for a profiler.

#[path = "../random.rs"]
mod random;

use random::Random;
use std::cell::Cell;
use std::cmp::Ordering;
use std::collections::BTreeMap;
use std::hint::black_box;
use std::sync::OnceLock;
use std::time::Instant;

const COUNT: usize = 1_000_000;
const ROUNDS: usize = 5;

/// What `ttree_bench` answers: nanoseconds for each phase, and what it met.
#[repr(C)]
#[derive(Clone, Copy, Default)]
struct Times {
    insert: u64,
    find: u64,
    walk: u64,
    remove: u64,
    found: u64,
    asked: u64,
    sum: u64,
    height: u64,
}

type KeysTimed = unsafe extern "C" fn(
    *const i64,
    usize,
    *const u32,
    usize,
    *const i64,
    usize,
    *const u32,
    usize,
    *mut Times,
) -> bool;

unsafe extern "C" {
    fn ttree_bench_keys_16(keys: *const i64, keys_len: usize, inserted: *const u32, inserted_len: usize, sought: *const i64, sought_len: usize, removed: *const u32, removed_len: usize, times: *mut Times) -> bool;
    fn ttree_bench_keys_32(keys: *const i64, keys_len: usize, inserted: *const u32, inserted_len: usize, sought: *const i64, sought_len: usize, removed: *const u32, removed_len: usize, times: *mut Times) -> bool;
    fn ttree_bench_keys_64(keys: *const i64, keys_len: usize, inserted: *const u32, inserted_len: usize, sought: *const i64, sought_len: usize, removed: *const u32, removed_len: usize, times: *mut Times) -> bool;
    fn ttree_bench_numbers_32(inserted: *const u32, inserted_len: usize, sought: *const u32, sought_len: usize, removed: *const u32, removed_len: usize, times: *mut Times) -> bool;
}

/// A reference, as the T-tree holds it.
#[derive(Clone, Copy)]
struct Reference {
    part: u32,
    _slot: u32,
}

fn reference(part: u32) -> Reference {
    Reference { part, _slot: 0 }
}

/// The keys behind the references.
static KEYS: OnceLock<Vec<i64>> = OnceLock::new();

/// A reference that is ordered by the key behind it.
#[derive(Clone, Copy)]
struct Behind(Reference);

impl Behind {
    fn key(self) -> i64 {
        // SAFETY: the keys are set before any map is made, and there is one for each reference.
        unsafe { *KEYS.get().unwrap_unchecked().get_unchecked(self.0.part as usize) }
    }
}

impl Ord for Behind {
    fn cmp(&self, other: &Self) -> Ordering {
        self.key().cmp(&other.key()).then(self.0.part.cmp(&other.0.part))
    }
}

impl PartialOrd for Behind {
    fn partial_cmp(&self, other: &Self) -> Option<Ordering> {
        Some(self.cmp(other))
    }
}

impl PartialEq for Behind {
    fn eq(&self, other: &Self) -> bool {
        self.cmp(other).is_eq()
    }
}

impl Eq for Behind {}

thread_local! {
    static COMPARED: Cell<u64> = const { Cell::new(0) };
}

/// A key that counts its comparisons.
#[derive(PartialEq, Eq)]
struct Counted(i64);

impl Ord for Counted {
    fn cmp(&self, other: &Self) -> Ordering {
        COMPARED.set(COMPARED.get() + 1);
        self.0.cmp(&other.0)
    }
}

impl PartialOrd for Counted {
    fn partial_cmp(&self, other: &Self) -> Option<Ordering> {
        Some(self.cmp(other))
    }
}

/// The same work for all: the key behind each reference, and the orders of the phases.
struct Work {
    keys: Vec<i64>,
    inserted: Vec<u32>,
    sought: Vec<u32>,
    removed: Vec<u32>,
}

impl Work {
    fn new(count: usize) -> Work {
        let mut random = Random(0x9E37_79B9_7F4A_7C15);
        Work {
            keys: random.shuffled(count).into_iter().map(i64::from).collect(),
            inserted: (0..count as u32).collect(),
            sought: random.shuffled(count),
            removed: random.shuffled(count),
        }
    }

    fn key(&self, number: u32) -> i64 {
        self.keys[number as usize]
    }

    fn keys_of(&self, numbers: &[u32]) -> Vec<i64> {
        numbers.iter().map(|number| self.key(*number)).collect()
    }

    fn numbers_of(&self, numbers: &[u32]) -> Vec<u32> {
        numbers.iter().map(|number| self.key(*number) as u32).collect()
    }
}

fn nanoseconds(start: Instant) -> u64 {
    start.elapsed().as_nanos() as u64
}

fn ttree_by_keys(run: KeysTimed, work: &Work) -> Times {
    let sought = work.keys_of(&work.sought);
    let mut times = Times::default();
    // SAFETY: `inserted` and `removed` have each number below the number of keys once.
    let held = unsafe {
        run(
            work.keys.as_ptr(),
            work.keys.len(),
            work.inserted.as_ptr(),
            work.inserted.len(),
            sought.as_ptr(),
            sought.len(),
            work.removed.as_ptr(),
            work.removed.len(),
            &mut times,
        )
    };
    assert!(held, "out of memory");
    times
}

/// The keys are the references' own numbers.
fn ttree_by_numbers(work: &Work) -> Times {
    let inserted = work.numbers_of(&work.inserted);
    let sought = work.numbers_of(&work.sought);
    let removed = work.numbers_of(&work.removed);
    let mut times = Times::default();
    // SAFETY: `inserted` and `removed` have each number below the number of keys once.
    let held = unsafe {
        ttree_bench_numbers_32(
            inserted.as_ptr(),
            inserted.len(),
            sought.as_ptr(),
            sought.len(),
            removed.as_ptr(),
            removed.len(),
            &mut times,
        )
    };
    assert!(held, "out of memory");
    times
}

/// Keys in the map, each with its reference.
fn map_of_keys(work: &Work) -> Times {
    let sought = work.keys_of(&work.sought);
    let mut times = Times::default();
    let mut map = BTreeMap::new();

    let start = Instant::now();
    for number in &work.inserted {
        map.insert(work.key(*number), reference(*number));
    }
    times.insert = nanoseconds(start);

    let start = Instant::now();
    times.found = sought.iter().filter(|key| black_box(map.get(*key)).is_some()).count() as u64;
    times.find = nanoseconds(start);

    let start = Instant::now();
    times.sum = map.values().fold(0, |sum, r| sum + u64::from(r.part));
    times.walk = nanoseconds(start);

    let start = Instant::now();
    for number in &work.removed {
        map.remove(&work.key(*number));
    }
    times.remove = nanoseconds(start);
    assert!(map.is_empty());
    times
}

/// References alone in the map, ordered by the keys behind them.
fn map_of_references(work: &Work) -> Times {
    let mut times = Times::default();
    let mut map = BTreeMap::new();

    let start = Instant::now();
    for number in &work.inserted {
        map.insert(Behind(reference(*number)), ());
    }
    times.insert = nanoseconds(start);

    let start = Instant::now();
    let is_held = |number: &&u32| black_box(map.get(&Behind(reference(**number)))).is_some();
    times.found = work.sought.iter().filter(is_held).count() as u64;
    times.find = nanoseconds(start);

    let start = Instant::now();
    times.sum = map.keys().fold(0, |sum, r| sum + u64::from(r.0.part));
    times.walk = nanoseconds(start);

    let start = Instant::now();
    for number in &work.removed {
        map.remove(&Behind(reference(*number)));
    }
    times.remove = nanoseconds(start);
    assert!(map.is_empty());
    times
}

/// How many comparisons the map makes to find all.
fn map_compared(work: &Work) -> u64 {
    let mut map = BTreeMap::new();
    for number in &work.inserted {
        map.insert(Counted(work.key(*number)), reference(*number));
    }
    COMPARED.set(0);
    for number in &work.sought {
        black_box(map.get(&Counted(work.key(*number))));
    }
    COMPARED.get()
}

fn best(a: Times, b: Times) -> Times {
    Times {
        insert: a.insert.min(b.insert),
        find: a.find.min(b.find),
        walk: a.walk.min(b.walk),
        remove: a.remove.min(b.remove),
        ..b
    }
}

/// One row of a table: a phase at the T-tree and at the two maps, in nanoseconds for each reference.
fn row(name: &str, of: fn(&Times) -> u64, tree: &Times, maps: [&Times; 2]) {
    let each = |times: &Times| of(times) as f64 / COUNT as f64;
    let ratio = |map: &Times| of(tree) as f64 / of(map) as f64;
    println!(
        "| {name} | {:.0} | {:.0} | {:.2} | {:.0} | {:.2} |",
        each(tree),
        each(maps[0]),
        ratio(maps[0]),
        each(maps[1]),
        ratio(maps[1]),
    );
}

fn table(title: &str, tree: &Times, maps: [&Times; 2]) {
    println!("\n{title}\n");
    println!("| ns each | T-tree | map of keys | ratio | map of references | ratio |");
    println!("|---|---|---|---|---|---|");
    row("insert", |times| times.insert, tree, maps);
    row("find", |times| times.find, tree, maps);
    row("walk", |times| times.walk, tree, maps);
    row("remove", |times| times.remove, tree, maps);
    println!("\nheight {}, comparisons a find {:.1}", tree.height, tree.asked as f64 / COUNT as f64);
}

fn all(work: &Work) {
    let contenders: [&dyn Fn() -> Times; 6] = [
        &|| map_of_keys(work),
        &|| map_of_references(work),
        &|| ttree_by_keys(ttree_bench_keys_32, work),
        &|| ttree_by_numbers(work),
        &|| ttree_by_keys(ttree_bench_keys_16, work),
        &|| ttree_by_keys(ttree_bench_keys_64, work),
    ];
    let sum = (0..COUNT as u64).sum::<u64>();
    let mut times = contenders.map(|run| run());
    for _ in 1..ROUNDS {
        for (time, run) in times.iter_mut().zip(contenders) {
            *time = best(*time, run());
        }
    }
    for time in &times {
        assert_eq!((time.found, time.sum), (COUNT as u64, sum));
    }
    let [keys, references, by_key, by_number, of_16, of_64] = &times;
    println!("{COUNT} references, best of {ROUNDS} rounds");
    let compared = map_compared(work) as f64 / COUNT as f64;
    println!("comparisons a find in a map: {compared:.1}");
    table("Nodes of 30 to 32 references, keys behind them", by_key, [keys, references]);
    table("Nodes of 30 to 32 references that are their own keys", by_number, [keys, references]);
    table("Nodes of 14 to 16 references, keys behind them", of_16, [keys, references]);
    table("Nodes of 62 to 64 references, keys behind them", of_64, [keys, references]);
}

/// Runs one contender, which seeks all that often.
fn finds(who: &str, times: usize) {
    let mut work = Work::new(COUNT);
    work.sought = work.sought.repeat(times);
    let _ = KEYS.set(work.keys.clone());
    let met = match who {
        "tree" => ttree_by_keys(ttree_bench_keys_32, &work),
        "numbers" => ttree_by_numbers(&work),
        "keys" => map_of_keys(&work),
        "references" => map_of_references(&work),
        _ => panic!("find tree, numbers, keys or references"),
    };
    println!("{} finds, {:.0} ns each", met.found, met.find as f64 / met.found as f64);
}

fn main() {
    let words: Vec<String> = std::env::args().skip(1).collect();
    if let [find, who, times] = words.as_slice()
        && find == "find"
    {
        return finds(who, times.parse().expect("a number"));
    }
    let work = Work::new(COUNT);
    let _ = KEYS.set(work.keys.clone());
    all(&work);
}
