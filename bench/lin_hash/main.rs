//! Times the linear hash beside Rust's `HashMap`.

#[path = "../random.rs"]
mod random;

use random::Random;
use std::collections::{HashMap, HashSet};
use std::hash::{BuildHasher, BuildHasherDefault, Hasher};
use std::hint::black_box;
use std::time::Instant;

/// How many entries there are, and how many rounds the best is taken of.
const SIZES: [(usize, usize); 3] = [(1_000, 2_000), (30_000, 100), (1_000_000, 7)];

/// The long chains: entries, hashes, removals and rounds.
const CHAINED: usize = 1_000_000;
const CHAINS: usize = 10;
const CHAINED_REMOVALS: usize = 100;
const CHAINED_ROUNDS: usize = 3;

/// What `lin_hash_bench` answers: nanoseconds for each phase, and what it met.
#[repr(C)]
#[derive(Clone, Copy, Default)]
struct Times {
    insert_reserved: u64,
    insert_growing: u64,
    look_up: u64,
    remove: u64,
    found: u64,
    removed: u64,
}

unsafe extern "C" {
    fn lin_hash_bench_distinct(hashes: *const u32, hashes_len: usize, sought: *const u32, sought_len: usize, removed_hashes: *const u32, removed_hashes_len: usize, removed: *const u32, removed_len: usize, times: *mut Times) -> bool;
    fn lin_hash_bench_chains(hashes: *const u32, hashes_len: usize, removed_hashes: *const u32, removed_hashes_len: usize, removed: *const u32, removed_len: usize, times: *mut Times) -> bool;
}

/// A hasher that gives the number itself, twice: the map takes a place from the low bits, and tells entries apart by the
/// high ones.
#[derive(Default)]
struct Itself(u64);

impl Hasher for Itself {
    fn write(&mut self, _: &[u8]) {
        unreachable!("only numbers of 32 bits are hashed");
    }

    fn write_u32(&mut self, number: u32) {
        self.0 = u64::from(number) << 32 | u64::from(number);
    }

    fn finish(&self) -> u64 {
        self.0
    }
}

/// The same work for all: the hash of each reference, and the orders of the phases.
struct Work {
    hashes: Vec<u32>,
    sought: Vec<u32>,
    removed: Vec<u32>,
    removed_hashes: Vec<u32>,
}

impl Work {
    fn new(mut random: Random, hashes: Vec<u32>, removals: usize) -> Work {
        let hashes_of = |numbers: &[u32]| numbers.iter().map(|number| hashes[*number as usize]).collect();
        let sought = hashes_of(&random.shuffled(hashes.len()));
        let mut removed = random.shuffled(hashes.len());
        removed.truncate(removals);
        let removed_hashes = hashes_of(&removed);
        Work { hashes, sought, removed, removed_hashes }
    }

    fn distinct(count: usize) -> Work {
        let mut random = Random(0x9E37_79B9_7F4A_7C15);
        let hashes = distinct_hashes(&mut random, count);
        Work::new(random, hashes, count)
    }

    fn chained() -> Work {
        let mut random = Random(0x9E37_79B9_7F4A_7C15);
        let few = distinct_hashes(&mut random, CHAINS);
        let hashes = (0..CHAINED).map(|number| few[number % few.len()]).collect();
        Work::new(random, hashes, CHAINED_REMOVALS)
    }
}

/// So many hashes, no two alike.
fn distinct_hashes(random: &mut Random, count: usize) -> Vec<u32> {
    let mut seen = HashSet::new();
    random.map(|number| number as u32).filter(|hash| seen.insert(*hash)).take(count).collect()
}

fn nanoseconds(start: Instant) -> u64 {
    start.elapsed().as_nanos() as u64
}

fn index(work: &Work) -> Times {
    let mut times = Times::default();
    // SAFETY: each slice is passed by its own address and length.
    let held = unsafe {
        lin_hash_bench_distinct(
            work.hashes.as_ptr(),
            work.hashes.len(),
            work.sought.as_ptr(),
            work.sought.len(),
            work.removed_hashes.as_ptr(),
            work.removed_hashes.len(),
            work.removed.as_ptr(),
            work.removed.len(),
            &mut times,
        )
    };
    assert!(held, "out of memory");
    times
}

fn chains(work: &Work) -> Times {
    let mut times = Times::default();
    // SAFETY: each slice is passed by its own address and length.
    let held = unsafe {
        lin_hash_bench_chains(
            work.hashes.as_ptr(),
            work.hashes.len(),
            work.removed_hashes.as_ptr(),
            work.removed_hashes.len(),
            work.removed.as_ptr(),
            work.removed.len(),
            &mut times,
        )
    };
    assert!(held, "out of memory");
    times
}

fn fill<S: BuildHasher>(map: &mut HashMap<u32, u64, S>, hashes: &[u32]) -> u64 {
    let start = Instant::now();
    for (number, hash) in hashes.iter().enumerate() {
        map.insert(*hash, number as u64);
    }
    nanoseconds(start)
}

fn map<S: BuildHasher + Default>(work: &Work) -> Times {
    let mut times = Times::default();
    let mut reserved = HashMap::with_capacity_and_hasher(work.hashes.len(), S::default());
    times.insert_reserved = fill(&mut reserved, &work.hashes);
    drop(reserved);

    let mut map = HashMap::with_hasher(S::default());
    times.insert_growing = fill(&mut map, &work.hashes);

    let start = Instant::now();
    times.found = work.sought.iter().filter(|hash| black_box(map.get(*hash)).is_some()).count() as u64;
    times.look_up = nanoseconds(start);

    let start = Instant::now();
    for (hash, number) in work.removed_hashes.iter().zip(&work.removed) {
        if map.get(hash) == Some(&u64::from(*number)) {
            map.remove(hash);
            times.removed += 1;
        }
    }
    times.remove = nanoseconds(start);
    times
}

fn best(a: Times, b: Times) -> Times {
    Times {
        insert_reserved: a.insert_reserved.min(b.insert_reserved),
        insert_growing: a.insert_growing.min(b.insert_growing),
        look_up: a.look_up.min(b.look_up),
        remove: a.remove.min(b.remove),
        ..b
    }
}

/// One row of the table: a phase at the index and at the two maps, in nanoseconds for each entry.
fn row(count: usize, name: &str, of: fn(&Times) -> u64, times: &[Times; 3]) {
    let each = |times: &Times| of(times) as f64 / count as f64;
    let [index, standard, itself] = times;
    println!(
        "| {count} | {name} | {:.1} | {:.1} | {:.1} | {:.1} | {:.1} |",
        each(index),
        each(standard),
        each(index) / each(standard),
        each(itself),
        each(index) / each(itself),
    );
}

fn table(count: usize, rounds: usize) {
    let work = Work::distinct(count);
    let contenders: [fn(&Work) -> Times; 3] =
        [index, map::<std::hash::RandomState>, map::<BuildHasherDefault<Itself>>];
    let mut times = contenders.map(|run| run(&work));
    for _ in 1..rounds {
        for (time, run) in times.iter_mut().zip(contenders) {
            *time = best(*time, run(&work));
        }
    }
    for time in &times {
        assert_eq!((time.found, time.removed), (count as u64, count as u64));
    }
    row(count, "insert, after `reserve` of all", |times| times.insert_reserved, &times);
    row(count, "insert, growing", |times| times.insert_growing, &times);
    row(count, "look-up by `chain`", |times| times.look_up, &times);
    row(count, "look-up by `matching`, then remove", |times| times.remove, &times);
}

fn main() {
    println!("| Entries | ns a call | Index | Standard map | Ratio | With no hashing | Ratio |");
    println!("|---|---|---|---|---|---|---|");
    for (count, rounds) in SIZES {
        table(count, rounds);
    }
    let work = Work::chained();
    let times = (0..CHAINED_ROUNDS).map(|_| chains(&work)).reduce(best).expect("a round");
    assert_eq!(times.removed, CHAINED_REMOVALS as u64);
    let each = |total: u64, count: usize| total as f64 / count as f64;
    println!("\n{CHAINED} entries under {CHAINS} hashes, in nanoseconds a call:");
    println!("insert, growing {:.1}", each(times.insert_growing, CHAINED));
    println!("remove {:.0}", each(times.remove, CHAINED_REMOVALS));
}
