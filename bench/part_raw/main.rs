//! Times the partition store: rows of 64 bytes are put, read in random order, and sought by their keys. The words are the
//! numbers of rows.

#[path = "../random.rs"]
mod random;

use random::Random;

const ROUNDS: usize = 9;

/// What `part_raw_bench` answers: nanoseconds for each phase, and what it met.
#[repr(C)]
#[derive(Clone, Copy, Default)]
struct Times {
    put: u64,
    get: u64,
    find: u64,
    sum: u64,
    found: u64,
}

unsafe extern "C" {
    fn part_raw_bench(keys: *const u64, keys_len: usize, places: *const u32, places_len: usize, order: *const u32, order_len: usize, times: *mut Times) -> bool;
}

/// The keys in the order in which they are put, where each stands there, and the order in which they are read and sought.
struct Work {
    keys: Vec<u64>,
    places: Vec<u32>,
    order: Vec<u32>,
}

impl Work {
    fn new(count: usize) -> Work {
        let mut random = Random(0x9E37_79B9_7F4A_7C15);
        let keys = random.shuffled(count);
        let mut places = vec![0; count];
        for (place, key) in keys.iter().enumerate() {
            places[*key as usize] = place as u32;
        }
        Work {
            keys: keys.into_iter().map(u64::from).collect(),
            places,
            order: random.shuffled(count),
        }
    }
}

fn run(work: &Work) -> Times {
    let mut times = Times::default();
    // SAFETY: the slices are those of the vectors, and nothing is asked of what they hold.
    let held = unsafe {
        part_raw_bench(
            work.keys.as_ptr(),
            work.keys.len(),
            work.places.as_ptr(),
            work.places.len(),
            work.order.as_ptr(),
            work.order.len(),
            &mut times,
        )
    };
    assert!(held, "out of memory");
    times
}

fn best(a: Times, b: Times) -> Times {
    Times {
        put: a.put.min(b.put),
        get: a.get.min(b.get),
        find: a.find.min(b.find),
        ..b
    }
}

fn main() {
    let words: Vec<String> = std::env::args().skip(1).collect();
    let counts: Vec<usize> = match words.as_slice() {
        [] => vec![10_000, 1_000_000, 8_000_000],
        words => words.iter().map(|word| word.parse().expect("numbers of rows")).collect(),
    };
    println!("best of {ROUNDS} rounds, ns each");
    println!("\n| rows | put | get, each after the last | find by binary search |");
    println!("|---|---|---|---|");
    for count in counts {
        let work = Work::new(count);
        let times = (1..ROUNDS).fold(run(&work), |times, _| best(times, run(&work)));
        assert_eq!(times.sum, (0..count as u64).sum::<u64>());
        assert_eq!(times.found, count as u64);
        let each = |time: u64| time as f64 / count as f64;
        println!("| {count} | {:.1} | {:.1} | {:.1} |", each(times.put), each(times.get), each(times.find));
    }
}
