//! Restores a database from a file, and saves it to another. The words are the most bytes of a block, and the two files.

use std::env;

use mmdb::{Database, Limits, Policy, Result};

fn main() -> Result<()> {
    let words: Vec<String> = env::args().skip(1).collect();
    let (block, from, to) = (&words[0], &words[1], &words[2]);
    let limits = Limits {
        block: block.parse().expect("a number"),
        ..Limits::default()
    };
    let from = std::fs::File::open(from).expect("a file");
    let told = Database::restore_as(Policy::Auto, limits, from).and_then(|db| db.save_file(to));
    if let Err(why) = told {
        println!("{why}");
    }
    Ok(())
}
