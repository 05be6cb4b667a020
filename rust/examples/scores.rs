//! Scores written to a file and asked again.
//!
//!     cargo run --example scores [FILE]

use std::collections::BTreeMap;
use std::path::PathBuf;
use std::{env, fs, io};

use signalfern::{write_pairs, Checked, Edition, USUAL_POWER};

fn main() -> io::Result<()> {
    let path = env::args_os()
        .nth(1)
        .map_or_else(|| env::temp_dir().join("scores.column"), PathBuf::from);

    // A column is written from pairs in ascending order of their ids.
    let scores = BTreeMap::from([(7, 135), (0, 150), (70_000, -20), (2, 140)]);
    fs::write(&path, write_pairs(scores, Edition::Plain, USUAL_POWER)?)?;

    // It is checked once, and then asked as often as one likes.
    let bytes = fs::read(&path)?;
    let scores = Checked::new(&bytes)?;
    println!("{} pairs in {} bytes", scores.len(), bytes.len());
    for id in [2, 3] {
        match scores.get(id) {
            Some(score) => println!("{id}: {score}"),
            None => println!("{id}: not listed"),
        }
    }
    println!("from 3 on:");
    for (id, score) in scores.iter_from(3) {
        println!("{id} {score}");
    }
    Ok(())
}
