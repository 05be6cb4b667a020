//! What the library says of files that are no columns: each refusal has a number, a name and a
//! sentence.
//!
//!     cargo run --example refused [FILE...]

use std::{env, fs, io};

use signalfern::{Checked, Edition, Refusal};

fn main() -> io::Result<()> {
    let files: Vec<_> = env::args_os().skip(1).collect();
    if files.is_empty() {
        return small_ones();
    }
    for file in files {
        tell(&file.to_string_lossy(), &fs::read(&file)?);
    }
    Ok(())
}

/// A small column, and what may become of it.
fn small_ones() -> io::Result<()> {
    let sound = signalfern::write_to_vec(&[0, 2, 7], &[150, 140, 135], Edition::Plain, 9)?;
    let mut changed = sound.clone();
    changed[14] = 3;
    tell("as it was written", &sound);
    tell("cut off", &sound[..20]);
    tell("cut off early", &sound[..5]);
    tell("a byte changed", &changed);
    tell("a text", b"0 150\n2 140\n7 135\n");
    Ok(())
}

fn tell(name: &str, bytes: &[u8]) {
    match Checked::new(bytes) {
        Ok(column) => println!("{name}: sound, {} pairs", column.len()),
        Err(refusal) => println!("{name}: {}", sentence(refusal)),
    }
}

fn sentence(refusal: Refusal) -> String {
    format!(
        "refusal {}, {}: {refusal}",
        refusal.number(),
        refusal.name()
    )
}
