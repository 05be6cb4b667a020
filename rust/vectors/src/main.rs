//! Writes the vectors and `numbers.json` into a folder: `cargo run -p signalfern-vectors -- ../conformance`.

use std::path::PathBuf;
use std::{env, fs, io};

fn main() -> io::Result<()> {
    let folder = PathBuf::from(env::args_os().nth(1).expect("the folder `conformance`"));
    fs::write(
        folder.join("numbers.json"),
        signalfern_vectors::numbers_file(),
    )?;
    for (name, text) in signalfern_vectors::files() {
        fs::write(folder.join("vectors").join(&name), &text)?;
        println!(
            "{name}: {} vectors, {} bytes",
            text.lines().count(),
            text.len()
        );
    }
    Ok(())
}
