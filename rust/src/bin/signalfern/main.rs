//! The tool `signalfern`: writes, checks, reads, asks and shows score columns.
//!
//! `table` holds the commands and options (`command`); the parser (`arguments`), `help`, `man` and `completions`
//! are made from it, and `schema` says what its JSON objects hold. A command has a module of its own name. Below
//! them: `input`, `lines`, `words`, `pairs`, `ids`, `forms`, `reading` and `load` read; `output`, `replaced`,
//! `temporary`, `printing`, `answers` and `range` write; `witness`, `sidecar` and `beside` compare digests and leave
//! them; `column` and `scan` are the places that use the package's opened column; `header` and its `rules`, `blocks`,
//! `set_blocks`, `packing`, `runs`, `codes` and `stored` take bytes apart for `show`, `audit` and `diagnosis`, which
//! explain a file and never judge it; `html` draws reports; all `unsafe` is in `system`.

mod answers;
mod arguments;
mod audit;
mod beside;
mod best;
mod blocks;
mod causes;
mod check;
mod codes;
mod column;
mod command;
mod completions;
mod conform;
mod demo;
mod diagnosis;
mod diff;
mod failure;
mod find;
mod forms;
mod header;
mod help;
mod html;
mod ids;
mod input;
mod json;
mod json_lines;
mod judge;
mod layers;
mod lines;
mod load;
mod look_up;
mod man;
mod memory;
mod nearest;
mod next;
mod output;
mod packing;
mod pairs;
mod printing;
mod progress;
mod range;
mod read;
mod reading;
mod replaced;
mod rules;
mod runs;
mod scan;
mod schema;
mod set;
mod set_blocks;
mod sha256;
mod show;
mod sidecar;
mod stats;
mod stored;
mod system;
mod table;

mod temporary;
mod text;
mod trial;
mod witness;
mod words;
mod write;
mod written;

use std::ffi::OsString;
use std::process::ExitCode;

use arguments::Parsed;
use failure::Failure;
use output::print;

fn main() -> ExitCode {
    let words: Vec<OsString> = std::env::args_os().skip(1).collect();
    match run(&words) {
        Ok(()) => ExitCode::SUCCESS,
        Err(failure) => ExitCode::from(failure.report()),
    }
}

/// Runs one command line, without the program's name.
fn run(words: &[OsString]) -> Result<(), Failure> {
    let Some((name, rest)) = words.split_first() else {
        return Err(Failure::usage("no command is given", None));
    };
    match name.to_str() {
        Some("--help" | "-h") => print(&help::all()),
        Some("--version" | "-V") => print(concat!("signalfern ", env!("CARGO_PKG_VERSION"), "\n")),
        _ => {
            let command = help::find(name)?;
            match command.parse(rest)? {
                Parsed::Help => print(&help::of(command)),
                Parsed::Arguments(arguments) => (command.run)(arguments),
            }
        }
    }
}
