//! The library's calls beside the reference, the documents' cases and columns worked out by hand; C
//! programs, the examples, the installation and the gate. (One program for all: what they share is compiled once,
//! and the proved archive is linked once.)

#[path = "../common/mod.rs"]
mod common;

mod arrangement;
mod between;
mod buffers;
mod by_hand;
mod c_example;
mod checked;
mod conformance;
mod damage;
mod dist;
mod divisor;
mod document;
mod documents;
mod editions;
mod examples;
mod fetching;
mod fields;
mod format_page;
mod format_worked;
mod gate;
mod header;
mod in_layers;
mod install;
mod layered;
mod lists;
mod next;
mod next_any_bytes;
mod next_damage;
mod page;
mod pair_at;
mod pairs;
mod plans;
mod probes;
mod promises;
mod read_from;
mod runs;
mod runs_damage;
mod section;
mod set;
mod steps;
mod tables;
mod tables_damage;
mod version;
