//! The tool, as people and scripts run it. (One program for all, as `library` is.)

#[path = "../common/mod.rs"]
mod common;

mod asked;
mod commands;
mod compared;
mod conform;
mod damaged;
mod diagnosis;
mod digest;
mod digests;
mod editions;
mod faults;
mod header;
mod help;
mod json;
mod judge;
mod layered;
mod look_up;
mod messages;
mod next;
mod output;
mod parts;
mod replaced;
mod report;
mod runs;
mod set;
mod sets;
mod signals;
mod streams;
mod tables;
mod texts;
