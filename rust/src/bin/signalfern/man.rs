//! The manual page, made from the table.

use std::fmt::Write;

use crate::command::Command;
use crate::help::{self, spelled};
use crate::table::{ABOUT, COMMANDS, DIGESTS, INTRODUCTION, JSON, SOUND, STANDARD, STATUS};

// Writing to a string cannot fail, so the results below are dropped.

/// The page, as man reads it.
pub fn page() -> String {
    let version = env!("CARGO_PKG_VERSION");
    let mut out = format!(".TH SIGNALFERN 1 \"\" \"signalfern {version}\" \"User Commands\"\n");
    let _ = writeln!(out, ".SH NAME\nsignalfern \\- {}", roff(ABOUT));
    out.push_str(".SH SYNOPSIS\n");
    for command in COMMANDS {
        synopsis(&mut out, command);
    }
    let _ = writeln!(out, ".SH DESCRIPTION\n{}", roff(INTRODUCTION));
    let _ = writeln!(out, ".PP\n{}", roff(STANDARD));
    out.push_str(".SH COMMANDS\n");
    for command in COMMANDS {
        about(&mut out, command);
    }
    let _ = writeln!(out, ".SH SOUND, AND WHAT IT DOES NOT MEAN\n{}", roff(SOUND));
    let _ = writeln!(out, ".SH DIGESTS\n{}", roff(DIGESTS));
    let _ = writeln!(out, ".SH JSON\n{}", roff(JSON));
    for command in COMMANDS {
        members(&mut out, command);
    }
    let status = STATUS.trim_start_matches("Exit status: ");
    let _ = writeln!(out, ".SH EXIT STATUS\n{}", roff(status));
    out
}

fn synopsis(out: &mut String, command: &Command) {
    let (name, words) = (roff(command.name), roff(command.words));
    let _ = writeln!(out, ".B signalfern {name}\n{words}\n.br");
}

fn about(out: &mut String, command: &Command) {
    let (name, summary) = (roff(command.name), roff(command.summary));
    let _ = writeln!(out, ".SS {name}: {summary}");
    let mut texts = command.text.iter().filter(|text| **text != SOUND);
    if let Some(first) = texts.next() {
        let _ = writeln!(out, "{}", roff(first));
    }
    for text in texts {
        let start = if text.starts_with(' ') { ".br" } else { ".PP" };
        let _ = writeln!(out, "{start}\n{}", roff(text.trim_start()));
    }
    for choice in command.options {
        let (name, help) = (roff(&spelled(choice)), roff(choice.help));
        let _ = writeln!(out, ".TP\n.B {name}\n{help}");
    }
}

/// The members of a command's objects.
fn members(out: &mut String, command: &Command) {
    let _ = writeln!(out, ".SS Objects of {}", roff(command.name));
    for field in command.json {
        let (name, about) = (roff(field.name), roff(&help::about(field)));
        let _ = writeln!(out, ".TP\n.B {name}\n{about}");
    }
}

/// Text that troff takes as it is: no escapes, no requests, no hyphens made of minus signs.
fn roff(text: &str) -> String {
    let text = text.replace('\\', "\\e").replace('-', "\\-");
    match text.chars().next() {
        Some('.' | '\'') => format!("\\&{text}"),
        _ => text,
    }
}
