//! The help texts, made from the table, within 80 columns.

use std::fmt::Write;
use std::os::unix::ffi::OsStrExt;

use crate::arguments::Arguments;
use crate::command::{Choice, Command, Field};
use crate::completions;
use crate::failure::Failure;
use crate::json::Object;
use crate::man;
use crate::nearest::did_you_mean;
use crate::output::print;
use crate::table::{ABOUT, COMMANDS, DIGESTS, INTRODUCTION, JSON, OTHER_NAMES, STANDARD, STATUS};
use crate::text::{quoted, wrapped};

/// Columns of a line.
const WIDTH: usize = 79;
/// Where the text about an option begins.
const INDENT: usize = 24;

pub fn run(mut arguments: Arguments) -> Result<(), Failure> {
    let shell = arguments.value("completions").map(|shell| shell.to_owned());
    let man = arguments.has("man");
    let command = arguments.next();
    arguments.finish()?;
    if arguments.has("json") && shell.is_none() && !man {
        let commands = match command {
            Some(name) => std::slice::from_ref(find(&name)?),
            None => COMMANDS,
        };
        return print(
            &commands
                .iter()
                .map(|it| object(it).line())
                .collect::<String>(),
        );
    }
    match (command, shell, man) {
        (None, None, false) => print(&all()),
        (None, None, true) => print(&man::page()),
        (None, Some(shell), false) => match shell.to_str().and_then(completions::of) {
            Some(text) => print(&text),
            None => {
                let shell = quoted(shell.as_bytes());
                Err(arguments.usage(format!("no completions for {shell}: bash, zsh or fish")))
            }
        },
        (Some(name), None, false) => print(&of(find(&name)?)),
        _ => Err(arguments.usage("a command, --man or --completions: one of them")),
    }
}

/// The command with this name.
pub fn find(name: &std::ffi::OsStr) -> Result<&'static Command, Failure> {
    if let Some(command) = COMMANDS.iter().find(|command| name == command.name) {
        return Ok(command);
    }
    let names: Vec<String> = COMMANDS.iter().map(|it| it.name.to_string()).collect();
    let hint = match OTHER_NAMES.iter().find(|(other, _)| name == *other) {
        Some((_, meant)) => format!("; did you mean `{meant}`?"),
        None => did_you_mean(&name.to_string_lossy(), &names),
    };
    let name = quoted(name.as_bytes());
    Err(Failure::usage(
        format!("there is no command {name}{hint}"),
        None,
    ))
}

// Writing to a string cannot fail, so the results below are dropped.

fn paragraph(out: &mut String, text: &str) {
    if text.starts_with(' ') {
        let _ = writeln!(out, "{text}");
    } else {
        for line in wrapped(text, WIDTH) {
            let _ = writeln!(out, "{line}");
        }
    }
}

/// The tool's help.
pub fn all() -> String {
    let mut out = format!("signalfern: {ABOUT}\n\n");
    paragraph(&mut out, INTRODUCTION);
    out.push('\n');
    for command in COMMANDS {
        for line in synopsis(command, "  signalfern ") {
            let _ = writeln!(out, "{line}");
        }
        let _ = writeln!(out, "      {}", command.summary);
    }
    out.push('\n');
    paragraph(
        &mut out,
        &format!("Each command has its own --help. {STANDARD}"),
    );
    for text in [DIGESTS, JSON, STATUS] {
        out.push('\n');
        paragraph(&mut out, text);
    }
    out
}

/// A command as an object.
fn object(command: &Command) -> Object {
    let options = command.options.iter().map(|choice| {
        let object = Object::new().text("long", choice.long);
        let object = match choice.short {
            Some(letter) => object.text("short", &letter.to_string()),
            None => object,
        };
        let object = match choice.value {
            Some((name, _)) => object.text("value", name),
            None => object,
        };
        object.text("help", choice.help)
    });
    let members = command.json.iter().map(|field| {
        let object = Object::new().text("member", field.name);
        (object.text("type", field.kind.name())).text("about", field.about)
    });
    let actions: Vec<String> = command
        .actions
        .iter()
        .map(|it| it.name.to_string())
        .collect();
    let object = Object::new()
        .text("command", command.name)
        .text("words", command.words);
    let object = object
        .text("summary", command.summary)
        .texts("actions", &actions);
    object
        .objects("options", options)
        .objects("members", members)
}

/// A command as it is typed, broken between its words.
fn synopsis(command: &Command, lead: &str) -> Vec<String> {
    let lead = format!("{lead}{} ", command.name);
    // An option and its value stay together.
    let joined = command.words.replace(" [", "\u{1}[").replace(' ', "\u{2}");
    let joined = joined.replace('\u{1}', " ");
    let lines = wrapped(&joined, WIDTH - lead.len());
    let indent = " ".repeat(lead.len());
    (lines.iter().enumerate())
        .map(|(at, line)| {
            let start = if at == 0 { &lead } else { &indent };
            format!("{start}{}", line.replace('\u{2}', " "))
        })
        .collect()
}

/// The help of one command.
pub fn of(command: &Command) -> String {
    let mut out = String::new();
    for line in synopsis(command, "signalfern ") {
        let _ = writeln!(out, "{line}");
    }
    let mut shown_as_it_is = false;
    for text in command.text {
        // Lines shown as they are stand close together.
        if !(shown_as_it_is && text.starts_with(' ')) {
            out.push('\n');
        }
        shown_as_it_is = text.starts_with(' ');
        paragraph(&mut out, text);
    }
    if !command.options.is_empty() {
        out.push('\n');
    }
    for choice in command.options {
        row(&mut out, &spelled(choice), choice.help);
    }
    if !command.json.is_empty() {
        out.push_str("\nMembers of its JSON objects, where they apply:\n");
    }
    for field in command.json {
        row(&mut out, field.name, &about(field));
    }
    out
}

/// What a member is, with its type.
pub fn about(field: &Field) -> String {
    format!("{} ({})", field.about, field.kind.name())
}

/// A name and what is said of it.
fn row(out: &mut String, name: &str, text: &str) {
    let name = format!("  {name}");
    let lines = wrapped(text, WIDTH - INDENT);
    let mut first = format!("{name:<INDENT$}");
    if name.len() + 2 > INDENT {
        let _ = writeln!(out, "{name}");
        first = " ".repeat(INDENT);
    }
    for line in lines {
        let _ = writeln!(out, "{first}{line}");
        first = " ".repeat(INDENT);
    }
}

/// An option with its value, as `-p, --power P`.
pub fn spelled(choice: &Choice) -> String {
    let short = choice
        .short
        .map_or(String::new(), |letter| format!("-{letter}, "));
    let value = choice
        .value
        .map_or(String::new(), |(name, _)| format!(" {name}"));
    format!("{short}--{}{value}", choice.long)
}

#[cfg(test)]
mod tests {
    use super::*;

    #[test]
    fn help_fits_eighty_columns_and_names_every_option() {
        let mut texts = vec![all()];
        for command in COMMANDS {
            let text = of(command);
            for choice in command.options {
                assert!(text.contains(&spelled(choice)), "{text}");
            }
            for action in command.actions {
                let is_one = |long: &&str| command.options.iter().any(|it| it.long == *long);
                assert!(action.options.iter().all(is_one), "{}", action.name);
            }
            assert!(all().contains(command.summary));
            texts.push(text);
        }
        for line in texts.iter().flat_map(|text| text.lines()) {
            assert!(line.chars().count() < 80, "{line}");
            assert_eq!(line, line.trim_end());
        }
    }
}
