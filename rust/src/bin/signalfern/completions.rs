//! Completions for bash, zsh and fish, made from the table.

use std::fmt::Write;

use crate::command::{Choice, Command, Value};
use crate::table::COMMANDS;

// Writing to a string cannot fail, so the results below are dropped.

/// The completions for a shell, if it is known.
pub fn of(shell: &str) -> Option<String> {
    match shell {
        "bash" => Some(bash()),
        "zsh" => Some(zsh()),
        "fish" => Some(fish()),
        _ => None,
    }
}

fn names() -> String {
    let names: Vec<&str> = COMMANDS.iter().map(|command| command.name).collect();
    names.join(" ")
}

/// An option as a pattern of the shell: `-o|--output`.
fn pattern(choice: &Choice) -> String {
    match choice.short {
        Some(letter) => format!("-{letter}|--{}", choice.long),
        None => format!("--{}", choice.long),
    }
}

fn bash_value(value: Value) -> String {
    match value {
        Value::File => "_signalfern_files -f".to_string(),
        Value::Folder => "_signalfern_files -d".to_string(),
        Value::Other => "COMPREPLY=()".to_string(),
        Value::OneOf(words) => bash_words(&words.join(" ")),
    }
}

fn bash_words(words: &str) -> String {
    format!("COMPREPLY=($(compgen -W '{words}' -- \"$word\"))")
}

/// Names may have spaces, so each is one line of what compgen gives; bash quotes them itself (`-o filenames`).
const BASH_FILES: &str = r#"_signalfern_files() {
    local name
    COMPREPLY=()
    while IFS= read -r name; do
        COMPREPLY+=("$name")
    done < <(compgen "$1" -- "$word")
}
"#;

fn bash() -> String {
    let mut out = format!("# bash completions for signalfern\n{BASH_FILES}_signalfern() {{\n");
    out.push_str("    local word=\"${COMP_WORDS[COMP_CWORD]}\"\n");
    out.push_str("    local before=\"${COMP_WORDS[COMP_CWORD-1]}\"\n");
    out.push_str("    if [ \"$COMP_CWORD\" -eq 1 ]; then\n");
    let words = bash_words(&format!("{} --help --version", names()));
    let _ = writeln!(out, "        {words}");
    out.push_str("        return\n    fi\n    case \"${COMP_WORDS[1]}\" in\n");
    for command in COMMANDS {
        bash_command(&mut out, command);
    }
    out.push_str("    esac\n}\ncomplete -o filenames -F _signalfern signalfern\n");
    out
}

fn bash_command(out: &mut String, command: &Command) {
    let _ = writeln!(out, "    {})", command.name);
    if !command.actions.is_empty() {
        let words = bash_words(&action_names(command));
        let _ = writeln!(
            out,
            "        if [ \"$COMP_CWORD\" -eq 2 ]; then {words}; return; fi"
        );
    }
    out.push_str("        case \"$before\" in\n");
    let valued = (command.options.iter()).filter_map(|choice| Some((choice, choice.value?.1)));
    for (choice, value) in valued {
        let reply = bash_value(value);
        let _ = writeln!(out, "        {}) {reply}; return ;;", pattern(choice));
    }
    out.push_str("        esac\n        case \"$word\" in\n");
    let options = |longs: Vec<&str>| {
        let longs: Vec<String> = longs.iter().map(|long| format!("--{long}")).collect();
        bash_words(&format!("{} --help", longs.join(" ")))
    };
    match command.actions.is_empty() {
        true => {
            let all = options(command.options.iter().map(|it| it.long).collect());
            let _ = writeln!(out, "        -*) {all} ;;");
        }
        false => {
            out.push_str("        -*) case \"${COMP_WORDS[2]}\" in\n");
            for action in command.actions {
                let its = options(action.options.to_vec());
                let _ = writeln!(out, "            {}) {its} ;;", action.name);
            }
            out.push_str("            esac ;;\n");
        }
    }
    let _ = writeln!(
        out,
        "        *) {} ;;\n        esac ;;",
        bash_value(command.operands)
    );
}

/// What a command can do, as words.
fn action_names(command: &Command) -> String {
    let names: Vec<&str> = command.actions.iter().map(|action| action.name).collect();
    names.join(" ")
}

/// Text between single quotes, for zsh and fish.
fn single(text: &str) -> String {
    text.replace('\'', "'\\''")
}

fn zsh_value(value: Value) -> String {
    match value {
        Value::File => "_files".to_string(),
        Value::Folder => "_files -/".to_string(),
        Value::Other => " ".to_string(),
        Value::OneOf(words) => format!("({})", words.join(" ")),
    }
}

fn zsh() -> String {
    let mut out = "#compdef signalfern\n_signalfern() {\n".to_string();
    out.push_str("    local -a commands\n    commands=(\n");
    for command in COMMANDS {
        let summary = single(command.summary);
        let _ = writeln!(out, "        '{}:{summary}'", command.name);
    }
    out.push_str("    )\n    if (( CURRENT == 2 )); then\n");
    out.push_str("        _describe command commands\n        return\n    fi\n");
    out.push_str("    local chosen=$words[2]\n    shift words\n    (( CURRENT-- ))\n");
    out.push_str("    case $chosen in\n");
    for command in COMMANDS {
        zsh_command(&mut out, command);
    }
    // Found by its first line in a folder of `fpath`, this file is the function's own body; sourced, it tells zsh of it.
    out.push_str(
        "    esac\n}\nif [ \"$funcstack[1]\" = _signalfern ]; then\n    _signalfern \"$@\"\nelse\n",
    );
    out.push_str("    compdef _signalfern signalfern\nfi\n");
    out
}

fn zsh_command(out: &mut String, command: &Command) {
    let _ = writeln!(out, "    {})\n        _arguments -s \\", command.name);
    for choice in command.options {
        let help = single(choice.help).replace('[', "\\[").replace(']', "\\]");
        let help = help.replace(':', "\\:");
        let value = choice.value.map_or(String::new(), |(name, value)| {
            format!(":{name}:{}", zsh_value(value))
        });
        let long = choice.long;
        let _ = match choice.short {
            Some(letter) => writeln!(
                out,
                "            '(-{letter} --{long})'{{-{letter},--{long}}}'[{help}]{value}' \\"
            ),
            None => writeln!(out, "            '--{long}[{help}]{value}' \\"),
        };
    }
    if !command.actions.is_empty() {
        let _ = writeln!(out, "            '1:action:({})' \\", action_names(command));
    }
    let operands = zsh_value(command.operands);
    let _ = writeln!(out, "            '*:word:{operands}' ;;");
}

/// Whether the words before the cursor start with a command, and with an action of it. Some actions have the name of
/// a command.
const FISH_AT: &str = "function __signalfern_at
    set -l words (commandline -opc)
    test (count $words) -gt (count $argv); and test \"$words[2]\" = \"$argv[1]\"; or return 1
    test (count $argv) -eq 1; or test \"$words[3]\" = \"$argv[2]\"
end
";

fn fish() -> String {
    let mut out =
        format!("# fish completions for signalfern\n{FISH_AT}complete -c signalfern -f\n");
    for command in COMMANDS {
        let (name, summary) = (command.name, single(command.summary));
        let _ = writeln!(
            out,
            "complete -c signalfern -n __fish_use_subcommand -a {name} -d '{summary}'"
        );
    }
    for command in COMMANDS {
        fish_command(&mut out, command);
    }
    out
}

fn fish_command(out: &mut String, command: &Command) {
    let name = command.name;
    let part = |out: &mut String, at: &str, options: &mut dyn Iterator<Item = &Choice>| {
        let seen = format!("-n '__signalfern_at {at}'");
        options.for_each(|choice| fish_option(out, &seen, choice));
        let operands = fish_words(command.operands);
        let _ = writeln!(out, "complete -c signalfern {seen}{operands}");
    };
    if command.actions.is_empty() {
        part(out, name, &mut command.options.iter());
        return;
    }
    let actions = action_names(command);
    let _ = writeln!(
        out,
        "complete -c signalfern -n '__signalfern_at {name}; and test (count (commandline -opc)) -eq 2' -a '{actions}'"
    );
    for action in command.actions {
        let its = |choice: &&Choice| action.options.contains(&choice.long);
        let at = format!("{name} {}", action.name);
        part(out, &at, &mut command.options.iter().filter(its));
    }
}

fn fish_option(out: &mut String, seen: &str, choice: &Choice) {
    let short = (choice.short).map_or(String::new(), |letter| format!(" -s {letter}"));
    let value = match choice.value {
        None => String::new(),
        Some((_, Value::File)) => " -r -F".to_string(),
        Some((_, value)) => format!(" -x{}", fish_words(value)),
    };
    let (long, help) = (choice.long, single(choice.help));
    let _ = writeln!(
        out,
        "complete -c signalfern {seen}{short} -l {long}{value} -d '{help}'"
    );
}

fn fish_words(value: Value) -> String {
    match value {
        Value::File => " -F".to_string(),
        Value::Folder => " -a '(__fish_complete_directories)'".to_string(),
        Value::Other => String::new(),
        Value::OneOf(words) => format!(" -a '{}'", words.join(" ")),
    }
}
