//! The tool's command line: help, usage, hints, the man page and the completions.

use std::process::Command;

use crate::common::tool::{has_program, has_programs, run, Folder};

const COMMANDS: [&str; 15] = [
    "write", "check", "read", "look-up", "next", "find", "stats", "diff", "audit", "show", "judge",
    "set", "conform", "demo", "help",
];

#[test]
fn help_of_all_and_of_each() {
    let all = run(&["--help"]).expect(0, &["write", "check", "look-up", "show", "Exit status"]);
    assert_eq!(run(&["help"]).expect(0, &[]).out, all.out);
    run(&["--version"]).expect(0, &["signalfern 0."]);
    for command in COMMANDS {
        let help = run(&[command, "--help"]).expect(0, &[&format!("signalfern {command}")]);
        assert_eq!(run(&["help", command]).expect(0, &[]).out, help.out);
        for line in help.out.lines().chain(all.out.lines()) {
            assert!(line.chars().count() <= 80, "{line}");
        }
    }
    run(&["help", "chekc"]).expect(2, &["no command `chekc`; did you mean `check`?"]);
    let check = run(&["help", "check"]).expect(0, &[]).out;
    let check = check.split_whitespace().collect::<Vec<_>>().join(" ");
    assert!(
        check.contains("does not mean that nobody changed a score"),
        "{check}"
    );
}

/// The README lists each command with the table's own words.
#[test]
fn the_readme_lists_every_command() {
    let readme = concat!(env!("CARGO_MANIFEST_DIR"), "/../README.md");
    let readme = std::fs::read_to_string(readme).unwrap();
    for command in COMMANDS {
        let object = run(&["help", command, "--json"]).expect(0, &[]).out;
        let (_, rest) = object.split_once("\"summary\":\"").unwrap();
        let (summary, _) = rest.split_once("\",").unwrap();
        let is_listed = |line: &str| {
            line.starts_with(&format!("    signalfern {command} ")) && line.contains(summary)
        };
        assert!(readme.lines().any(is_listed), "{command}: {summary}");
    }
}

#[test]
fn usage() {
    for command in COMMANDS {
        run(&[command, "--no-such"]).expect(2, &["no option `--no-such`", command, "--help"]);
    }
    run(&[]).expect(2, &["no command", "--help"]);
    run(&["frobnicate"]).expect(2, &["no command `frobnicate`\n"]);
    run(&["lookup", "a", "1"]).expect(2, &["did you mean `look-up`?"]);
    run(&["write", "a", "-o", "b", "--powr", "9"]).expect(2, &["did you mean `--power`?"]);
    for edition in ["0", "5", "4294967297", "two", ""] {
        let words = [
            &format!("`{edition}` is no edition: 1, 2, 3 or 4")[..],
            "--help",
        ];
        run(&["write", "a", "-o", "b", "--edition", edition]).expect(2, &words);
    }
    let both = "--best chooses the edition: leave --edition out";
    run(&["write", "a", "-o", "b", "--best", "-e4"]).expect(2, &[both, "--help"]);
    run(&["check"]).expect(2, &["no column is named"]);
    run(&["show", "a", "b"]).expect(2, &["`b` is one word too many"]);
    run(&["write", "a"]).expect(2, &["-o COLUMN"]);
    run(&["write", "a", "-o"]).expect(2, &["`-o` needs a value"]);
    run(&["write", "-o", "a", "--output=b"]).expect(2, &["`--output` stands twice"]);
    run(&["check", "a", "--quiet=yes"]).expect(2, &["`--quiet` takes no value"]);
    run(&["look-up", "a"]).expect(2, &["no id is named"]);
    run(&["look-up", "a", "-7"]).expect(2, &["no option `-7`"]);
    run(&["look-up", "a", "7x"]).expect(2, &["`7x` is no id"]);
    run(&["next", "a"]).expect(2, &["no id is named"]);
    run(&["next", "a", "7x"]).expect(2, &["`7x` is no id"]);
    run(&["next", "a", "7", "8"]).expect(2, &["`8` is one word too many"]);
    run(&["next", "a", "7", "--count", "0"]).expect(2, &["`0` is no count of ids"]);
    run(&["find", "a"]).expect(2, &["two values are to be named: LOW and HIGH"]);
    run(&["find", "a", "-5"]).expect(2, &["two values are to be named: LOW and HIGH"]);
    run(&["find", "a", "1", "2x"]).expect(2, &["`2x` is no value: a whole number from -922"]);
    run(&["find", "a", "-5x", "2"]).expect(2, &["`-5x` is no value"]);
    run(&["find", "a", "1", "9223372036854775808"]).expect(2, &["is no value"]);
    run(&["find", "a", "1", "2", "-3"]).expect(2, &["`-3` is one word too many"]);
    run(&["find", "a", "-x", "2"]).expect(2, &["no option `-x`"]);
    run(&["check", "no/such/file"]).expect(2, &["cannot read no/such/file"]);
    run(&["read", "a", "--limit", "-1"]).expect(2, &["`-1` is no count of pairs"]);
    run(&["read", "a", "--from", "2147352576"]).expect(2, &["`2147352576` is no id"]);
    run(&["check", "a", "--digest", "12"]).expect(2, &["`12` is no SHA-256 digest"]);
    run(&["check", "a", "b", "--digest", &"0".repeat(64)]).expect(2, &["is for one file"]);
    run(&["check", "-", "-"]).expect(2, &["standard input can be checked once"]);
    let once = "only one file can come from standard input";
    run(&["look-up", "-", "--ids", "-"]).expect(2, &[once]);
    run(&["look-up", "-", "7", "--correction", "-"]).expect(2, &[once]);
    run(&["look-up", "a", "-c", "-", "-i", "-"]).expect(2, &[once]);
    run(&["audit", "-", "7", "-c", "-"]).expect(2, &[once]);
    run(&["audit", "a", "7"]).expect(2, &["cannot read a"]);
    run(&["audit", "a", "-c", "b"]).expect(2, &["no id is named"]);
    run(&["audit", "a", "7x", "-c", "b"]).expect(2, &["`7x` is no id"]);
    run(&["help", "--man", "check"]).expect(2, &["one of them"]);
    run(&["show", "a", "--json", "--html", "b"]).expect(2, &["--html or --json: one of them"]);
    run(&["audit", "a", "7", "--json", "--html", "b"])
        .expect(2, &["--html or --json: one of them"]);
    run(&["help", "--completions", "tcsh"]).expect(2, &["no completions for `tcsh`"]);
}

#[test]
fn options_joined_to_their_values() {
    let folder = Folder::new("joined");
    let list = folder.put("list", "1 2\n");
    for power in ["-p0", "-p=0", "--power=0"] {
        let output = folder.path("column");
        run(&["write", &list, power, &format!("-o{output}")]).expect(0, &["1 pair in 21 bytes"]);
        run(&["show", &output]).expect(0, &["no ranks"]);
    }
}

#[test]
fn the_man_page() {
    let page = run(&["help", "--man"])
        .expect(0, &[".TH SIGNALFERN 1", ".SH NAME"])
        .out;
    for command in COMMANDS {
        assert!(page.contains(&command.replace('-', "\\-")), "{command}");
    }
}

#[test]
fn the_man_page_as_groff_sets_it() {
    if !has_programs(&["groff"]) {
        return;
    }
    let page = run(&["help", "--man"]).expect(0, &[]).out;
    let folder = Folder::new("man");
    let path = folder.put("signalfern.1", page);
    let output = Command::new("groff")
        .args(["-man", "-Tutf8", "-ww", &path])
        .output()
        .unwrap();
    let complaints = String::from_utf8_lossy(&output.stderr);
    assert!(
        output.status.success() && complaints.is_empty(),
        "{complaints}"
    );
    let text = String::from_utf8_lossy(&output.stdout);
    assert!(text.contains("Sound means"), "{text}");
}

#[test]
fn completions_of_bash() {
    let folder = Folder::new("bash_completions");
    folder.put("a.column", "");
    let complete = |words: &str, index: usize| {
        let script = format!(
            "eval \"$(signalfern help --completions bash)\"\n\
             COMP_WORDS=({words}); COMP_CWORD={index}; _signalfern\n\
             echo \"${{COMPREPLY[@]}}\"; complete -p signalfern"
        );
        folder
            .shell(&script)
            .expect(0, &["-F _signalfern signalfern"])
            .out
    };
    assert!(complete("signalfern lo", 1).starts_with("look-up\n"));
    assert!(complete("signalfern write --po", 2).starts_with("--power\n"));
    assert!(complete("signalfern write -p 1", 3).starts_with("10 11 12 13 14 15\n"));
    assert!(complete("signalfern write --edition ''", 3).starts_with("1 2 3 4\n"));
    assert!(complete("signalfern check a", 2).starts_with("a.column\n"));
    assert!(complete("signalfern help ch", 2).starts_with("check\n"));
    assert!(complete("signalfern read a --limit ''", 4).starts_with('\n'));
    assert!(complete("signalfern set ''", 2).starts_with("write check read find\n"));
    assert!(complete("signalfern set find --i", 3).starts_with("--ids\n"));
    assert!(complete("signalfern set check --i", 3).starts_with('\n'));
    assert!(complete("signalfern set check a", 3).starts_with("a.column\n"));
    assert!(complete("signalfern di", 1).starts_with("diff\n"));
    // A name with spaces is one.
    folder.put("two words.column", "");
    let script = "eval \"$(signalfern help --completions bash)\"\n\
                  COMP_WORDS=(signalfern check tw); COMP_CWORD=2; _signalfern\n\
                  printf '%s|' \"${#COMPREPLY[@]}\" \"${COMPREPLY[0]}\"";
    assert_eq!(
        folder.shell(script).expect(0, &[]).out,
        "1|two words.column|"
    );
}

/// What fish offers, where it is there.
#[test]
fn completions_of_fish() {
    let text = run(&["help", "--completions", "fish"]).expect(0, &[]).out;
    assert!(text.contains("-n '__signalfern_at set check'"), "{text}");
    if !has_program("fish") {
        return;
    }
    let folder = Folder::new("fish_completions");
    folder.put("completions.fish", text);
    let offered = |line: &str| {
        let script = format!("source completions.fish; complete -C \"{line}\"");
        let ran = folder.shell(&format!(
            "HOME=$PWD XDG_CONFIG_HOME=$PWD fish -c '{script}'"
        ));
        let words = ran.out.lines().filter_map(|line| line.split('\t').next());
        words.map(str::to_string).collect::<Vec<_>>().join(" ")
    };
    assert_eq!(offered("signalfern set "), "check find read write");
    assert_eq!(
        offered("signalfern set check --"),
        "--digest --json --quiet"
    );
    assert!(offered("signalfern check --").contains("--quiet"));
    assert!(offered("signalfern di").contains("diff"));
}

/// Sourced, the completions of zsh tell it of their function; found in a folder of `fpath`, they are its body.
#[test]
fn completions_of_zsh_when_sourced() {
    let text = run(&["help", "--completions", "zsh"]).expect(0, &[]).out;
    assert!(text.contains("compdef _signalfern signalfern"), "{text}");
    assert!(
        text.contains("'1:action:(write check read find)'"),
        "{text}"
    );
    if !has_program("zsh") {
        return;
    }
    let folder = Folder::new("zsh_sourced");
    folder.put("_signalfern", text);
    let script = "autoload -Uz compinit; compinit -u -d $PWD/dump; source ./_signalfern; echo $_comps[signalfern]";
    let ran = folder.shell(&format!("zsh -f -c '{script}' 2>&1"));
    assert_eq!(ran.out, "_signalfern\n");
    let script =
        "fpath=($PWD $fpath); autoload -Uz compinit; compinit -u -d $PWD/dump2; echo $_comps[signalfern]";
    let ran = folder.shell(&format!("zsh -f -c '{script}' 2>&1"));
    assert_eq!(ran.out, "_signalfern\n");
}

/// The other shells, where they are there, read their completions without complaint.
#[test]
fn completions_of_other_shells() {
    let folder = Folder::new("completions");
    for (shell, words) in [
        (
            "zsh",
            [
                "#compdef signalfern",
                "--no-sidecar[",
                "'look-up:ask for single ids'",
            ],
        ),
        (
            "fish",
            ["complete -c signalfern", "-l no-sidecar", "-a look-up"],
        ),
    ] {
        let text = run(&["help", "--completions", shell]).expect(0, &words).out;
        let path = folder.put(shell, text);
        if has_program(shell) {
            let parsed = Command::new(shell).args(["-n", &path]).output().unwrap();
            assert!(
                parsed.status.success(),
                "{}",
                String::from_utf8_lossy(&parsed.stderr)
            );
        }
    }
}
