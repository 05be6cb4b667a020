//! `make install`: what it puts where, and C and C++ programs that find it by pkg-config.
//!
//! Both programs are more than the README's commands need, so without `make` or `pkg-config` these
//! tests are passed over.

use std::collections::BTreeSet;
use std::fs;
use std::path::{Path, PathBuf};
use std::process::{Command, Output};

use crate::common::tool::{has_program, has_programs, script, Folder};
use signalfern::{Reason, Refusal};

const VERSION: &str = env!("CARGO_PKG_VERSION");

fn root() -> PathBuf {
    Path::new(env!("CARGO_MANIFEST_DIR")).join("..")
}

#[track_caller]
fn succeeded(output: Output) -> String {
    let (out, err) = (output.stdout, String::from_utf8_lossy(&output.stderr));
    let out = String::from_utf8(out).unwrap();
    assert!(output.status.success(), "{}: {out}{err}", output.status);
    out
}

/// Runs make with the archive and the tool that the tests have; `rt` and `cargo` may not be called.
#[track_caller]
fn make(folder: &Folder, words: &[&str], tool: &str) -> String {
    let traps = folder.0.join("traps");
    fs::create_dir_all(&traps).unwrap();
    for name in ["rt", "cargo"] {
        script(&traps.join(name), "exit 97");
    }
    let path = format!("{}:{}", traps.display(), std::env::var("PATH").unwrap());
    let output = Command::new("make")
        .args(words)
        .arg(format!("BUILD={}", folder.path("build")))
        .arg(format!("TOOL={tool}"))
        .current_dir(root())
        .env("PATH", path)
        .env("SIGNALFERN_LIB_DIR", env!("SIGNALFERN_ARCHIVE_DIR"))
        .env_remove("MAKEFLAGS")
        .output()
        .unwrap();
    succeeded(output)
}

/// The files and links below a folder.
fn files(folder: &Path) -> BTreeSet<String> {
    let mut names = BTreeSet::new();
    let mut waiting = vec![folder.to_path_buf()];
    while let Some(at) = waiting.pop() {
        for entry in fs::read_dir(&at).into_iter().flatten() {
            let path = entry.unwrap().path();
            if path.is_dir() {
                waiting.push(path);
            } else {
                let name = path.strip_prefix(folder).unwrap();
                names.insert(name.to_str().unwrap().to_string());
            }
        }
    }
    names
}

/// The same without the manual pages of the calls.
fn without_pages(folder: &Path) -> BTreeSet<String> {
    let mut names = files(folder);
    names.retain(|name| !name.contains("share/man/man3/"));
    names
}

const LIBRARY: [&str; 6] = [
    "include/signalfern.h",
    "lib/libsignalfern.a",
    "lib/libsignalfern.so",
    "lib/libsignalfern.so.0.2",
    "lib/libsignalfern.so.0.2.0",
    "lib/pkgconfig/signalfern.pc",
];

/// Whether SQLite's header is there, without which its extension is left out.
fn has_sqlite_header() -> bool {
    let compiler = Command::new("cc")
        .args(["-E", "-include", "sqlite3ext.h", "-x", "c", "/dev/null"])
        .output();
    compiler.is_ok_and(|output| output.status.success())
}

/// What pkg-config tells of the library below a prefix.
fn pkg_config(prefix: &str, words: &[&str]) -> Vec<String> {
    let output = Command::new("pkg-config")
        .args(words)
        .arg("signalfern")
        .env("PKG_CONFIG_LIBDIR", format!("{prefix}/lib/pkgconfig"))
        .env_remove("PKG_CONFIG_PATH")
        .output()
        .unwrap();
    let out = succeeded(output);
    out.split_whitespace().map(str::to_string).collect()
}

/// Builds the program with one compiler as one language; `None` without its C++ front end.
fn build(compiler: &str, language: &[&str], link: &[String], program: &str) -> Option<()> {
    let output = Command::new(compiler)
        .args(language)
        .args(["-Wall", "-Wextra", "-Wpedantic", "-Werror"])
        .arg(root().join("rust/tests/library/installed.c"))
        .args(["-x", "none", "-o", program])
        .args(link)
        .output()
        .unwrap();
    let err = String::from_utf8_lossy(&output.stderr);
    if language.contains(&"c++") && err.contains("cc1plus") {
        eprintln!("{compiler} has no C++ front end: not tested with it");
        return None;
    }
    assert!(output.status.success(), "{compiler} {language:?}: {err}");
    Some(())
}

/// The version, and each refusal and each reason with its name and its sentence, as the Rust package has
/// them.
fn check_printed(printed: &str) {
    let mut lines = printed.lines();
    assert_eq!(lines.next(), Some(VERSION));
    for refusal in (1..=17).filter_map(|number| Refusal::from_number(number, 4321)) {
        let mut words = lines.next().unwrap().splitn(3, ' ');
        assert_eq!(words.next(), Some(refusal.number().to_string().as_str()));
        assert_eq!(words.next(), Some(refusal.name()));
        // C tells the number with a refusal apart from its sentence.
        let (text, ours) = (words.next().unwrap(), refusal.to_string());
        assert_eq!(text == ours, !ours.contains("4321"), "{text} / {ours}");
    }
    for reason in Reason::EACH {
        let (number, name) = (reason.number(), reason.name());
        let expected = format!("reason {number} {name} {reason}");
        assert_eq!(lines.next(), Some(expected.as_str()));
    }
    assert_eq!(lines.next(), None);
}

#[test]
fn programs_find_the_library_by_pkg_config() {
    if !has_programs(&["make", "pkg-config"]) {
        return;
    }
    let folder = Folder::new("install");
    let prefix = folder.path("prefix");
    let tool = env!("CARGO_BIN_EXE_signalfern");
    make(&folder, &["install", &format!("prefix={prefix}")], tool);
    assert_eq!(pkg_config(&prefix, &["--modversion"]), [VERSION]);

    let flags = pkg_config(&prefix, &["--cflags", "--libs"]);
    let bound = |how: &str| {
        let around = [format!("-Wl,-B{how}")].into_iter().chain(flags.clone());
        around.chain(["-Wl,-Bdynamic".to_string()]).collect()
    };
    let ways: [(&str, Vec<String>); 2] = [("dynamic", flags.clone()), ("static", bound("static"))];
    let languages = [&["-x", "c", "-std=c99"][..], &["-x", "c++", "-std=c++17"]];
    for compiler in ["gcc", "clang"] {
        if compiler == "clang" && !has_program(compiler) {
            continue;
        }
        for language in languages {
            for (way, link) in &ways {
                let program = folder.path("program");
                if build(compiler, language, link, &program).is_none() {
                    continue;
                }
                let alone = Command::new(&program).output().unwrap();
                let found = Command::new(&program)
                    .env("LD_LIBRARY_PATH", format!("{prefix}/lib"))
                    .output()
                    .unwrap();
                check_printed(&succeeded(found));
                // Only the static program runs without the shared library.
                assert_eq!(alone.status.success(), *way == "static", "{language:?}");
            }
        }
    }
}

#[test]
fn the_shared_library_shows_what_the_header_declares() {
    if !has_programs(&["make"]) {
        return;
    }
    let folder = Folder::new("install-symbols");
    let prefix = folder.path("prefix");
    // The library alone asks for no tool.
    make(
        &folder,
        &["install-library", &format!("PREFIX={prefix}")],
        "no-such-tool",
    );
    let library = LIBRARY.map(String::from).into();
    assert_eq!(without_pages(Path::new(&prefix)), library);

    let header = fs::read_to_string(root().join("include/signalfern.h")).unwrap();
    let code = header
        .split("*/")
        .filter_map(|part| part.split("/*").next());
    let declared: BTreeSet<&str> = code
        .flat_map(|code| code.match_indices('(').map(|(at, _)| &code[..at]))
        .filter_map(|before| before.rsplit([' ', '*', '\n']).next())
        .filter(|name| name.starts_with("signalfern_"))
        // Those that hand an answer back are inline, over a call that writes it.
        .filter(|name| !header.contains(&format!("{name}_to(")))
        .collect();
    assert_eq!(declared.len(), 37, "{declared:?}");
    // Each proved call has a manual page, under its own name and under that of the one that hands the answer back.
    let man = Path::new(&prefix).join("share/man/man3");
    let pages = files(&man);
    for call in declared.iter().filter(|name| name.ends_with("_to")) {
        let inline = call.trim_end_matches("_to");
        let page = fs::read_to_string(man.join(format!("{inline}.3"))).unwrap();
        for name in [*call, inline] {
            assert!(pages.contains(&format!("{name}.3")), "{name}: {pages:?}");
            assert!(page.contains(&format!("{name}(")), "{name}: {page}");
        }
    }

    let symbols = |words: &[&str], file: &str| {
        let output = Command::new("nm")
            .args(words)
            .arg(format!("{prefix}/lib/{file}"))
            .output();
        succeeded(output.unwrap())
    };
    let names = |out: &str| -> BTreeSet<String> {
        (out.lines()
            .filter_map(|line| line.split_whitespace().nth(2)))
        .map(str::to_string)
        .collect()
    };
    let shown = symbols(&["-D", "--defined-only"], "libsignalfern.so");
    let archived = symbols(&["-g", "--defined-only"], "libsignalfern.a");
    for out in [shown, archived] {
        let names = names(&out);
        let names: BTreeSet<&str> = names.iter().map(String::as_str).collect();
        assert_eq!(names, declared);
    }
}

#[test]
fn staged_and_taken_away() {
    if !has_programs(&["make"]) {
        return;
    }
    let folder = Folder::new("install-staged");
    // A tool that writes its own man page and completions, each with the mark of such a file.
    let tool = folder.path("tool");
    let pages = r#"case "$*" in
"help --man") echo '.TH SIGNALFERN 1' ;;
"help --completions bash") echo 'complete -F _signalfern signalfern' ;;
"help --completions zsh") echo '#compdef signalfern' ;;
"help --completions fish") echo 'complete -c signalfern -f' ;;
*) exit 2 ;;
esac"#;
    script(Path::new(&tool), pages);
    let stage = folder.path("stage");
    let words = [
        &format!("DESTDIR={stage}")[..],
        "prefix=/usr",
        "libdir=/usr/lib64",
    ];
    make(&folder, &[&["install"], &words[..]].concat(), &tool);
    let below = |name: &str| format!("usr/{}", name.replace("lib/", "lib64/"));
    let mut expected: BTreeSet<String> = LIBRARY.into_iter().map(below).collect();
    expected.insert("usr/bin/signalfern".into());
    if has_sqlite_header() {
        expected.insert("usr/lib64/signalfern.so".into());
    }
    let library_and_tool = expected.clone();
    let pages = [
        "man/man1/signalfern.1",
        "bash-completion/completions/signalfern",
        "zsh/site-functions/_signalfern",
        "fish/vendor_completions.d/signalfern.fish",
    ];
    expected.extend(pages.map(|name| format!("usr/share/{name}")));
    assert_eq!(without_pages(Path::new(&stage)), expected);
    let about = fs::read_to_string(format!("{stage}/usr/lib64/pkgconfig/signalfern.pc")).unwrap();
    assert!(about.starts_with("prefix=/usr\n") && about.contains("\nlibdir=${prefix}/lib64\n"));

    make(&folder, &[&["uninstall"], &words[..]].concat(), &tool);
    assert_eq!(files(Path::new(&stage)), BTreeSet::new());

    // One that only prints something has no such pages, and one that fails neither.
    for (name, body) in [("prints", "echo help"), ("fails", "echo .TH >&2; exit 2")] {
        let tool = folder.path(name);
        script(Path::new(&tool), body);
        let said = make(&folder, &[&["install"], &words[..]].concat(), &tool);
        assert_eq!(said.matches("left out").count(), 4, "{said}");
        assert_eq!(without_pages(Path::new(&stage)), library_and_tool);
    }
}
