//! C programs built with gcc against the header and the archive.

use std::path::{Path, PathBuf};
use std::process::Command;

/// Where the build script put the archive.
const ARCHIVE_DIR: &str = env!("SIGNALFERN_ARCHIVE_DIR");

/// Builds a C program, runs it and gives what it printed.
fn build_and_run(source: &Path, compiler: &[&str]) -> String {
    let root = Path::new(env!("CARGO_MANIFEST_DIR")).join("..");
    let name = source.file_stem().unwrap().to_str().unwrap();
    let program = PathBuf::from(env!("CARGO_TARGET_TMPDIR")).join(name);
    let built = Command::new("gcc")
        .args(compiler)
        .args(["-Wall", "-Wextra", "-Wpedantic", "-Werror", "-O1", "-I"])
        .arg(root.join("include"))
        .arg(root.join(source))
        .arg(root.join("c/names.c"))
        .args(["-L", ARCHIVE_DIR, "-lsignalfern_c", "-o"])
        .arg(&program)
        .output()
        .expect("gcc is installed");
    let errors = String::from_utf8_lossy(&built.stderr);
    assert!(built.status.success(), "gcc: {errors}");
    let run = Command::new(&program).output().expect("the program runs");
    let printed = String::from_utf8(run.stdout).expect("text");
    assert!(run.status.success(), "{}: {printed}", run.status);
    printed
}

#[test]
fn the_example_writes_checks_reads_looks_up_and_walks() {
    let printed = build_and_run(Path::new("examples/column.c"), &["-std=c99"]);
    // Of the places 0, 2 and 7, 2 is probed first.
    let expected = "\
27 bytes, 3 pairs
0 150
2 140
7 135
id 7: value 135, ordinal 2, probes 2
smallest value 135
id 2: value 140, ordinal 1, probes 1
id 5: not listed, probes 2
next: id 2, value 140, ordinal 1
next: id 7, value 135, ordinal 2
";
    assert_eq!(printed, expected);
}

#[test]
fn the_example_of_a_correction() {
    let printed = build_and_run(Path::new("examples/correction.c"), &["-std=c99"]);
    // The one value of the correction takes no bytes.
    let expected = "\
id 7: value 135, ordinal 2 of the machine
  byte 26: D0
id 2: value -1, ordinal 0 of the correction
id 5: in neither
id 7: the correction is refused: the header tells of more or fewer bytes than there are: the column is cut off or \
something follows it
page: id 7: value 135 by the machine
page: id 2: value -1 by the correction
page: id 5: in neither
page: id 2147352576: ID
pair: id 0, value 150 by the machine
pair: id 2, value -1 by the correction
pair: id 7, value 135 by the machine
";
    assert_eq!(printed, expected);
}

#[test]
fn the_example_of_a_page() {
    let printed = build_and_run(Path::new("examples/page.c"), &["-std=c99"]);
    let expected = "\
id 7: value 135, ordinal 2
id 5: not listed
id 0: value 150, ordinal 0
id 7: value 135, ordinal 2
id 2147352576: refused, ID
";
    assert_eq!(printed, expected);
}

#[test]
fn the_example_of_a_search_by_value() {
    let printed = build_and_run(Path::new("examples/first_between.c"), &["-std=c99"]);
    // Three entries of 25 bytes; two runs of 3 bits, and 7232 values of 20.
    let expected = format!(
        "\
{} bytes of values
from 5 to 6: ordinal 5
from 8 to 2000000: ordinal 39000
from -9 to -1: none
from 0 to 9: refused, EDITION
",
        75 + 2 * 16_384 * 3 / 8 + 7232 * 20 / 8
    );
    assert_eq!(printed, expected);
}

#[test]
fn the_example_of_a_walk() {
    let printed = build_and_run(Path::new("examples/walk.c"), &["-std=c99"]);
    // 0 to 9 a hundred times, by 64 of 1000; ten times, by 64 and 36 of a full 64.
    let expected = "\
1000 scores add up to 4500, in 16 calls
100 scores add up to 450, in 2 calls
the last is id 2997 with 9
";
    assert_eq!(printed, expected);
}

#[test]
fn the_example_of_a_plan() {
    let printed = build_and_run(Path::new("examples/plan.c"), &["-std=c99"]);
    // Three entries of 8 bytes and 1000 codes of 2 bits; without a table 30 bits for each.
    let expected = format!(
        "\
code 0: -1
code 1: 0
code 2: 1000000007
by the plan: edition 4, {} bytes of values
  id 7: value -1
plain: edition 1, {} bytes of values
  id 7: value -1
by another: refused, PLAN
",
        3 * 8 + 1000 * 2 / 8,
        1000 * 30 / 8
    );
    assert_eq!(printed, expected);
}

#[test]
fn the_boundary_is_as_the_header_says() {
    build_and_run(Path::new("rust/tests/library/boundary.c"), &["-std=c11"]);
}

#[test]
fn the_header_is_good_cplusplus() {
    let source = Path::new("rust/tests/library/boundary.c");
    let root = Path::new(env!("CARGO_MANIFEST_DIR")).join("..");
    let parsed = Command::new("gcc")
        .args([
            "-std=c++11",
            "-x",
            "c++",
            "-fsyntax-only",
            "-Wall",
            "-Wextra",
            "-Werror",
            "-I",
        ])
        .arg(root.join("include"))
        .arg(root.join(source))
        .output()
        .expect("gcc is installed");
    let errors = String::from_utf8_lossy(&parsed.stderr);
    // The C++ front end is a package of its own.
    assert!(
        parsed.status.success() || errors.contains("cc1plus"),
        "gcc: {errors}"
    );
}
