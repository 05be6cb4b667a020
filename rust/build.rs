//! Provides `libsignalfern_c.a`, the archive of the proved calls, to the linker.
//!
//! - As it is, it assembles `dist/`: the text that was made from the proved library. That takes a C compiler and a second, and no Rattle kit.
//! - With `SIGNALFERN_PROVE=1` it has the kit prove the library in the repository around this package, and build it: some minutes.
//! - With `SIGNALFERN_LIB_DIR` it takes the archive in that folder. A relative folder counts from the repository's root, as it does for `make`.

use std::ffi::OsString;
use std::path::{Path, PathBuf};
use std::process::Command;
use std::{env, fs};

const ARCHIVE: &str = "libsignalfern_c.a";

/// What a processor of the level x86-64-v3 has beside the baseline, as Rust names it.
const LEVEL_3: [&str; 8] = [
    "avx", "avx2", "bmi1", "bmi2", "f16c", "fma", "lzcnt", "movbe",
];

fn main() {
    let out_dir = PathBuf::from(variable("OUT_DIR"));
    let archive = out_dir.join(ARCHIVE);
    let package = PathBuf::from(variable("CARGO_MANIFEST_DIR"));
    let root = package.parent().unwrap_or(&package);
    if let Some(folder) = chosen("SIGNALFERN_LIB_DIR") {
        take(&root.join(folder).join(ARCHIVE), &archive);
    } else if chosen("SIGNALFERN_PROVE").is_some_and(|word| word != "0") {
        take(&prove(root, &out_dir), &archive);
    } else {
        // A package of its own has the folder in itself (`packaging/crate`).
        let own = package.join("dist");
        let dist = if own.is_dir() { own } else { root.join("dist") };
        assemble(&dist, &out_dir, &archive);
    }
    compare_version(&archive);
    println!("cargo:rustc-link-search=native={}", out_dir.display());
    println!("cargo:rustc-link-lib=static=signalfern_c");
    // For the test that links a C program.
    println!(
        "cargo:rustc-env=SIGNALFERN_ARCHIVE_DIR={}",
        out_dir.display()
    );
}

/// The archive has the version of its boundary in a symbol's name (`include/signalfern.h`); calls of another
/// one may take and write other words.
fn compare_version(archive: &Path) {
    let symbol = concat!(
        "signalfern_abi_",
        env!("CARGO_PKG_VERSION_MAJOR"),
        "_",
        env!("CARGO_PKG_VERSION_MINOR"),
        "\0"
    );
    let bytes = match fs::read(archive) {
        Ok(bytes) => bytes,
        Err(error) => fail(&format!("cannot read {}: {error}", archive.display())),
    };
    if !(bytes.windows(symbol.len())).any(|at| at == symbol.as_bytes()) {
        fail(&format!(
            "{} was made for another version: it has no {}",
            archive.display(),
            symbol.trim_end_matches('\0')
        ));
    }
}

/// A variable that cargo sets.
fn variable(name: &str) -> OsString {
    env::var_os(name).unwrap_or_else(|| fail(&format!("cargo has not set {name}")))
}

/// A variable that the caller may set; an empty one counts as none.
fn chosen(name: &str) -> Option<OsString> {
    println!("cargo:rerun-if-env-changed={name}");
    env::var_os(name).filter(|value| !value.is_empty())
}

fn take(from: &Path, to: &Path) {
    println!("cargo:rerun-if-changed={}", from.display());
    if let Err(error) = fs::copy(from, to) {
        fail(&format!("cannot copy {}: {error}", from.display()));
    }
}

fn assemble(dist: &Path, out_dir: &Path, archive: &Path) {
    println!("cargo:rerun-if-changed={}", dist.display());
    let (target, host) = (variable("TARGET"), variable("HOST"));
    let source = dist.join(format!("signalfern-{}.s", processor()));
    let object = out_dir.join("signalfern.o");
    let cc = chosen(&format!(
        "CC_{}",
        target.to_string_lossy().replace('-', "_")
    ))
    .or_else(|| chosen("CC"))
    .unwrap_or_else(|| cross("gcc", target == host, "cc").into());
    let ar = chosen("AR").unwrap_or_else(|| cross("ar", target == host, "ar").into());
    run(
        Command::new(cc)
            .arg("-c")
            .arg(&source)
            .arg("-o")
            .arg(&object),
        "assembles dist/",
    );
    // (ar would add to an archive that is there.)
    let _ = fs::remove_file(archive);
    run(
        Command::new(ar).arg("rcs").arg(archive).arg(&object),
        "makes the archive",
    );
}

/// The file of dist/ for the target.
fn processor() -> &'static str {
    let features = env::var("CARGO_CFG_TARGET_FEATURE").unwrap_or_default();
    let has = |wanted: &&str| features.split(',').any(|feature| feature == *wanted);
    let (arch, os) = (
        variable("CARGO_CFG_TARGET_ARCH"),
        variable("CARGO_CFG_TARGET_OS"),
    );
    match (arch.to_str(), os.to_str()) {
        (Some("x86_64"), Some("linux")) if LEVEL_3.iter().all(has) => "x86-64-v3",
        (Some("x86_64"), Some("linux")) => "x86-64",
        (Some("aarch64"), Some("linux")) => "aarch64",
        _ => fail(
            "dist/ is for Linux on x86-64 and ARM64; for another target set SIGNALFERN_LIB_DIR",
        ),
    }
}

/// The name of a tool: Debian's cross tools for ARM64 where the target is not the host.
fn cross(tool: &str, native: bool, plain: &str) -> String {
    if native {
        plain.into()
    } else {
        format!("aarch64-linux-gnu-{tool}")
    }
}

fn prove(root: &Path, out_dir: &Path) -> PathBuf {
    println!(
        "cargo:rerun-if-changed={}",
        root.join("crates.txt").display()
    );
    for entry in fs::read_dir(root.join("crates")).into_iter().flatten() {
        // (`rt` writes into a crate's folder `out`)
        let parts = entry
            .into_iter()
            .flat_map(|entry| ["src", "specs", "proofs"].map(|part| entry.path().join(part)));
        for part in parts.filter(|part| part.is_dir()) {
            println!("cargo:rerun-if-changed={}", part.display());
        }
    }
    let proved = out_dir.join("proved");
    run(
        Command::new(root.join("dist/prove"))
            .arg(&proved)
            .arg(processor()),
        "proves and builds the library",
    );
    proved.join(processor()).join(ARCHIVE)
}

fn run(command: &mut Command, what: &str) {
    let name = command.get_program().to_string_lossy().into_owned();
    match command.output() {
        Err(error) => fail(&format!("cannot run `{name}`, which {what}: {error}")),
        Ok(output) if !output.status.success() => {
            let text = [output.stdout, output.stderr].concat();
            eprintln!("{}", String::from_utf8_lossy(&text));
            fail(&format!(
                "`{name}`, which {what}, failed; what it said follows under stderr"
            ))
        }
        Ok(_) => {}
    }
}

fn fail(message: &str) -> ! {
    println!("cargo:warning={message}");
    std::process::exit(1);
}
