//! `dist/`, the proved calls as assembly: of these crates, and enough to build and install the library without the
//! kit and without cargo.

use std::fs;
use std::path::{Path, PathBuf};
use std::process::Command;

use crate::common::tool::{has_programs, script, Folder};

fn root() -> PathBuf {
    Path::new(env!("CARGO_MANIFEST_DIR")).join("..")
}

/// Whoever changes a crate makes dist/ anew: `dist/make`.
#[test]
fn made_from_these_crates() {
    let now = Command::new(root().join("dist/source")).output().unwrap();
    assert!(now.status.success());
    let then = fs::read_to_string(root().join("dist/SOURCE")).unwrap();
    assert_eq!(
        String::from_utf8(now.stdout).unwrap(),
        then,
        "crates/ changed and dist/ did not: run dist/make"
    );
}

/// The library from dist/: a program finds it, and where the processor has the level x86-64-v3, the library for that.
#[test]
fn installed_without_the_kit() {
    if !has_programs(&["make"]) {
        return;
    }
    let folder = Folder::new("dist");
    fs::create_dir(folder.path("traps")).unwrap();
    for name in ["rt", "cargo"] {
        script(&folder.0.join("traps").join(name), "exit 97");
    }
    let (prefix, build) = (folder.path("prefix"), folder.path("build"));
    let path = format!(
        "{}:{}",
        folder.path("traps"),
        std::env::var("PATH").unwrap()
    );
    let made = Command::new("make")
        .args(["install-library", &format!("prefix={prefix}")])
        .arg(format!("BUILD={build}"))
        .current_dir(root())
        .env("PATH", path)
        .env_remove("SIGNALFERN_LIB_DIR")
        .env_remove("MAKEFLAGS")
        .output()
        .unwrap();
    let said = String::from_utf8_lossy(&made.stderr).into_owned();
    assert!(made.status.success(), "{said}");
    let program = folder.path("program");
    let built = Command::new("gcc")
        .arg(root().join("rust/tests/library/installed.c"))
        .arg(format!("-I{prefix}/include"))
        .args([&format!("-L{prefix}/lib"), "-lsignalfern", "-o", &program])
        .status();
    assert!(built.unwrap().success());
    let ran = Command::new(&program)
        .env("LD_LIBRARY_PATH", format!("{prefix}/lib"))
        .env("LD_DEBUG", "libs")
        .output()
        .unwrap();
    let loaded = String::from_utf8_lossy(&ran.stderr).into_owned();
    assert!(ran.status.success(), "{loaded}");
    #[cfg(target_arch = "x86_64")]
    {
        let level = Path::new(&prefix).join("lib/glibc-hwcaps/x86-64-v3");
        assert!(level.join("libsignalfern.so.0.2").exists());
        let levels = ["avx2", "bmi1", "bmi2", "fma", "lzcnt", "movbe", "f16c"];
        let has = |level: &str| match level {
            "avx2" => is_x86_feature_detected!("avx2"),
            "bmi1" => is_x86_feature_detected!("bmi1"),
            "bmi2" => is_x86_feature_detected!("bmi2"),
            "fma" => is_x86_feature_detected!("fma"),
            "lzcnt" => is_x86_feature_detected!("lzcnt"),
            "movbe" => is_x86_feature_detected!("movbe"),
            _ => is_x86_feature_detected!("f16c"),
        };
        let by_level = loaded
            .lines()
            .any(|line| line.contains("calling init") && line.contains("x86-64-v3"));
        assert_eq!(by_level, levels.iter().all(|level| has(level)), "{loaded}");
    }
}

/// For another processor than dist/ has, and where proving is asked for without the kit, make says what to do.
#[test]
fn what_make_says_without_what_it_needs() {
    if !has_programs(&["make"]) {
        return;
    }
    let folder = Folder::new("dist-says");
    let build = format!("BUILD={}", folder.path("build"));
    // (one that is not there, whatever was proved before)
    let archive = format!("ARCHIVE={}", folder.path("none.a"));
    for (words, sentence) in [
        (
            &["PROCESSOR=riscv64", "library"][..],
            "dist/ has nothing for riscv64",
        ),
        (&["PROVE=1", "library", &archive], "rt is not on the path"),
    ] {
        let tools = "for program in ar as bash cat cc cmp echo find gcc ld mkdir mv rm sed sh; do
             found=$(command -v $program) && ln -sf \"$found\" bin; done; :";
        let made = folder.shell(&format!("mkdir -p bin; {tools}"));
        made.expect(0, &[]);
        let make = Command::new("sh")
            .args(["-c", "command -v make"])
            .output()
            .unwrap();
        let make = String::from_utf8(make.stdout).unwrap();
        let ran = Command::new(make.trim())
            .args(words)
            .arg(&build)
            .current_dir(root())
            .env("PATH", folder.path("bin"))
            .env_remove("SIGNALFERN_LIB_DIR")
            .env_remove("MAKEFLAGS")
            .output()
            .unwrap();
        let said = String::from_utf8_lossy(&ran.stderr).into_owned();
        assert!(!ran.status.success() && said.contains(sentence), "{said}");
    }
}
