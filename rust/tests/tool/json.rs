//! JSON in every command: numbers that no reader rounds, names escaped once, and the members that the manual lists.

use std::fs;

use crate::common::tool::{has_program, run, script, Folder};

/// A value above 2^53, at an id, in each command that tells values.
#[test]
fn great_values_are_strings() {
    let folder = Folder::new("json_great");
    let great = 9_007_199_254_740_993_i64;
    let column = folder.column("column", &[5, 9], &[great, -great]);
    let word = great.to_string();
    for words in [
        &["read", "--json", &column][..],
        &["look-up", "--json", &column, "5", "9"],
        &["next", "--json", &column, "0", "--count", "2"],
        &["find", "--json", &column, &word, &word],
        &["audit", "--json", &column, "5", "9"],
        &["stats", "--json", &column],
        &["show", "--json", &column],
    ] {
        let out = run(words).expect(0, &[]).out;
        assert!(
            out.contains(&format!("\"{great}\"")) || out.contains(&format!("\"-{great}\"")),
            "{out}"
        );
        assert!(
            !out.contains(&format!(":{great}")) && !out.contains(&format!(":-{great}")),
            "{out}"
        );
        if has_program("jq") {
            // What jq prints again is what was there.
            let file = folder.put("out", &out);
            let again = folder
                .shell(&format!("jq -c . < {file}"))
                .expect(0, &[])
                .out;
            assert_eq!(again, out);
        }
    }
    let ran = run(&["look-up", "--json", &column, "5", "6"]).expect(0, &[]);
    let told = format!(
        "{{\"id\":5,\"answer\":\"found\",\"value\":\"{great}\",\"ordinal\":\"0\",\"words\":0,\"probes\":2}}\n\
         {{\"id\":6,\"answer\":\"absent\",\"words\":0,\"probes\":2}}\n"
    );
    assert_eq!(ran.out, told);
}

#[test]
fn names_are_escaped_once() {
    let folder = Folder::new("json_names");
    let bytes = signalfern::write_to_vec(&[1], &[1], signalfern::Edition::Plain, 9).unwrap();
    for (name, escaped) in [
        ("a\nb", "a\\u000ab"),
        ("back\\slash", "back\\\\slash"),
        ("tab\t\"q\"", "tab\\u0009\\\"q\\\""),
        ("\u{202e}x", "\\u202ex"),
        ("\u{e9}", "\u{e9}"),
    ] {
        let file = folder.put(name, &bytes);
        for command in ["check", "show", "stats"] {
            let out = run(&[command, "--json", &file]).expect(0, &[]).out;
            assert!(out.contains(&format!("/{escaped}\",")), "{out}");
        }
    }
    let out = folder
        .shell("cp back* $'no\\xff'; signalfern check --json $'no\\xff'")
        .expect(0, &[])
        .out;
    assert!(
        out.starts_with("{\"file\":\"no\u{fffd}\",\"file_hex\":\"6e6fff\","),
        "{out}"
    );
}

/// Every command's objects hold members of its own list, of the type told there, and no number above 2^53.
const CHECK: &str = r#"
import json, subprocess, sys
tool = sys.argv[1]
def objects(words):
    done = subprocess.run([tool] + words, capture_output=True)
    assert done.returncode in (0, 1), (words, done.stderr)
    lines = done.stdout.decode().splitlines()
    assert lines, (words, done.stderr)
    return [json.loads(line) for line in lines]
schema = {o["command"]: {m["member"]: m["type"] for m in o["members"]} for o in objects(["help", "--json"])}
def small(value):
    if isinstance(value, dict): return all(small(v) for v in value.values())
    if isinstance(value, list): return all(small(v) for v in value)
    return not isinstance(value, (int, float)) or abs(value) < 2**53
def fits(value, kind):
    return {"string": lambda: isinstance(value, str),
        "number": lambda: isinstance(value, int),
        "string of digits": lambda: isinstance(value, str) and value.lstrip("-").isdigit(),
        "list of strings": lambda: isinstance(value, list) and all(isinstance(v, str) for v in value),
        "list of objects": lambda: isinstance(value, list) and all(isinstance(v, dict) for v in value),
        "object": lambda: isinstance(value, dict)}[kind]()
seen = {}
for words in open(sys.argv[2]).read().splitlines():
    words = words.split()
    for o in objects(words + ["--json"]):
        assert small(o), (words, o)
        for name, value in o.items():
            assert name in schema[words[0]], (words, name)
            assert fits(value, schema[words[0]][name]), (words, name, value)
            seen.setdefault(words[0], set()).add(name)
for command, members in schema.items():
    left = set(members) - seen.get(command, set()) - {"file_hex", "message", "header_number", "place"}
    assert command == "demo" or not left, (command, left)
print("all fit")
"#;

#[test]
fn members_are_those_of_the_manual() {
    if !has_program("python3") {
        return;
    }
    let folder = Folder::new("json_members");
    folder.put("list", "0 150\n2 140\n7 135\n7 9\n");
    folder.put("bad.list", "x\n");
    let column = folder.column("column", &[0, 2, 7, 70_000], &[150, 140, 135, -4]);
    folder.column("correction", &[2, 4], &[-1, 254]);
    let ids: Vec<u32> = (0..300).collect();
    let values: Vec<i64> = ids
        .iter()
        .map(|id| [i64::MIN, 0, 1][*id as usize % 3])
        .collect();
    for (name, edition) in [
        ("runs", signalfern::Edition::Runs),
        ("table", signalfern::Edition::Table),
    ] {
        folder.put(
            name,
            signalfern::write_to_vec(&ids, &values, edition, 9).unwrap(),
        );
    }
    let mut bytes = fs::read(&column).unwrap();
    bytes[14] = 3;
    folder.put("damaged", &bytes);
    folder.put("set", signalfern::set_write_to_vec(&[2, 5]).unwrap());
    let section = [0, 0, 0, 0, 5, 0, 0xFF, 0x7F, 0, 0, 0xFF, 0xFF];
    folder.put("section", section);
    folder.put("eight", [0, 0, 0, 0, 0, 5, 0x7F, 0xFF, 0, 0, 0xFF, 0xFF]);
    folder.put(
        "words",
        "write list -o new --best --duplicates first\nwrite bad.list --dry-run\nwrite list --dry-run --duplicates=last\n\
         check column damaged list\nread column\nread column -c correction --by\nlook-up column 0 1\nlook-up column 0 1 2 -c correction\n\
         next column 3 --count 9\nfind column 0 140\nfind column 0 9\nfind column 0 140 --count\nstats column\n\
         diff column correction\ndiff correction column\naudit column 0 2 4 5 -c correction\naudit runs 7\naudit table 7\n\
         show column\nshow damaged\nshow runs\nshow table\nset write ids -o newset\nset check set list\nset read set\n\
         set find set 2 3\njudge section -j0 -p0\njudge eight -j0 -p0\nconform ./maker --vectors .\nhelp\n",
    );
    // A maker with one answer, and one vector that expects it.
    let answers = "while read -r line; do echo '{\"kind\":\"done\"}'; done";
    script(&folder.0.join("maker"), answers);
    folder.put("numbers.json", "{\"classes\":{\"reader\":[\"check\"]}}");
    fs::create_dir(folder.path("vectors")).unwrap();
    let vector = "{\"name\":\"a\",\"call\":\"check\",\"given\":{},\"reply\":{\"kind\":\"done\"}}\n";
    folder.put("vectors/check.jsonl", vector);
    folder.put("ids", "2\n5\n");
    folder.put("check.py", CHECK);
    let ran = folder.shell("python3 check.py \"$SIGNALFERN\" words 2>&1 | tail -1");
    assert_eq!(ran.out, "all fit\n", "{}", ran.err);
    // The objects of the commands that the demo runs are theirs.
    let demo =
        run(&["demo", &folder.path("again"), "--json"]).expect(0, &["{\"command\":[\"write\","]);
    assert!(demo.out.trim_end().ends_with("/again\"}"), "{}", demo.out);
}

/// The manual has the rule and the members.
#[test]
fn the_manual_has_the_schema() {
    let page = run(&["help", "--man"]).expect(0, &[]).out;
    for words in [
        ".SH JSON\n",
        "Values, ordinals and header numbers are strings of digits",
        ".SS Objects of look\\-up\n",
        ".B ordinal\nhow many ids lie below it (string of digits)\n",
        ".SH DIGESTS\n",
    ] {
        assert!(page.contains(words), "{words}");
    }
}
