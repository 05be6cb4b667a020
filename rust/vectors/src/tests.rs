//! The committed vectors are those that this program makes, and cover what they are to cover.

use std::collections::{BTreeMap, BTreeSet};
use std::fs;
use std::path::Path;

use super::recipe::field;
use super::{files, numbers_file, Json};

fn committed(name: &str) -> String {
    let folder = Path::new(env!("CARGO_MANIFEST_DIR")).join("../../conformance");
    fs::read_to_string(folder.join(name)).expect("a committed file")
}

#[test]
fn committed_as_made() {
    assert_eq!(committed("numbers.json"), numbers_file());
    let mut bytes = 0;
    for (name, text) in files() {
        let same = committed(&format!("vectors/{name}")) == text;
        assert!(
            same,
            "{name}: make them anew, as conformance/README.md says"
        );
        bytes += text.len();
    }
    assert!(bytes < 5_000_000, "{bytes}");
}

/// The vectors of a call.
fn vectors(call: &str) -> Vec<Json> {
    let text = committed(&format!("vectors/{call}.jsonl"));
    let parsed = text.lines().map(|line| Json::parse(line).expect("JSON"));
    parsed.collect()
}

fn part<'a>(vector: &'a Json, whole: &str, key: &str) -> Option<&'a Json> {
    vector.get(whole)?.get(key)
}

/// What a number of replies, or of arguments, takes in the vectors of a call.
fn taken(call: &str, whole: &str, key: &str) -> BTreeSet<i128> {
    let found = vectors(call).into_iter().filter_map(|vector| {
        let whole = vector.get(whole)?;
        whole.get(key).map(|_| field(whole, key))
    });
    found.collect()
}

/// Each refusal of docs/FORMAT.md's table of calls.
#[test]
fn each_refusal_of_each_call() {
    let (open, look_up) = (vec![7, 8, 9, 10, 11], vec![7, 8, 9, 10, 11, 14, 15]);
    for (call, refusals) in [
        ("write", vec![1, 2, 3, 4, 6, 9]),
        ("write_planned", vec![1, 2, 3, 4, 6, 17]),
        ("plan", vec![12]),
        ("check", [&open[..], &[13]].concat()),
        ("read", [&open[..], &[12, 13]].concat()),
        ("look_up", look_up.clone()),
        ("look_up_page", vec![12]),
        ("next", [&look_up[..], &[16]].concat()),
        ("first_between", [&open[..], &[15]].concat()),
        ("read_from", look_up.clone()),
        ("pair_at", [&open[..], &[15]].concat()),
        ("first_between_from", [&open[..], &[15]].concat()),
        ("look_up_layered", look_up.clone()),
        ("look_up_layered_page", vec![12]),
        ("read_layered_from", look_up),
        ("set_write", vec![3, 4, 6]),
        ("set_check", vec![7, 8, 13]),
        ("set_find", vec![7, 8, 13, 14]),
        ("judge", vec![10]),
        ("open", open),
        ("look_up_in", vec![10, 11, 14, 15]),
        ("next_in", vec![10, 11, 14, 15, 16]),
        ("first_between_in", vec![9, 10, 11, 15]),
        ("read_from_in", vec![10, 11, 14, 15]),
        ("pair_at_in", vec![10, 11, 15]),
        ("first_between_from_in", vec![9, 10, 11, 15]),
        ("look_up_layered_in", vec![10, 11, 14, 15]),
        ("look_up_layered_page_in", vec![12]),
        ("read_layered_from_in", vec![10, 11, 14, 15]),
    ] {
        let refusals = BTreeSet::from_iter(refusals);
        assert_eq!(taken(call, "reply", "refusal"), refusals, "{call}");
    }
}

/// Each reason in both byte orders.
#[test]
fn each_reason_in_both_orders() {
    let mut found = BTreeMap::new();
    for vector in vectors("judge") {
        let order = part(&vector, "given", "order")
            .and_then(Json::text)
            .map(str::to_string);
        let reason =
            part(&vector, "reply", "reason").map(|_| field(vector.get("reply").unwrap(), "reason"));
        *found.entry((order, reason)).or_insert(0) += 1;
    }
    for order in ["low", "high"] {
        for reason in (1..=8).map(Some).chain([None]) {
            let count = found.get(&(Some(order.to_string()), reason));
            assert!(count.is_some_and(|&count| count > 1), "{order} {reason:?}");
        }
    }
}

#[test]
fn each_power_width_and_edition() {
    let powers = [0, 7, 8, 9, 10, 11, 12, 13, 14, 15];
    assert!(powers
        .iter()
        .all(|power| taken("write", "given", "power").contains(power)));
    assert!(powers
        .iter()
        .all(|power| taken("judge", "given", "power").contains(power)));
    assert!((1..=4).all(|edition| taken("write", "given", "edition").contains(&edition)));
    // "width w, edition e" stands in what they are about.
    for call in ["write", "check", "read", "look_up"] {
        let about: Vec<String> = (vectors(call).iter())
            .filter_map(|vector| vector.get("about")?.text().map(str::to_string))
            .collect();
        for width in 0..=64 {
            for edition in 1..=3 {
                let words = format!("width {width}, edition {edition},");
                assert!(
                    about.iter().any(|it| it.starts_with(&words)),
                    "{call}: {words}"
                );
            }
        }
        for count in [4095, 4096, 65_535, 65_536] {
            let words = format!("a block of {count},");
            assert!(
                about.iter().any(|it| it.starts_with(&words)),
                "{call}: {words}"
            );
        }
    }
    let words = taken("look_up", "reply", "words");
    assert!(words.contains(&0) && words.contains(&1) && *words.last().unwrap() > 500);
    assert_eq!(taken("look_up", "reply", "probes").last(), Some(&12));
}
