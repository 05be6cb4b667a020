//! diff, stats, and find in every edition.

use crate::common::tool::{run, Folder};
use crate::common::{ids_of, values_of_width, Random, EDITIONS};

#[test]
fn what_differs_between_two() {
    let folder = Folder::new("diff");
    let a = folder.column("a", &[0, 2, 7, 9], &[150, 140, 135, 1]);
    let b = folder.column("b", &[2, 5, 7, 9], &[140, -3, i64::MAX, 1]);
    let ran = run(&["diff", &a, &b]);
    let told =
        "1 added, 1 removed, 1 changed, 2 the same\n- 0 150\n+ 5 -3\n! 7 135 9223372036854775807\n";
    assert_eq!(
        (ran.status, ran.out.as_str(), ran.err.as_str()),
        (1, told, "")
    );
    let ran = run(&["diff", &b, &a, "--limit", "1"]);
    assert_eq!(
        (ran.status, ran.out.as_str()),
        (1, "1 added, 1 removed, 1 changed, 2 the same\n+ 0 150\n")
    );
    let ran = run(&["diff", "-q", &a, &b]);
    assert_eq!((ran.status, ran.out.as_str()), (1, ""));
    let ran = run(&["diff", &a, &a]).expect(0, &[]);
    assert_eq!(ran.out, "0 added, 0 removed, 0 changed, 4 the same\n");
    let ran = run(&["diff", "--json", &a, &b]);
    let told = "{\"added\":1,\"removed\":1,\"changed\":1,\"same\":2}\n\
                {\"change\":\"removed\",\"id\":0,\"old\":\"150\"}\n\
                {\"change\":\"added\",\"id\":5,\"new\":\"-3\"}\n\
                {\"change\":\"changed\",\"id\":7,\"old\":\"135\",\"new\":\"9223372036854775807\"}\n";
    assert_eq!((ran.status, ran.out.as_str()), (1, told));
    // Trouble is 2, and a refused file is trouble: 1 says that they differ.
    let bad = folder.put("bad", &folder.bytes("a")[..20]);
    run(&["diff", &a, &bad]).expect(2, &["refusal 11, LENGTH"]);
    run(&["diff", &a, "none"]).expect(2, &["cannot read none"]);
    run(&["diff", &a]).expect(2, &["no second column is named"]);
    run(&["diff", "-", "-"]).expect(2, &["only one file can come from standard input"]);
}

/// Beside diff itself, over lists of all kinds of blocks and in all editions.
#[test]
fn as_diff_has_it() {
    let folder = Folder::new("diff_lists");
    let mut random = Random::new(42);
    for edition in EDITIONS {
        let mut put = |name: &str| {
            let ids = ids_of(&mut random, &[(0, 300), (1, 5000), (3, 65_536), (9, 4)]);
            let values = values_of_width(&mut random, ids.len(), 2);
            folder.put(
                name,
                signalfern::write_to_vec(&ids, &values, edition, 9).unwrap(),
            );
        };
        put("a");
        put("b");
        let script = "signalfern read a > a.txt; signalfern read b > b.txt
            signalfern diff a b | tail -n +2 > is
            join -v 1 <(sort a.txt -k1,1) <(sort b.txt -k1,1) | sed 's/^/- /' > should
            join -v 2 <(sort a.txt -k1,1) <(sort b.txt -k1,1) | sed 's/^/+ /' >> should
            join <(sort a.txt -k1,1) <(sort b.txt -k1,1) | awk '$2 != $3 { print \"!\", $0 }' >> should
            cmp <(sort is) <(sort should) && wc -l < is";
        let ran = folder.shell(script).expect(0, &[]);
        assert!(
            ran.out.trim().parse::<usize>().unwrap() > 1000,
            "{}",
            ran.out
        );
    }
}

#[test]
fn how_values_are_distributed() {
    let folder = Folder::new("stats");
    // 1000 values: 0 to 999, times 10.
    let ids: Vec<u32> = (0..1000).collect();
    let values: Vec<i64> = (0..1000).map(|i| i * 7 % 1000 * 10 - 5000).collect();
    for edition in EDITIONS {
        let column = folder.put(
            "column",
            signalfern::write_to_vec(&ids, &values, edition, 9).unwrap(),
        );
        let words = [
            "column: 1000 pairs\n",
            "  smallest                 -5000\n  0.1%                     -5000\n  1%                       -4910\n",
            "  median                     -10\n",
            "  99.9%                     4980\n  greatest                  4990\n  mean                    -5.000\n",
            "Values in 4 ranges of equal width\n                 -5000 to                -2503          250  ########################################\n",
        ];
        run(&["stats", &column, "--bins", "4"]).expect(0, &words);
    }
    let column = folder.column("one", &[5], &[i64::MIN]);
    let words = [
        "one: 1 pair\n",
        "  mean      -9223372036854775808.000\n",
        "Values in 1 range of equal width",
    ];
    run(&["stats", &column]).expect(0, &words);
    let column = folder.column("ends", &[5, 6], &[i64::MIN, i64::MAX]);
    let json = run(&["stats", "--json", "--bins=2", &column])
        .expect(0, &[])
        .out;
    let words = "\"smallest\":\"-9223372036854775808\",\"greatest\":\"9223372036854775807\",\"mean\":\"-0.500\",";
    assert!(json.contains(words), "{json}");
    let words = "\"histogram\":[{\"low\":\"-9223372036854775808\",\"high\":\"-1\",\"count\":1},{\"low\":\"0\",\"high\":\"9223372036854775807\",\"count\":1}]";
    assert!(json.contains(words), "{json}");
    let none = folder.column("none", &[], &[]);
    assert_eq!(
        run(&["stats", &none]).expect(0, &[]).out,
        format!("{none}: 0 pairs\n")
    );
    run(&["stats", &none, "--bins", "0"]).expect(2, &["`0` is no count of ranges: 1 to 1000"]);
}

/// The first, all and how many, in each edition as in the list.
#[test]
fn values_in_a_range_in_every_edition() {
    let folder = Folder::new("find_all");
    let mut random = Random::new(12);
    for edition in EDITIONS {
        let ids = ids_of(&mut random, &[(0, 40), (1, 5000), (4, 20_000)]);
        let values = values_of_width(&mut random, ids.len(), 6);
        let column = folder.put(
            "column",
            signalfern::write_to_vec(&ids, &values, edition, 9).unwrap(),
        );
        for _ in 0..6 {
            let (one, other) = (
                values[random.below(values.len())],
                values[random.below(values.len())],
            );
            let (low, high) = (
                one.min(other),
                one.max(other).saturating_sub(1).max(one.min(other)),
            );
            let found: Vec<String> = (0..)
                .zip(ids.iter().zip(&values))
                .filter(|(_, (_, value))| (low..=high).contains(value))
                .map(|(ordinal, (id, value))| format!("{id} {value} ordinal {ordinal}\n"))
                .collect();
            let (low, high) = (low.to_string(), high.to_string());
            let ask = |option: &[&str]| {
                run(&[&["find", &column, &low, &high], option].concat())
                    .expect(0, &[])
                    .out
            };
            assert_eq!(ask(&[]), found[0], "{edition:?}");
            assert!(ask(&["--all"]) == found.concat());
            assert_eq!(ask(&["--count"]), format!("{}\n", found.len()));
        }
        let ran = run(&[
            "find",
            &column,
            "-9223372036854775808",
            "-9223372036854775808",
            "--all",
        ]);
        assert!(ran.out.starts_with("none from") || ran.out.contains("-9223372036854775808"));
    }
    let column = folder.column("few", &[1, 2], &[5, 6]);
    assert_eq!(
        run(&["find", &column, "7", "9", "--count"])
            .expect(0, &[])
            .out,
        "0\n"
    );
    assert_eq!(
        run(&["find", &column, "7", "9", "-a"]).expect(0, &[]).out,
        "none from 7 to 9\n"
    );
    let ran = run(&["find", &column, "5", "6", "--count", "--json"]).expect(0, &[]);
    assert_eq!(
        ran.out,
        "{\"low\":\"5\",\"high\":\"6\",\"answer\":\"counted\",\"count\":2}\n"
    );
    run(&["find", &column, "5", "6", "--count", "--all"]).expect(2, &["one of them"]);
}
