//! Reports in one HTML file: what they hold, and how a browser shows them where there is one.

use std::fs;
use std::path::Path;

use crate::common::tool::{has_program, run, Folder};
use crate::common::{ids_of, values_of_width, Random, EDITIONS};

/// Every tag that is opened is closed, in the right order.
fn assert_well_formed(page: &str) {
    let mut open: Vec<&str> = Vec::new();
    for part in page.split('<').skip(1) {
        let (tag, _) = part.split_once('>').unwrap_or_else(|| panic!("{part}"));
        if tag.starts_with('!') || tag.ends_with('/') {
            continue;
        }
        let name = tag
            .trim_start_matches('/')
            .split_whitespace()
            .next()
            .unwrap();
        if ["meta", "br"].contains(&name) {
            continue;
        }
        match tag.starts_with('/') {
            true => assert_eq!(open.pop(), Some(name), "{tag}"),
            false => open.push(name),
        }
    }
    assert!(open.is_empty(), "{open:?}");
}

/// Nothing comes from outside, and nothing runs.
fn assert_alone(page: &str) {
    for word in [
        "http:",
        "https:",
        "//",
        "<script",
        "src=",
        "href=",
        "@import",
        "url(\"",
        "url('",
        "javascript",
    ] {
        assert!(!page.contains(word), "{word}");
    }
    assert!(
        page.starts_with("<!DOCTYPE html>\n<!-- a report by signalfern -->\n<html lang=\"en\">")
    );
}

#[test]
fn of_a_column_in_every_edition() {
    let folder = Folder::new("report_show");
    let mut random = Random::new(9);
    for edition in EDITIONS {
        let ids = ids_of(&mut random, &[(0, 30), (1, 4096), (3, 65_536), (200, 7)]);
        let values = values_of_width(&mut random, ids.len(), 5);
        folder.put(
            "column",
            signalfern::write_to_vec(&ids, &values, edition, 9).unwrap(),
        );
        folder
            .shell("sha256sum column > column.sha256")
            .expect(0, &[]);
        let digest = folder.shell("sha256sum < column").out[..64].to_string();
        folder
            .shell("SOURCE_DATE_EPOCH=1000000000 signalfern show column --html page")
            .expect(0, &[]);
        let page = String::from_utf8(folder.bytes("page")).unwrap();
        assert_well_formed(&page);
        assert_alone(&page);
        let (count, len) = (ids.len(), folder.bytes("column").len());
        for words in [
            &format!("{count} pairs")[..],
            &format!("Where the {len} bytes go"),
            &digest,
            "Sound, and confirmed.",
            "2001-09-09 01:46 UTC",
            "Map of the ids",
            "<title>block 0: 30 ids, sparse</title>",
            "<title>block 1: 4096 ids, dense</title>",
            "<title>block 3: 65536 ids, all</title>",
            "from block 0 (top left) to block 200",
            "Distribution of the scores",
            "Made by signalfern ",
        ] {
            assert!(page.contains(words), "{words}");
        }
        // A report is replaced by a report.
        folder
            .shell("signalfern show column --html page")
            .expect(0, &[]);
    }
    let empty = folder.column("empty", &[], &[]);
    let ran = run(&["show", &empty, "--html", "-"]).expect(
        0,
        &["There is no id.", "There is no score.", "not confirmed"],
    );
    assert_well_formed(&ran.out);
}

#[test]
fn of_an_audit() {
    let folder = Folder::new("report_audit");
    let machine = folder.column("<machine> & \"more\"", &[0, 2, 7], &[150, 140, 135]);
    let correction = folder.column("correction", &[2, 4], &[-1, 254]);
    let page = folder.path("page");
    run(&[
        "audit",
        &machine,
        "7",
        "2",
        "5",
        "-c",
        &correction,
        "--html",
        &page,
    ])
    .expect(0, &[]);
    let page = fs::read_to_string(&page).unwrap();
    assert_well_formed(&page);
    assert_alone(&page.replace(&folder.path(""), ""));
    for words in [
        "&lt;machine&gt; &amp; &quot;more&quot;",
        "The 3 ids asked for",
        "<h3>Id 7</h3>",
        "135 + 5 * 0 = 135",
        "byte 26 (0x1A): <code>D0</code> <code class=\"bits\">1101<b>00</b>00</code>",
        "Overruled score",
        "<strong>140</strong>, ordinal 1, by the machine column",
        "<strong>-1</strong>, ordinal 0, by the correction column",
        "absent",
        "The correction column",
        "no digest was compared",
    ] {
        assert!(
            page.to_lowercase().contains(&words.to_lowercase()),
            "{words}"
        );
    }
    // Of a refused file there is no report.
    folder.put("damaged", &folder.bytes("correction")[..9]);
    let ran =
        folder.shell("signalfern show damaged --html new; signalfern audit damaged 7 --html new");
    assert!(
        ran.out.is_empty() && !Path::new(&folder.path("new")).exists(),
        "{}",
        ran.out
    );
}

/// A browser draws it, and prints it to some pages, where one is there.
#[test]
fn in_a_browser() {
    if !has_program("chromium") {
        return;
    }
    let folder = Folder::new("report_browser");
    let mut random = Random::new(5);
    let ids = ids_of(
        &mut random,
        &[(0, 300), (1, 30_000), (3, 65_536), (77, 5000)],
    );
    let values = values_of_width(&mut random, ids.len(), 8);
    let column = folder.column("column", &ids, &values);
    let id = ids[1000].to_string();
    run(&["audit", &column, &id, "--html", &folder.path("page.html")]).expect(0, &[]);
    let script = "chromium --headless --no-sandbox --disable-gpu --user-data-dir=profile --window-size=900,4000 \
                  --screenshot=page.png page.html > log 2>&1; \
                  chromium --headless --no-sandbox --disable-gpu --user-data-dir=profile --print-to-pdf=page.pdf page.html >> log 2>&1; \
                  chromium --headless --no-sandbox --disable-gpu --user-data-dir=profile --dump-dom page.html > dom 2>> log";
    let script = format!("timeout 120 bash -c '{script}'; head -c 4 page.png; head -c 5 page.pdf");
    let ran = folder.shell(&script);
    assert!(
        ran.out.contains("PNG") && ran.out.contains("%PDF-"),
        "{}",
        ran.out
    );
    let shown = String::from_utf8(folder.bytes("dom")).unwrap();
    assert!(shown.contains(&format!("<h3>Id {id}</h3>")) && shown.contains("Map of the ids"));
    assert!(folder.bytes("page.png").len() > 20_000, "an empty page");
}
