//! Reports as one HTML page each, with nothing from outside: for an auditor to look at and to print.

mod charts;
mod date;
mod style;
mod tables;

use std::fmt::Write;

use signalfern::Layer;

use crate::audit::{versions, Finding, Subject};
use crate::blocks::Section;
use crate::failure::Failure;
use crate::header::Header;
use crate::packing::Packing;
use crate::scan::Scan;
use crate::show::{self, blocks::rows_of};
use crate::stats::Stats;
use crate::stored::Stored;
use crate::text::{byte_at, counted, hex};

/// What a report starts with, so that it can be told from other files.
pub const MARK: &str = "<!DOCTYPE html>\n<!-- a report by signalfern -->\n";

/// Ranges of the distribution.
const BINS: usize = 40;

// Writing to a string cannot fail, so the results below are dropped.

/// The report of one column.
pub fn show(subject: &Subject) -> Result<String, Failure> {
    let title = format!("Report of {}", subject.loaded.name);
    let mut out = start(&title);
    files(&mut out, std::slice::from_ref(subject));
    column(&mut out, subject)?;
    Ok(end(out))
}

/// The report of an audit.
pub fn audit(subjects: &[Subject], findings: &[Finding]) -> Result<String, Failure> {
    let names: Vec<&str> = subjects.iter().map(|it| it.loaded.name.as_str()).collect();
    let title = format!("Audit of {}", names.join(" with "));
    let mut out = start(&title);
    files(&mut out, subjects);
    asked(&mut out, subjects, findings);
    for subject in subjects {
        if subjects.len() > 1 {
            let title = subject.title();
            let _ = writeln!(out, "<h2 class=\"part\">The {title}</h2>");
        }
        column(&mut out, subject)?;
    }
    Ok(end(out))
}

/// Text as HTML shows it.
fn escaped(text: &str) -> String {
    let text = text.replace('&', "&amp;").replace('<', "&lt;");
    text.replace('>', "&gt;").replace('"', "&quot;")
}

fn start(title: &str) -> String {
    let (title, made) = (escaped(title), date::now());
    let (style, versions) = (style::SHEET, versions());
    format!(
        "{MARK}<html lang=\"en\">\n<head>\n<meta charset=\"utf-8\">\n\
         <meta name=\"viewport\" content=\"width=device-width, initial-scale=1\">\n\
         <meta name=\"generator\" content=\"{versions}\">\n<title>{title}</title>\n\
         <style>\n{style}</style>\n</head>\n<body>\n<main>\n<h1>{title}</h1>\n\
         <p class=\"made\">Made by {versions}, on {made}. The library's calls that check, read and \
         look up are proved; the tool that made this page of their answers is tested.</p>\n"
    )
}

fn end(out: String) -> String {
    out + "</main>\n</body>\n</html>\n"
}

/// A table of names and what belongs to them.
fn facts(out: &mut String, rows: &[(&str, String)]) {
    out.push_str("<table class=\"facts\">\n");
    for (name, html) in rows {
        let _ = writeln!(
            out,
            "<tr><th scope=\"row\">{}</th><td>{html}</td></tr>",
            escaped(name)
        );
    }
    out.push_str("</table>\n");
}

fn code(text: &str) -> String {
    format!("<code>{}</code>", escaped(text))
}

/// What the files are, and whether somebody confirmed them.
fn files(out: &mut String, subjects: &[Subject]) {
    out.push_str("<h2>What was examined</h2>\n");
    for subject in subjects {
        let loaded = subject.loaded;
        let verdict = match subject.witnesses.is_empty() {
            true => format!(
                "<strong class=\"open\">Sound, but not confirmed.</strong> {}.",
                escaped(&capital(&subject.confirmed()))
            ),
            false => format!(
                "<strong class=\"good\">Sound, and confirmed.</strong> Its digest is the one that {} tells.",
                escaped(&subject.witnesses.join(" and "))
            ),
        };
        let rows = [
            ("File", code(&loaded.name)),
            ("Holds", counted(subject.count, "pair")),
            ("Size", counted(loaded.bytes.len() as u64, "byte")),
            ("SHA-256", code(&hex(&loaded.digest()))),
            ("Verdict", verdict),
        ];
        if subjects.len() > 1 {
            let _ = writeln!(out, "<h3>{}</h3>", escaped(&capital(&subject.title())));
        }
        facts(out, &rows);
    }
    out.push_str(
        "<p class=\"note\">Sound means: the bytes are the column of one list of pairs, to the last bit, as the \
         writer would give it. Only a digest that was kept apart tells that nobody changed a score.</p>\n",
    );
}

fn capital(text: &str) -> String {
    let mut signs = text.chars();
    signs.next().map_or(String::new(), |first| {
        first.to_uppercase().chain(signs).collect()
    })
}

/// All that is told of one column.
fn column(out: &mut String, subject: &Subject) -> Result<(), Failure> {
    let bytes = &subject.loaded.bytes;
    // A column that was checked has a header.
    let Ok(header) = Header::parse(bytes) else {
        return Ok(());
    };
    tables::header_table(out, &header);
    let section = Section::of(&header, bytes);
    let (rows, sizes) = rows_of(&section);
    let total = header.total();
    let _ = writeln!(out, "<section>\n<h2>Where the {total} bytes go</h2>");
    charts::parts(out, &show::parts(&header, &sizes), total);
    out.push_str("</section>\n<section>\n<h2>Map of the ids</h2>\n");
    charts::map(out, section);
    out.push_str("</section>\n");
    tables::block_table(out, &rows);
    let scan = Scan::of(subject.loaded)?;
    let stats = Stats::of(&scan, BINS).map_err(|stop| scan.failure(stop))?;
    out.push_str("<section>\n<h2>Distribution of the scores</h2>\n");
    match stats.count {
        0 => out.push_str("<p>There is no score.</p>\n"),
        _ => {
            charts::distribution(out, &stats);
            tables::quantiles(out, &stats);
        }
    }
    out.push_str("</section>\n");
    match header.packing() {
        Some(Packing::Runs) => tables::run_table(out, &header, bytes),
        Some(Packing::Table) => tables::value_table(out, &header, bytes),
        _ => {}
    }
    Ok(())
}

/// The ids that were asked for: all in one table, and then the bytes of each.
fn asked(out: &mut String, subjects: &[Subject], findings: &[Finding]) {
    let count = counted(findings.len() as u64, "id");
    let _ = writeln!(out, "<section>\n<h2>The {count} asked for</h2>");
    let layered = subjects.len() > 1;
    let mut titles = vec!["Id", "Score", "Ordinal"];
    if layered {
        titles.extend(["Spoken by", "Overruled score"]);
    }
    let rows: Vec<Vec<String>> = findings
        .iter()
        .map(|finding| row(finding, layered))
        .collect();
    tables::numbers(out, &titles, &rows);
    out.push_str("</section>\n");
    for finding in findings {
        bytes_of(out, finding);
    }
}

fn row(finding: &Finding, layered: bool) -> Vec<String> {
    let mut row = vec![finding.id.to_string()];
    match &finding.spoken {
        None => row.extend(["absent", ""].map(String::from)),
        Some((_, stored)) => row.extend([stored.value.to_string(), stored.ordinal.to_string()]),
    }
    if layered {
        let by = finding.spoken.as_ref().and_then(|(layer, _)| *layer);
        row.push(by.map_or(String::new(), |layer| layer.to_string()));
        let other = finding
            .overruled
            .as_ref()
            .map(|stored| stored.value.to_string());
        row.push(other.unwrap_or_default());
    }
    row
}

/// The bytes that hold the value of an id.
fn bytes_of(out: &mut String, finding: &Finding) {
    let Some((layer, stored)) = &finding.spoken else {
        return;
    };
    let _ = writeln!(out, "<section class=\"id\">\n<h3>Id {}</h3>", finding.id);
    held(out, *layer, "Score", stored);
    if let Some(other) = &finding.overruled {
        held(out, Some(Layer::Machine), "Overruled score", other);
    }
    out.push_str("</section>\n");
}

fn held(out: &mut String, layer: Option<Layer>, title: &str, stored: &Stored) {
    let by = layer.map_or(String::new(), |layer| format!(", by the {layer} column"));
    let (value, ordinal) = (stored.value, stored.ordinal);
    let mut rows = vec![(
        title,
        format!("<strong>{value}</strong>, ordinal {ordinal}{by}"),
    )];
    let sentences: Vec<String> = (stored.sentences().iter())
        .map(|sentence| escaped(&capital(sentence)))
        .collect();
    rows.push(("Stored", sentences.join("<br>")));
    let bytes: Vec<String> = (stored.held().iter())
        .map(|held| {
            let marked = held.marked.replace('[', "<b>").replace(']', "</b>");
            format!(
                "{}: <code>{:02X}</code> <code class=\"bits\">{marked}</code>",
                byte_at(held.place),
                held.byte
            )
        })
        .collect();
    if !bytes.is_empty() {
        rows.push(("Bytes", bytes.join("<br>")));
    }
    if let Some(entry) = stored.entry() {
        rows.push(("Table", code(&entry)));
    }
    facts(out, &rows);
}
