//! Pairs as people have them: lines, tables with a header line, and JSON lines.

use signalfern::Layer;

use crate::arguments::Arguments;
use crate::failure::Failure;
use crate::json::put_string;
use crate::json_lines;
use crate::text::quoted;
use crate::words::{parse_id, parse_line, parse_value, Wrong};

/// The form of a list of pairs.
#[derive(Clone, Copy, PartialEq, Eq)]
pub enum Form {
    Lines,
    Csv,
    Tsv,
    Json,
}

/// What the columns are called where nothing is told; a score may be called so too.
const ID: &str = "id";
const VALUE: &str = "value";
const SCORE: &str = "score";
/// What the column is called that names one of two columns.
const BY: &str = "by";

/// A form, and the names of its two columns or members.
pub struct Layout {
    pub form: Form,
    names: Option<(String, String)>,
    /// Whether a pair that is printed names the column that it came from.
    by: bool,
    /// Of a table, its separator and where id and value stand, after its header line was met.
    places: Option<(u8, usize, usize)>,
}

impl Layout {
    /// What `--format` and `--columns` tell; `json` is the same as `--format json`.
    pub fn of(arguments: &Arguments, json: bool) -> Result<Self, Failure> {
        let told = arguments.value("format").map(|word| word.to_string_lossy());
        let form = match told.as_deref() {
            None if json => Form::Json,
            None | Some("lines") => Form::Lines,
            Some("csv") => Form::Csv,
            Some("tsv") => Form::Tsv,
            Some("json") => Form::Json,
            Some(word) => {
                let word = quoted(word);
                return Err(arguments.usage(format!("{word} is no form: lines, csv, tsv or json")));
            }
        };
        if json && form != Form::Json {
            return Err(arguments.usage("--json or --format: one of them"));
        }
        let names = match arguments.value("columns").map(|word| word.to_str()) {
            None => None,
            Some(word) => {
                let names = word.and_then(|word| word.split_once(','));
                let names = names.filter(|(id, value)| {
                    !id.is_empty() && !value.is_empty() && id != value && !value.contains(',')
                });
                let Some((id, value)) = names else {
                    return Err(arguments.usage("--columns takes two names: ID,VALUE"));
                };
                Some((id.to_string(), value.to_string()))
            }
        };
        if names.is_some() && form == Form::Lines {
            return Err(arguments.usage("--columns is for --format csv, tsv or json"));
        }
        Ok(Self {
            form,
            names,
            by: false,
            places: None,
        })
    }

    /// The same with the column that each pair came from.
    pub fn with_columns(self, by: bool) -> Self {
        Self { by, ..self }
    }

    /// The pair of a line, or none if it holds none. The first line of a table names its columns.
    pub fn pair(&mut self, line: &[u8]) -> Result<Option<(u32, i64)>, Wrong> {
        match self.form {
            Form::Lines => parse_line(line),
            Form::Json => self.object(line),
            Form::Csv | Form::Tsv => self.row(line),
        }
    }

    /// Whether a line that could not be read leaves no way to read those after it.
    pub fn is_lost(&self) -> bool {
        matches!(self.form, Form::Csv | Form::Tsv) && self.places.is_none()
    }

    fn row(&mut self, line: &[u8]) -> Result<Option<(u32, i64)>, Wrong> {
        let line = line.strip_suffix(b"\r").unwrap_or(line);
        if line.is_empty() {
            return Ok(None);
        }
        let Some((separator, id, value)) = self.places else {
            self.places = Some(self.header(line)?);
            return Ok(None);
        };
        let fields = fields(line, separator)?;
        let field = |at: usize| {
            fields
                .get(at)
                .map(|field| field.trim_ascii())
                .ok_or_else(|| {
                    let (count, wanted) = (fields.len(), at + 1);
                    Wrong::Text(format!(
                        "it has {count} fields, and field {wanted} is wanted"
                    ))
                })
        };
        Ok(Some((parse_id(field(id)?)?, parse_value(field(value)?)?)))
    }

    /// The separator of a table, and which of its columns are wanted.
    fn header(&self, line: &[u8]) -> Result<(u8, usize, usize), Wrong> {
        let separator = match self.form {
            Form::Tsv => b'\t',
            _ if line.contains(&b';') && !line.contains(&b',') => b';',
            _ => b',',
        };
        let names: Vec<String> = (fields(line, separator)?.iter())
            .map(|field| String::from_utf8_lossy(field.trim_ascii()).into_owned())
            .collect();
        let place = |wanted: &str| {
            let exact = names.iter().position(|name| name == wanted);
            exact.or_else(|| {
                names
                    .iter()
                    .position(|name| name.eq_ignore_ascii_case(wanted))
            })
        };
        let missing = |wanted: &str| {
            let known = quoted(names.join(", "));
            Wrong::Text(format!(
                "the header line {known} names no column {}: tell its columns by --columns ID,VALUE",
                quoted(wanted)
            ))
        };
        let (id, value) = match &self.names {
            Some((id, value)) => (
                place(id).ok_or_else(|| missing(id))?,
                place(value).ok_or_else(|| missing(value))?,
            ),
            None => (
                place(ID).ok_or_else(|| missing(ID))?,
                place(VALUE)
                    .or_else(|| place(SCORE))
                    .ok_or_else(|| missing(VALUE))?,
            ),
        };
        Ok((separator, id, value))
    }

    fn object(&self, line: &[u8]) -> Result<Option<(u32, i64)>, Wrong> {
        if line.trim_ascii().is_empty() {
            return Ok(None);
        }
        let members = json_lines::members(line).map_err(Wrong::Text)?;
        let member = |name: &str| {
            let mut its = members.iter().filter(|(key, _)| key == name);
            match (its.next(), its.next()) {
                (Some(_), Some(_)) => Err(Wrong::Text(format!(
                    "the member {} stands twice",
                    quoted(name)
                ))),
                (first, _) => Ok(first.map(|(_, word)| word.as_bytes())),
            }
        };
        let needed = |name: &str| {
            member(name)?.ok_or_else(|| {
                Wrong::Text(format!(
                    "the object has no member {}: tell its members by --columns ID,VALUE",
                    quoted(name)
                ))
            })
        };
        let (id, value) = match &self.names {
            Some((id, value)) => (needed(id)?, needed(value)?),
            None => match (member(VALUE)?, member(SCORE)?) {
                (None, Some(score)) => (needed(ID)?, score),
                _ => (needed(ID)?, needed(VALUE)?),
            },
        };
        Ok(Some((parse_id(id)?, parse_value(value)?)))
    }

    fn id_name(&self) -> &str {
        self.names.as_ref().map_or(ID, |(id, _)| id)
    }

    fn value_name(&self) -> &str {
        self.names.as_ref().map_or(VALUE, |(_, value)| value)
    }

    /// What stands before the pairs of such a text.
    pub fn start(&self) -> String {
        let separator = match self.form {
            Form::Csv => ',',
            Form::Tsv => '\t',
            Form::Lines | Form::Json => return String::new(),
        };
        let field = |name: &str| match name.contains([',', '"', '\t']) {
            true => format!("\"{}\"", name.replace('"', "\"\"")),
            false => name.to_string(),
        };
        let by = match self.by {
            true => format!("{separator}{BY}"),
            false => String::new(),
        };
        format!(
            "{}{separator}{}{by}\n",
            field(self.id_name()),
            field(self.value_name())
        )
    }

    /// What stands before an id, between it and its value, and after that: in each pair the same, but for the
    /// column that it came from, where that is told.
    pub fn around(&self, layer: Layer) -> [String; 3] {
        let quoted = |name: &str| {
            let mut out = String::new();
            put_string(&mut out, name);
            out
        };
        let by = |before: &str, after: &str| match self.by {
            true => format!("{before}{layer}{after}"),
            false => String::new(),
        };
        let fields = |separator: &str| {
            let end = by(separator, "") + "\n";
            [String::new(), separator.to_string(), end]
        };
        match self.form {
            Form::Lines => fields(" "),
            Form::Csv => fields(","),
            Form::Tsv => fields("\t"),
            Form::Json => [
                format!("{{{}:", quoted(self.id_name())),
                format!(",{}:\"", quoted(self.value_name())),
                format!("\"{}}}\n", by(&format!(",\"{BY}\":\""), "\"")),
            ],
        }
    }
}

/// The fields of a row, which may be quoted, with a quote in them written twice.
fn fields(line: &[u8], separator: u8) -> Result<Vec<Vec<u8>>, Wrong> {
    let mut fields = Vec::new();
    let mut rest = line;
    loop {
        let (field, after) = match rest.strip_prefix(b"\"") {
            Some(inner) => quoted_field(inner)?,
            None => {
                let end = rest.iter().position(|&byte| byte == separator);
                let (field, after) = rest.split_at(end.unwrap_or(rest.len()));
                (field.to_vec(), after)
            }
        };
        fields.push(field);
        match after.split_first() {
            None => return Ok(fields),
            Some((&byte, after)) if byte == separator => rest = after,
            Some(_) => {
                return Err(Wrong::Text(
                    "something stands between a closing quote and the next separator".to_string(),
                ))
            }
        }
    }
}

/// A field after its opening quote, and what follows the closing one.
fn quoted_field(inner: &[u8]) -> Result<(Vec<u8>, &[u8]), Wrong> {
    let mut field = Vec::new();
    let mut at = 0;
    loop {
        match (inner.get(at), inner.get(at + 1)) {
            (None, _) => {
                let why = "a quote is not closed on its line";
                return Err(Wrong::Text(why.to_string()));
            }
            (Some(b'"'), Some(b'"')) => {
                field.push(b'"');
                at += 2;
            }
            (Some(b'"'), _) => return Ok((field, &inner[at + 1..])),
            (Some(&byte), _) => {
                field.push(byte);
                at += 1;
            }
        }
    }
}

#[cfg(test)]
mod tests {
    use super::*;

    #[test]
    fn rows_and_their_fields() {
        let row = |line: &str| {
            let fields = fields(line.as_bytes(), b',').map_err(|wrong| wrong.parts().1)?;
            Ok::<_, String>(
                fields
                    .iter()
                    .map(|it| String::from_utf8_lossy(it).into_owned())
                    .collect(),
            )
        };
        for (line, expected) in [
            ("1,2", &["1", "2"][..]),
            ("", &[""]),
            ("1,", &["1", ""]),
            (
                "\"1\",\"a,b\",\"say \"\"hi\"\"\"",
                &["1", "a,b", "say \"hi\""],
            ),
        ] {
            let expected: Vec<String> = expected.iter().map(|it| it.to_string()).collect();
            assert_eq!(row(line), Ok(expected));
        }
        assert!(row("\"1").is_err() && row("\"1\"2,3").is_err());
    }
}
