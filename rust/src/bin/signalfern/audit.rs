//! audit: the bytes that hold the values of ids, with what the files are.

use signalfern::{Answer, Layer, LayeredAnswer, Refusal};

use crate::arguments::Arguments;
use crate::check::NOT_COMPARED;
use crate::column::{Asked, Corrected, PAGE};
use crate::failure::Failure;
use crate::html;
use crate::ids::{self, Batch};
use crate::json::Object;
use crate::load::Loaded;
use crate::output::{print, Output};
use crate::replaced::Replaces;
use crate::stored::Stored;
use crate::text::{counted, hex};

/// A column of the audit: the file, and who confirmed its digest.
pub struct Subject<'a> {
    pub layer: Option<Layer>,
    pub loaded: &'a Loaded,
    pub count: u64,
    pub witnesses: Vec<String>,
}

/// What is found of an id.
pub struct Finding<'a> {
    pub id: u32,
    /// Which column speaks, if there are two, and what it holds; none if the id is in no column.
    pub spoken: Option<(Option<Layer>, Stored<'a>)>,
    /// What the machine column holds, where the correction speaks instead.
    pub overruled: Option<Stored<'a>>,
}

pub fn run(mut arguments: Arguments) -> Result<(), Failure> {
    let path = arguments.file("column")?;
    let words = arguments.ids()?;
    let (correction, list) = (arguments.path("correction"), arguments.path("ids"));
    if words.is_empty() && list.is_none() {
        return Err(arguments.usage("no id is named"));
    }
    arguments.one_form()?;
    arguments.one_standard(
        [Some(&path), correction.as_ref(), list.as_ref()]
            .into_iter()
            .flatten(),
    )?;
    let given = [arguments.digest("digest")?, arguments.correction_digest()?];
    let list = list
        .map(|list| ids::Asked::open(&list, "reading"))
        .transpose()?;

    let machine = Loaded::sound(&path, given[0])?;
    let correction = correction
        .map(|path| Loaded::sound(&path, given[1]))
        .transpose()?;
    let mut inputs = vec![machine.input()];
    inputs.extend(correction.as_ref().map(Loaded::input));
    let html = arguments.path("html");
    let output = html
        .as_ref()
        .map(|path| Output::open(path, arguments.has("force"), Replaces::Reports, &inputs));
    let output = output.transpose()?;
    let words = all_ids(words, list, &machine.name)?;
    let subjects = subjects(&machine, correction.as_ref(), given)?;
    let findings = findings(&machine, correction.as_ref(), &words)?;
    match (output, arguments.has("json")) {
        (Some(output), _) => {
            let page = html::audit(&subjects, &findings)?;
            output.fill_whole(|out| out.write_all(page.as_bytes()))
        }
        (None, true) => print(&json(&subjects, &findings)),
        (None, false) => print(&text(&subjects, &findings)),
    }
}

/// The ids of the command line and of a list, none above the limit.
fn all_ids(
    mut words: Vec<(u32, String)>,
    list: Option<ids::Asked>,
    name: &str,
) -> Result<Vec<u32>, Failure> {
    let above = words.iter_mut().find(|(id, _)| *id > signalfern::MAX_ID);
    if let Some((_, word)) = above {
        return Err(Failure::refused(format!("{name}: id {word}"), Refusal::Id));
    }
    let mut ids: Vec<u32> = words.into_iter().map(|(id, _)| id).collect();
    if let Some(mut list) = list {
        let mut batch = Batch::default();
        while list.batch(PAGE, &mut batch)? {
            if let Some((_, said)) = batch.above.first() {
                return Err(Failure::refused(said, Refusal::Id));
            }
            ids.extend(&batch.ids);
        }
    }
    Ok(ids)
}

fn subjects<'a>(
    machine: &'a Loaded,
    correction: Option<&'a Loaded>,
    given: [Option<crate::sha256::Digest>; 2],
) -> Result<Vec<Subject<'a>>, Failure> {
    let alone = correction.is_none();
    let subject = |layer, loaded: &'a Loaded, given| {
        Ok(Subject {
            layer: (!alone).then_some(layer),
            loaded,
            count: Asked::of(loaded)?.count(),
            witnesses: loaded.confirmed(given, "column")?.names(),
        })
    };
    let machine = subject(Layer::Machine, machine, given[0])?;
    let correction = correction.map(|it| subject(Layer::Correction, it, given[1]));
    Ok([machine]
        .into_iter()
        .chain(correction.transpose()?)
        .collect())
}

fn findings<'a>(
    machine: &'a Loaded,
    correction: Option<&'a Loaded>,
    ids: &[u32],
) -> Result<Vec<Finding<'a>>, Failure> {
    let asked = Asked::of(machine)?;
    let Some(correction) = correction else {
        return ids.iter().map(|&id| alone(machine, &asked, id)).collect();
    };
    let layers = asked.under(&Asked::of(correction)?);
    let both = [machine, correction];
    ids.iter()
        .map(|&id| layered(both, &asked, &layers, id))
        .collect()
}

/// What one column holds of an id.
fn alone<'a>(loaded: &'a Loaded, asked: &Asked<'a>, id: u32) -> Result<Finding<'a>, Failure> {
    let stored = held(loaded, asked, id)?;
    Ok(Finding {
        id,
        spoken: stored.map(|stored| (None, stored)),
        overruled: None,
    })
}

fn held<'a>(loaded: &'a Loaded, asked: &Asked<'a>, id: u32) -> Result<Option<Stored<'a>>, Failure> {
    match asked.look_up(id) {
        Ok(Answer::Found { ordinal, value, .. }) => {
            let column = asked.column();
            let stored = Stored::new(column, Stored::section_of(column), ordinal, value);
            stored
                .map(Some)
                .ok_or_else(|| no_such_value(&loaded.name, value))
        }
        Ok(Answer::Absent { .. }) => Ok(None),
        Err(refusal) => Err(Failure::refused(
            format!("{}: id {id}", loaded.name),
            refusal,
        )),
    }
}

/// What two columns hold of an id. The bytes are those that the library hands back.
fn layered<'a>(
    both: [&'a Loaded; 2],
    machine: &Asked<'a>,
    layers: &Corrected<'a>,
    id: u32,
) -> Result<Finding<'a>, Failure> {
    let name = |layer| match layer {
        Layer::Machine => &both[0].name,
        Layer::Correction => &both[1].name,
    };
    let (spoken, overruled) = match layers.look_up(id) {
        Ok(LayeredAnswer::Found {
            layer,
            ordinal,
            value,
            ..
        }) => {
            let stored = Stored::new(layers.column(layer), layers.values_of(id), ordinal, value);
            let stored = stored.ok_or_else(|| no_such_value(name(layer), value))?;
            let overruled = match layer {
                Layer::Correction => held(both[0], machine, id)?,
                Layer::Machine => None,
            };
            (Some((Some(layer), stored)), overruled)
        }
        Ok(LayeredAnswer::Absent { .. }) => (None, None),
        Err(it) => {
            let what = format!("{}: id {id}", name(it.layer));
            return Err(Failure::refused(what, it.refusal));
        }
    };
    Ok(Finding {
        id,
        spoken,
        overruled,
    })
}

fn no_such_value(name: &str, value: i64) -> Failure {
    Failure::Trouble(format!("{name}: the bytes do not give the value {value}"))
}

impl Subject<'_> {
    /// What messages call it.
    pub fn title(&self) -> String {
        match self.layer {
            Some(layer) => format!("{layer} column"),
            None => "column".to_string(),
        }
    }

    /// Who confirmed the digest.
    pub fn confirmed(&self) -> String {
        match self.witnesses.is_empty() {
            true => NOT_COMPARED.to_string(),
            false => format!("as {} tells", self.witnesses.join(" and ")),
        }
    }

    fn object(&self) -> Object {
        let object = Object::new();
        let object = match self.layer {
            Some(layer) => object.text("layer", &layer.to_string()),
            None => object,
        };
        let object = object
            .file("file", self.loaded.path())
            .number("pairs", self.count);
        let object = object.number("bytes", self.loaded.bytes.len() as u64);
        let object = object.text("sha256", &hex(&self.loaded.digest()));
        object.texts("compared", &self.witnesses)
    }
}

/// The versions of the tool and of the library.
pub fn versions() -> String {
    let (tool, library) = (env!("CARGO_PKG_VERSION"), signalfern::VERSION);
    format!("signalfern {tool}, library {library}")
}

fn text(subjects: &[Subject], findings: &[Finding]) -> String {
    let mut out = versions() + "\n";
    for subject in subjects {
        let (title, name) = (subject.title(), &subject.loaded.name);
        let (count, bytes) = (counted(subject.count, "pair"), subject.loaded.bytes.len());
        let (digest, confirmed) = (hex(&subject.loaded.digest()), subject.confirmed());
        out +=
            &format!("{title} {name}: {count} in {bytes} bytes\n  SHA-256 {digest}, {confirmed}\n");
    }
    for finding in findings {
        out += &finding.text(subjects);
    }
    out
}

fn json(subjects: &[Subject], findings: &[Finding]) -> String {
    let object = Object::new().text("tool", env!("CARGO_PKG_VERSION"));
    let object = object.text("library", signalfern::VERSION);
    let mut out = object
        .objects("files", subjects.iter().map(Subject::object))
        .line();
    for finding in findings {
        out += &finding.json().line();
    }
    out
}

impl Finding<'_> {
    fn text(&self, subjects: &[Subject]) -> String {
        let Some((layer, stored)) = &self.spoken else {
            let nowhere = match subjects {
                [_] => "not in the column",
                _ => "in neither column",
            };
            return format!("id {}: {nowhere}\n", self.id);
        };
        let by = |layer: Option<Layer>| {
            let subject = subjects.iter().find(|subject| subject.layer == layer);
            subject.map_or(String::new(), |it| {
                format!("the {} {}", it.title(), it.loaded.name)
            })
        };
        let Stored { value, ordinal, .. } = stored;
        let mut out = format!(
            "id {}: value {value}, ordinal {ordinal}, by {}\n",
            self.id,
            by(*layer)
        );
        out += &stored.lines("  ");
        if let Some(other) = &self.overruled {
            let Stored { value, ordinal, .. } = other;
            let machine = by(Some(Layer::Machine));
            out += &format!("  it overrules value {value}, ordinal {ordinal}, of {machine}\n");
            out += &other.lines("    ");
        }
        out
    }

    fn json(&self) -> Object {
        let object = Object::new().number("id", self.id);
        let Some((layer, stored)) = &self.spoken else {
            return object.text("answer", "absent");
        };
        let object = object.text("answer", "found");
        let object = match layer {
            Some(layer) => object.text("by", &layer.to_string()),
            None => object,
        };
        let object = stored.json(object);
        match &self.overruled {
            Some(other) => object.object("overruled", other.json(Object::new())),
            None => object,
        }
    }
}
