//! set write: a set made of lines.

use std::path::PathBuf;

use signalfern::Refusal;

use crate::arguments::Arguments;
use crate::beside::Sidecar;
use crate::causes;
use crate::failure::Failure;
use crate::ids;
use crate::input::Input;
use crate::lines::{Line, Lines};
use crate::memory;
use crate::output::Output;
use crate::pairs::{no_room, PassedOver};
use crate::replaced::Replaces;
use crate::sha256::digest;
use crate::words::{parse_id, Wrong};
use crate::write::not_by_nothing;
use crate::written::Report;

/// The ids of a text, and which of its lines held none.
#[derive(Default)]
struct Ids {
    ids: Vec<u32>,
    passed_over: PassedOver,
    /// No byte came.
    was_empty: bool,
}

pub fn run(mut arguments: Arguments) -> Result<(), Failure> {
    let force = arguments.has("force");
    let Some(path) = arguments.path("output") else {
        return Err(arguments.usage("no output is named: -o SET"));
    };
    let input = arguments.next().map_or(PathBuf::from("-"), PathBuf::from);
    arguments.finish()?;

    let input = Input::open(&input)?;
    let output = Output::open(&path, force, Replaces::Sets, &[&input])?;
    let sidecar = Sidecar::open(&arguments, &path, &output, &[&input])?;
    let (name, from_standard) = (input.name(), input.is_standard());
    let ids = Ids::read(input)?;
    if from_standard && ids.was_empty && !force {
        not_by_nothing(&output, &path, "set")?;
    }
    let set = ids.set(&name)?;
    let digest = digest(&set);
    let to_standard = output.is_standard();
    output.fill_whole(|out| out.write_all(&set))?;
    sidecar.write(&path, &digest)?;
    Report {
        path: &path,
        before: String::new(),
        count: ids.ids.len() as u64,
        noun: "id",
        bytes: set.len() as u64,
        remark: String::new(),
        left_out: 0,
        editions: None,
        digest,
        to_standard,
        json: arguments.has("json"),
    }
    .tell()
}

impl Ids {
    fn read(input: Input) -> Result<Self, Failure> {
        let mut ids = Self::default();
        let name = input.name();
        let mut lines = Lines::of(input, "reading")?;
        for number in 1.. {
            let parsed = match lines.next()? {
                None => break,
                Some(Line::TooLong) => Err((Vec::new(), Wrong::too_long())),
                Some(Line::Bytes(line)) => id_of(line).map_err(|wrong| (line.to_vec(), wrong)),
            };
            match parsed {
                Ok(Some(id)) => memory::push(&mut ids.ids, id).map_err(no_room)?,
                Ok(None) => ids.passed_over.push(number).map_err(no_room)?,
                Err((line, wrong)) => {
                    let (refusal, why) = causes::explain(lines.head(), &line, ids.ids.len(), wrong);
                    let place = format!("{name}: line {number}");
                    return Err(Failure::refused_as(place, refusal, why));
                }
            }
        }
        ids.was_empty = lines.was_empty();
        Ok(ids)
    }

    fn set(&self, name: &str) -> Result<Vec<u8>, Failure> {
        let refused = |refusal| self.passed_over.refused(&self.ids, name, refusal);
        // No set is empty of bytes, so the first call asks for room.
        let needed = match signalfern::set_write(&self.ids, &mut []) {
            Err(Refusal::Room { needed }) => needed,
            Err(refusal) => return Err(refused(refusal)),
            Ok(len) => len,
        };
        let mut set = memory::zeros(needed as u64, "the set")?;
        signalfern::set_write(&self.ids, &mut set).map_err(refused)?;
        Ok(set)
    }
}

/// The id of a line, or none if it is empty or a remark.
fn id_of(line: &[u8]) -> Result<Option<u32>, Wrong> {
    ids::word_of(line)?.map(parse_id).transpose()
}
