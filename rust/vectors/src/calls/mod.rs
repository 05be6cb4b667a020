//! The vectors, call by call: a file each. A new call has a line in [`CALLS`], an arm in `answer` and a method of
//! [`Maker`](crate::Maker).

mod asking;
mod in_layers;
mod judging;
mod layered;
mod opened;
mod planning;
mod reading;
mod searching;
mod sets;
mod stepping;
mod walking;
mod writing;

use std::collections::HashSet;

use crate::given::{number, object, text};
use crate::reply::with;
use crate::{answer, Json, Reference};

/// The vectors of one call under way.
pub struct Vectors {
    call: &'static str,
    lines: Vec<String>,
    given: HashSet<String>,
}

impl Vectors {
    /// One more, answered by the reference; arguments that were given before are passed over.
    pub fn add<const N: usize>(&mut self, about: &str, given: [(&str, Json); N]) {
        self.put(about, object(given));
    }

    /// The same with the arguments in two parts.
    pub fn add_all<const N: usize, const M: usize>(
        &mut self,
        about: &str,
        given: [(&str, Json); N],
        more: [(&str, Json); M],
    ) {
        self.put(about, with(object(given), more));
    }

    fn put(&mut self, about: &str, given: Json) {
        if !self.given.insert(given.to_string()) {
            return;
        }
        let reply = answer(&Reference, self.call, &given);
        let vector = object([
            (
                "name",
                text(&format!("{}-{}", self.call, self.lines.len() + 1)),
            ),
            ("about", text(about)),
            ("call", text(self.call)),
            ("given", given),
            ("reply", reply),
        ]);
        self.lines.push(vector.to_string());
    }
}

/// An id as an argument.
pub fn id(id: u32) -> Json {
    number(id)
}

/// Makes the vectors of a call.
type Make = fn(&mut Vectors);

const CALLS: [(&str, Make); 30] = [
    ("write", writing::write),
    ("write_planned", planning::write_planned),
    ("plan", planning::plan),
    ("check", reading::check),
    ("read", reading::read),
    ("look_up", asking::look_up),
    ("look_up_page", asking::look_up_page),
    ("next", searching::next),
    ("first_between", searching::first_between),
    ("look_up_layered", layered::look_up_layered),
    ("layered_values", layered::layered_values),
    ("set_write", sets::set_write),
    ("set_check", sets::set_check),
    ("set_find", sets::set_find),
    ("judge", judging::judge),
    ("open", opened::open),
    ("look_up_in", opened::look_up_in),
    ("next_in", opened::next_in),
    ("first_between_in", opened::first_between_in),
    ("look_up_layered_in", opened::look_up_layered_in),
    ("read_from", walking::read_from),
    ("pair_at", walking::pair_at),
    ("first_between_from", walking::first_between_from),
    ("read_from_in", walking::read_from_in),
    ("pair_at_in", walking::pair_at_in),
    ("first_between_from_in", walking::first_between_from_in),
    ("look_up_layered_page", in_layers::look_up_layered_page),
    ("read_layered_from", in_layers::read_layered_from),
    (
        "look_up_layered_page_in",
        in_layers::look_up_layered_page_in,
    ),
    ("read_layered_from_in", in_layers::read_layered_from_in),
];

/// Every file of vectors, its name and its text.
#[must_use]
pub fn files() -> Vec<(String, String)> {
    let make = |(call, make): (&'static str, Make)| {
        let mut vectors = Vectors {
            call,
            lines: Vec::new(),
            given: HashSet::new(),
        };
        make(&mut vectors);
        (format!("{call}.jsonl"), vectors.lines.join("\n") + "\n")
    };
    CALLS.into_iter().map(make).collect()
}
