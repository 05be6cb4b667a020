//! The library passes every vector of `conformance/`, which it had no part in making.

use std::fs;
use std::path::Path;

use crate::common::by_c::{look_up_layered_page_in, read_layered_from_in, words};
use signalfern::{ByteOrder, Cursor, Edition, Fault, Layer, Reason, Refusal, Section};
use signalfern_vectors::{
    answer, Header, Json, Judged, Layered, Lists, Look, Maker, Part, Places, Refused,
};

/// The Rust package's calls, which are the proved ones.
struct Library;

fn refused(refusal: Refusal) -> Refused {
    (refusal.number(), refusal.number_with())
}

fn count(reply: Result<usize, Refusal>) -> Result<u64, Refused> {
    reply.map(|count| count as u64).map_err(refused)
}

fn look(answer: Result<signalfern::Answer, Refusal>) -> Result<Look, Refused> {
    let answer = answer.map_err(refused)?;
    Ok(Look {
        found: answer.ordinal().zip(answer.value()),
        words: answer.words(),
        probes: answer.probes(),
    })
}

fn candidate(
    next: Result<Option<signalfern::Candidate>, Refusal>,
) -> Result<Option<(u32, u64, i64)>, Refused> {
    let found = next.map_err(refused)?;
    Ok(found.map(|it| (it.id, it.ordinal, it.value)))
}

fn readout(read: Result<signalfern::Readout, Refusal>) -> Result<(u64, bool), Refused> {
    let read = read.map_err(refused)?;
    Ok((read.count as u64, read.ended))
}

fn header(numbers: &Header) -> signalfern::Header {
    let mut header = signalfern::Header::default();
    header.edition = numbers.edition;
    header.count = numbers.count;
    header.power = numbers.power;
    header.id_bytes = numbers.id_bytes;
    header.jump_count = numbers.jump_count;
    header.width = numbers.width;
    header.smallest = numbers.smallest;
    header.divisor = numbers.divisor;
    header.value_bytes = numbers.value_bytes;
    header.start = numbers.start;
    header
}

fn layered(
    look: Result<signalfern::LayeredAnswer, signalfern::LayeredRefusal>,
) -> Result<Layered, (bool, Refused)> {
    let answer = look.map_err(|it| (it.layer == Layer::Correction, refused(it.refusal)))?;
    let found = answer.ordinal().zip(answer.value());
    let correction = answer.layer() == Some(Layer::Correction);
    Ok(Layered {
        found: found.map(|(ordinal, value)| (correction, ordinal, value)),
        machine_words: answer.words(Layer::Machine),
        correction_words: answer.words(Layer::Correction),
    })
}

/// Two proved calls by C's own types, which let through what the package's do not: any number in the edition's
/// place, and a look-up in two columns by numbers that are not those of their bytes.
#[allow(unsafe_code)]
mod by_c {
    use super::{Header, Layered, Refused};

    #[derive(Default)]
    #[repr(C)]
    struct Reply {
        refusal: u64,
        number: u64,
    }

    #[repr(C)]
    struct Column([u64; 12]);

    #[derive(Default)]
    #[repr(C)]
    struct Look {
        kind: u64,
        number: u64,
        column: u64,
        ordinal: u64,
        value: i64,
        machine_words: u64,
        correction_words: u64,
    }

    extern "C" {
        fn signalfern_write_to(
            ids: *const u32,
            ids_len: usize,
            values: *const i64,
            values_len: usize,
            edition: u32,
            power: u32,
            out: *mut u8,
            out_len: usize,
            reply: *mut Reply,
        );
        fn signalfern_look_up_layered_in_to(
            machine_column: *const Column,
            machine: *const u8,
            machine_len: usize,
            correction_column: *const Column,
            correction: *const u8,
            correction_len: usize,
            id: u32,
            answer: *mut Look,
        );
    }

    pub fn write(
        ids: &[u32],
        values: &[i64],
        edition: u32,
        power: u32,
        out: &mut [u8],
    ) -> Result<u64, Refused> {
        let mut reply = Reply::default();
        let (i, v) = (ids.as_ptr(), values.as_ptr());
        let (n, m) = (ids.len(), values.len());
        let (o, len) = (out.as_mut_ptr(), out.len());
        // SAFETY: three slices with their own lengths; `out` and `reply` are borrowed for this call alone.
        unsafe { signalfern_write_to(i, n, v, m, edition, power, o, len, &mut reply) };
        match reply.refusal {
            0 => Ok(reply.number),
            refusal => Err((refusal, reply.number)),
        }
    }

    /// The header's struct: `refusal` and `number`, which do not matter, and then its numbers.
    fn column(header: &Header) -> Column {
        let smallest = header.smallest;
        Column([
            7,
            7,
            header.edition,
            header.count,
            header.power,
            header.id_bytes,
            header.jump_count,
            header.width,
            (smallest << 1 ^ smallest >> 63) as u64,
            header.divisor,
            header.value_bytes,
            header.start,
        ])
    }

    pub fn look_up_layered_in(
        (x, machine): (&Header, &[u8]),
        (y, correction): (&Header, &[u8]),
        id: u32,
    ) -> Result<Layered, (bool, Refused)> {
        let mut look = Look::default();
        let (x, y) = (column(x), column(y));
        let (m, m_len) = (machine.as_ptr(), machine.len());
        let (c, c_len) = (correction.as_ptr(), correction.len());
        // SAFETY: two slices with their own lengths, only read; the call takes any columns, and writes to `look` alone.
        unsafe { signalfern_look_up_layered_in_to(&x, m, m_len, &y, c, c_len, id, &mut look) };
        let is_correction = look.column == 1;
        let found = match look.kind {
            0 => Some((is_correction, look.ordinal, look.value)),
            1 => None,
            refusal => return Err((is_correction, (refusal, look.number))),
        };
        Ok(Layered {
            found,
            machine_words: look.machine_words,
            correction_words: look.correction_words,
        })
    }
}

impl Maker for Library {
    fn write(
        &self,
        ids: &[u32],
        values: &[i64],
        edition: u32,
        power: u32,
        out: &mut [u8],
    ) -> Result<u64, Refused> {
        match Edition::from_number(edition.into()) {
            Some(edition) => count(signalfern::write(ids, values, edition, power, out)),
            None => by_c::write(ids, values, edition, power, out),
        }
    }

    fn write_planned(
        &self,
        ids: &[u32],
        values: &[i64],
        table: &[i64],
        power: u32,
        out: &mut [u8],
    ) -> Result<u64, Refused> {
        count(signalfern::write_planned(ids, values, table, power, out))
    }

    fn plan(&self, values: &[i64], table: &mut [i64]) -> Result<u64, Refused> {
        count(signalfern::plan(values, table))
    }

    fn check(&self, bytes: &[u8]) -> Result<u64, Refused> {
        signalfern::check(bytes).map_err(refused)
    }

    fn read(&self, bytes: &[u8], ids: &mut [u32], values: &mut [i64]) -> Result<u64, Refused> {
        count(signalfern::read(bytes, ids, values))
    }

    fn look_up(&self, bytes: &[u8], id: u32) -> Result<Look, Refused> {
        look(signalfern::look_up(bytes, id))
    }

    fn look_up_page(
        &self,
        bytes: &[u8],
        ids: &[u32],
        ordinals: &mut [u64],
        values: &mut [i64],
        kinds: &mut [u8],
    ) -> Result<u64, Refused> {
        let page = signalfern::look_up_page(bytes, ids, ordinals, values, kinds);
        page.map(|page| page.words()).map_err(refused)
    }

    fn next(
        &self,
        cursor: &mut u32,
        bytes: &[u8],
        target: u32,
    ) -> Result<Option<(u32, u64, i64)>, Refused> {
        let mut from = Cursor::at(*cursor);
        let next = signalfern::next(&mut from, bytes, target);
        *cursor = from.last();
        candidate(next)
    }

    fn read_from(
        &self,
        bytes: &[u8],
        id: u32,
        ids: &mut [u32],
        values: &mut [i64],
    ) -> Result<(u64, bool), Refused> {
        readout(signalfern::read_from(bytes, id, ids, values))
    }

    fn pair_at(&self, bytes: &[u8], ordinal: u64) -> Result<Option<(u32, u64, i64)>, Refused> {
        candidate(signalfern::pair_at(bytes, ordinal))
    }

    fn first_between(&self, bytes: &[u8], low: i64, high: i64) -> Result<Option<u64>, Refused> {
        signalfern::first_between(bytes, low, high).map_err(refused)
    }

    fn first_between_from(
        &self,
        bytes: &[u8],
        from: u64,
        low: i64,
        high: i64,
    ) -> Result<Option<u64>, Refused> {
        signalfern::first_between_from(bytes, from, low, high).map_err(refused)
    }

    fn look_up_layered(
        &self,
        machine: &[u8],
        correction: &[u8],
        id: u32,
    ) -> Result<Layered, (bool, Refused)> {
        layered(signalfern::look_up_layered(machine, correction, id))
    }

    /// The part is told by where it lies in memory.
    fn layered_values(&self, machine: &[u8], correction: &[u8], id: u32) -> Part {
        // With a byte more of its own after each, an empty part at the end of one is no part of the other.
        let lent = [machine, correction].map(|bytes| [bytes, &[0]].concat());
        let [machine, correction] = lent.each_ref().map(|it| &it[..it.len() - 1]);
        let part = signalfern::layered_values(machine, correction, id);
        let at = |bytes: &[u8]| {
            let place = (part.as_ptr() as usize).wrapping_sub(bytes.as_ptr() as usize);
            (place <= bytes.len()).then_some(place as u64)
        };
        let (in_machine, in_correction) = (at(machine), at(correction));
        Part {
            correction: in_correction.is_some(),
            start: in_machine
                .or(in_correction)
                .expect("a part of what was lent"),
            length: part.len() as u64,
        }
    }

    fn look_up_layered_page(
        &self,
        machine: &[u8],
        correction: &[u8],
        ids: &[u32],
        lists: Lists,
    ) -> Result<(u64, u64), Refused> {
        let (ordinals, values) = (lists.ordinals, lists.values);
        let (kinds, columns) = (lists.kinds, lists.columns);
        signalfern::look_up_layered_page(machine, correction, ids, ordinals, values, kinds, columns)
            .map(|page| (page.words(Layer::Machine), page.words(Layer::Correction)))
            .map_err(refused)
    }

    fn read_layered_from(
        &self,
        machine: &[u8],
        correction: &[u8],
        id: u32,
        places: Places,
    ) -> Result<(u64, bool), (bool, Refused)> {
        let (ids, values, columns) = (places.ids, places.values, places.columns);
        signalfern::read_layered_from(machine, correction, id, ids, values, columns)
            .map(|it| (it.count as u64, it.ended))
            .map_err(|it| (it.layer == Layer::Correction, refused(it.refusal)))
    }

    fn set_write(&self, ids: &[u32], out: &mut [u8]) -> Result<u64, Refused> {
        count(signalfern::set_write(ids, out))
    }

    fn set_check(&self, bytes: &[u8]) -> Result<u64, Refused> {
        signalfern::set_check(bytes).map_err(refused)
    }

    fn set_find(&self, bytes: &[u8], id: u32) -> Result<Option<u64>, Refused> {
        signalfern::set_find(bytes, id).map_err(refused)
    }

    fn judge(&self, bytes: &[u8], jump_count: u64, power: u64, high_first: bool) -> Judged {
        let order = match high_first {
            true => ByteOrder::HighFirst,
            false => ByteOrder::LowFirst,
        };
        let section = Section {
            bytes,
            jump_count,
            power,
            order,
        };
        match section.judge() {
            Ok(ids) => Judged::Accepted(ids),
            Err(Fault::At { reason, place }) => Judged::Faulty(reason.number(), place as u64),
            Err(Fault::Header) => Judged::Header,
        }
    }

    fn open(&self, bytes: &[u8]) -> Result<Header, Refused> {
        let column = signalfern::Column::open(bytes).map_err(refused)?;
        Ok(Header {
            edition: column.edition().number().into(),
            count: column.count(),
            power: column.power(),
            id_bytes: column.id_bytes(),
            jump_count: column.jump_count(),
            width: column.width(),
            smallest: column.smallest(),
            divisor: column.divisor(),
            value_bytes: column.value_bytes(),
            start: column.start(),
        })
    }

    fn look_up_in(&self, numbers: &Header, bytes: &[u8], id: u32) -> Result<Look, Refused> {
        look(header(numbers).look_up_in(bytes, id))
    }

    fn next_in(
        &self,
        numbers: &Header,
        cursor: &mut u32,
        bytes: &[u8],
        target: u32,
    ) -> Result<Option<(u32, u64, i64)>, Refused> {
        let mut from = Cursor::at(*cursor);
        let next = header(numbers).next_in(&mut from, bytes, target);
        *cursor = from.last();
        candidate(next)
    }

    fn read_from_in(
        &self,
        numbers: &Header,
        bytes: &[u8],
        id: u32,
        ids: &mut [u32],
        values: &mut [i64],
    ) -> Result<(u64, bool), Refused> {
        readout(header(numbers).read_from_in(bytes, id, ids, values))
    }

    fn pair_at_in(
        &self,
        numbers: &Header,
        bytes: &[u8],
        ordinal: u64,
    ) -> Result<Option<(u32, u64, i64)>, Refused> {
        candidate(header(numbers).pair_at_in(bytes, ordinal))
    }

    fn first_between_from_in(
        &self,
        numbers: &Header,
        bytes: &[u8],
        from: u64,
        low: i64,
        high: i64,
    ) -> Result<Option<u64>, Refused> {
        let between = header(numbers).first_between_from_in(bytes, from, low, high);
        between.map_err(refused)
    }

    fn first_between_in(
        &self,
        numbers: &Header,
        bytes: &[u8],
        low: i64,
        high: i64,
    ) -> Result<Option<u64>, Refused> {
        let between = header(numbers).first_between_in(bytes, low, high);
        between.map_err(refused)
    }

    fn look_up_layered_in(
        &self,
        machine: (&Header, &[u8]),
        correction: (&Header, &[u8]),
        id: u32,
    ) -> Result<Layered, (bool, Refused)> {
        by_c::look_up_layered_in(machine, correction, id)
    }

    fn look_up_layered_page_in(
        &self,
        machine: (&Header, &[u8]),
        correction: (&Header, &[u8]),
        ids: &[u32],
        lists: Lists,
    ) -> Result<(u64, u64), Refused> {
        let (x, y) = (words(&header(machine.0)), words(&header(correction.0)));
        let reply = look_up_layered_page_in(
            (&x, machine.1),
            (&y, correction.1),
            ids,
            lists.ordinals,
            lists.values,
            lists.kinds,
            lists.columns,
        );
        match reply {
            [0, number, machine, correction] if number == ids.len() as u64 => {
                Ok((machine, correction))
            }
            [refusal, number, _, _] => Err((refusal, number)),
        }
    }

    fn read_layered_from_in(
        &self,
        machine: (&Header, &[u8]),
        correction: (&Header, &[u8]),
        id: u32,
        places: Places,
    ) -> Result<(u64, bool), (bool, Refused)> {
        let (x, y) = (words(&header(machine.0)), words(&header(correction.0)));
        let (m, c) = ((&x, machine.1), (&y, correction.1));
        match read_layered_from_in(m, c, id, places.ids, places.values, places.columns) {
            [kind @ (0 | 1), _, _, count] => Ok((count, kind == 1)),
            [refusal, number, column, _] => Err((column == 1, (refusal, number))),
        }
    }
}

#[test]
fn every_vector() {
    let folder = Path::new(env!("CARGO_MANIFEST_DIR")).join("../conformance/vectors");
    let mut passed = 0;
    for file in fs::read_dir(folder).unwrap() {
        let text = fs::read_to_string(file.unwrap().path()).unwrap();
        for line in text.lines() {
            let vector = Json::parse(line).unwrap();
            let [call, name] = ["call", "name"].map(|key| vector.get(key).unwrap().text().unwrap());
            let reply = answer(&Library, call, vector.get("given").unwrap());
            let expected = vector.get("reply").unwrap();
            assert!(reply.says(expected), "{name}: {reply}, not {expected}");
            passed += 1;
        }
    }
    assert!(passed > 5000, "{passed}");
}

/// The numbers of `numbers.json` are the library's.
#[test]
fn numbers_by_name() {
    let file = Path::new(env!("CARGO_MANIFEST_DIR")).join("../conformance/numbers.json");
    let numbers = Json::parse(&fs::read_to_string(file).unwrap()).unwrap();
    let named = |group: &str| match numbers.get(group) {
        Some(Json::Object(entries)) => entries.clone(),
        other => panic!("{other:?}"),
    };
    let entry = |name: &str, number: u64| (name.to_string(), Json::Number(number.to_string()));
    let refusals = (1..=17).filter_map(|number| Refusal::from_number(number, 0));
    let refusals: Vec<_> = refusals.map(|it| entry(it.name(), it.number())).collect();
    assert_eq!(named("refusals"), refusals);
    let reasons = Reason::EACH.map(|it| entry(it.name(), it.number()));
    assert_eq!(named("reasons"), reasons);
    let limits = named("limits");
    for limit in [
        entry("id", signalfern::MAX_ID.into()),
        entry("count", signalfern::MAX_COUNT),
        entry("run_length", signalfern::RUN_LENGTH as u64),
        entry("table_most", signalfern::MAX_TABLE as u64),
    ] {
        assert!(limits.contains(&limit), "{limit:?}");
    }
    let powers = (0..=64).filter(|&power| signalfern::power_allowed(power));
    let powers = Json::List(powers.map(|it| Json::Number(it.to_string())).collect());
    assert!(limits.contains(&("powers".to_string(), powers)));
}
