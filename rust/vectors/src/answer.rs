//! Any maker asked for a vector: arguments taken out of JSON, the call made, its reply put into JSON.

use crate::given::{number, object, text};
use crate::recipe::{self, field};
use crate::reply::{
    bytes, candidate, column, counted, layered, list, looked, opened, ordinal, refused, with,
};
use crate::{Header, Json, Judged, Lists, Maker, Places, BEFORE};

/// The reply of a maker to a call with these arguments.
///
/// # Panics
///
/// On a call or an argument that `conformance/README.md` does not know.
pub fn answer(maker: &dyn Maker, call: &str, given: &Json) -> Json {
    let asked = Asked { maker, given };
    match call {
        "write" => asked.write(),
        "write_planned" => asked.write_planned(),
        "plan" => asked.plan(),
        "check" => counted(maker.check(&asked.bytes("bytes"))),
        "read" => asked.read(),
        "look_up" => looked(maker.look_up(&asked.bytes("bytes"), asked.id("id"))),
        "look_up_page" => asked.look_up_page(),
        "next" => asked.next(None),
        "read_from" => asked.read_from(None),
        "pair_at" => asked.pair_at(None),
        "first_between" => asked.first_between(None),
        "first_between_from" => asked.first_between_from(None),
        "look_up_layered" => {
            let (machine, correction) = (asked.bytes("machine"), asked.bytes("correction"));
            layered(maker.look_up_layered(&machine, &correction, asked.id("id")))
        }
        "layered_values" => asked.layered_values(),
        "look_up_layered_page" => asked.look_up_layered_page(None),
        "read_layered_from" => asked.read_layered_from(None),
        "set_write" => asked.set_write(),
        "set_check" => counted(maker.set_check(&asked.bytes("bytes"))),
        "set_find" => ordinal(
            maker.set_find(&asked.bytes("bytes"), asked.id("id")),
            "absent",
        ),
        "judge" => asked.judge(),
        "open" => opened(maker.open(&asked.bytes("bytes"))),
        "look_up_in" => {
            let header = asked.header("column");
            looked(maker.look_up_in(&header, &asked.bytes("bytes"), asked.id("id")))
        }
        "next_in" => asked.next(Some(asked.header("column"))),
        "read_from_in" => asked.read_from(Some(asked.header("column"))),
        "pair_at_in" => asked.pair_at(Some(asked.header("column"))),
        "first_between_in" => asked.first_between(Some(asked.header("column"))),
        "first_between_from_in" => asked.first_between_from(Some(asked.header("column"))),
        "look_up_layered_in" => {
            let (machine, correction) = (asked.bytes("machine"), asked.bytes("correction"));
            let headers = asked.headers();
            layered(maker.look_up_layered_in(
                (&headers[0], &machine),
                (&headers[1], &correction),
                asked.id("id"),
            ))
        }
        "look_up_layered_page_in" => asked.look_up_layered_page(Some(asked.headers())),
        "read_layered_from_in" => asked.read_layered_from(Some(asked.headers())),
        other => panic!("no call `{other}`"),
    }
}

struct Asked<'a> {
    maker: &'a dyn Maker,
    given: &'a Json,
}

impl Asked<'_> {
    fn argument(&self, key: &str) -> &Json {
        let given = self.given;
        given
            .get(key)
            .unwrap_or_else(|| panic!("no `{key}` in {given}"))
    }

    fn bytes(&self, key: &str) -> Vec<u8> {
        recipe::bytes(self.argument(key))
    }

    fn list<T: TryFrom<i128>>(&self, key: &str) -> Vec<T> {
        let fits = |number| T::try_from(number).ok().expect("it fits");
        recipe::numbers(self.argument(key))
            .into_iter()
            .map(fits)
            .collect()
    }

    fn number<T: TryFrom<i128>>(&self, key: &str) -> T {
        let number = recipe::number(self.argument(key));
        T::try_from(number).ok().expect("it fits")
    }

    fn id(&self, key: &str) -> u32 {
        self.number(key)
    }

    /// A lent list of as many places as an argument says.
    fn lent<T: Clone + From<u8>>(&self, key: &str) -> Vec<T> {
        vec![T::from(BEFORE); self.number(key)]
    }

    fn header(&self, key: &str) -> Header {
        let numbers = self.argument(key);
        let get = |name| u64::try_from(field(numbers, name)).expect("a number below 2^64");
        Header {
            edition: get("edition"),
            count: get("count"),
            power: get("power"),
            id_bytes: get("id_bytes"),
            jump_count: get("jump_count"),
            width: get("width"),
            smallest: i64::try_from(field(numbers, "smallest")).expect("a value"),
            divisor: get("divisor"),
            value_bytes: get("value_bytes"),
            start: get("start"),
        }
    }

    fn headers(&self) -> [Header; 2] {
        ["machine_column", "correction_column"].map(|key| self.header(key))
    }

    fn write(&self) -> Json {
        let mut out = self.lent("room");
        let (ids, values) = (self.list("ids"), self.list("values"));
        let (edition, power) = (self.number("edition"), self.number("power"));
        let reply = self.maker.write(&ids, &values, edition, power, &mut out);
        with(counted(reply), [("out", bytes(&out))])
    }

    fn write_planned(&self) -> Json {
        let mut out = self.lent("room");
        let (ids, values) = (self.list("ids"), self.list("values"));
        let (table, power) = (self.list("table"), self.number("power"));
        let reply = self
            .maker
            .write_planned(&ids, &values, &table, power, &mut out);
        with(counted(reply), [("out", bytes(&out))])
    }

    fn plan(&self) -> Json {
        let mut table: Vec<i64> = self.lent("room");
        let reply = self.maker.plan(&self.list("values"), &mut table);
        with(counted(reply), [("table", list(&table))])
    }

    fn read(&self) -> Json {
        let (mut ids, mut values) = (self.lent("ids_room"), self.lent("values_room"));
        let reply = self.maker.read(&self.bytes("bytes"), &mut ids, &mut values);
        with(
            counted(reply),
            [("ids", list(&ids)), ("values", list(&values))],
        )
    }

    fn look_up_page(&self) -> Json {
        let (mut ordinals, mut values, mut kinds) = (
            self.lent("ordinals_room"),
            self.lent("values_room"),
            self.lent("kinds_room"),
        );
        let (given, ids) = (self.bytes("bytes"), self.list::<u32>("ids"));
        let lists = (&mut ordinals[..], &mut values[..], &mut kinds[..]);
        let reply = match self
            .maker
            .look_up_page(&given, &ids, lists.0, lists.1, lists.2)
        {
            Ok(words) => object([
                ("kind", text("done")),
                ("number", number(ids.len() as i128)),
                ("words", number(words)),
            ]),
            Err(it) => refused(it),
        };
        let lists = [
            ("ordinals", list(&ordinals)),
            ("values", list(&values)),
            ("kinds", list(&kinds)),
        ];
        with(reply, lists)
    }

    fn next(&self, header: Option<Header>) -> Json {
        let mut cursor = self.number("cursor");
        let (given, target) = (self.bytes("bytes"), self.id("target"));
        let reply = match header {
            None => self.maker.next(&mut cursor, &given, target),
            Some(header) => self.maker.next_in(&header, &mut cursor, &given, target),
        };
        with(candidate(reply), [("cursor", number(cursor))])
    }

    fn read_from(&self, header: Option<Header>) -> Json {
        let (mut ids, mut values) = (self.lent("ids_room"), self.lent("values_room"));
        let (given, id) = (self.bytes("bytes"), self.id("id"));
        let lists = (&mut ids[..], &mut values[..]);
        let reply = match header {
            None => self.maker.read_from(&given, id, lists.0, lists.1),
            Some(header) => self
                .maker
                .read_from_in(&header, &given, id, lists.0, lists.1),
        };
        let reply = match reply {
            Ok((count, ended)) => object([
                ("kind", text(if ended { "ended" } else { "more" })),
                ("number", number(count)),
            ]),
            Err(it) => refused(it),
        };
        with(reply, [("ids", list(&ids)), ("values", list(&values))])
    }

    fn pair_at(&self, header: Option<Header>) -> Json {
        let (given, ordinal) = (self.bytes("bytes"), self.number("ordinal"));
        candidate(match header {
            None => self.maker.pair_at(&given, ordinal),
            Some(header) => self.maker.pair_at_in(&header, &given, ordinal),
        })
    }

    fn first_between(&self, header: Option<Header>) -> Json {
        let (given, low, high) = (self.bytes("bytes"), self.number("low"), self.number("high"));
        let reply = match header {
            None => self.maker.first_between(&given, low, high),
            Some(header) => self.maker.first_between_in(&header, &given, low, high),
        };
        ordinal(reply, "none")
    }

    fn first_between_from(&self, header: Option<Header>) -> Json {
        let (given, from) = (self.bytes("bytes"), self.number("from"));
        let (low, high) = (self.number("low"), self.number("high"));
        let reply = match header {
            None => self.maker.first_between_from(&given, from, low, high),
            Some(header) => self
                .maker
                .first_between_from_in(&header, &given, from, low, high),
        };
        ordinal(reply, "none")
    }

    fn layered_values(&self) -> Json {
        let (machine, correction) = (self.bytes("machine"), self.bytes("correction"));
        let part = self
            .maker
            .layered_values(&machine, &correction, self.id("id"));
        object([
            ("kind", text("part")),
            ("column", column(part.correction)),
            ("start", number(part.start)),
            ("length", number(part.length)),
        ])
    }

    fn look_up_layered_page(&self, headers: Option<[Header; 2]>) -> Json {
        let (mut ordinals, mut values) = (self.lent("ordinals_room"), self.lent("values_room"));
        let (mut kinds, mut columns) = (self.lent("kinds_room"), self.lent("columns_room"));
        let (machine, correction) = (self.bytes("machine"), self.bytes("correction"));
        let ids = self.list::<u32>("ids");
        let lists = Lists {
            ordinals: &mut ordinals,
            values: &mut values,
            kinds: &mut kinds,
            columns: &mut columns,
        };
        let (m, c, maker) = (&machine[..], &correction[..], self.maker);
        let reply = match &headers {
            None => maker.look_up_layered_page(m, c, &ids, lists),
            Some([x, y]) => maker.look_up_layered_page_in((x, m), (y, c), &ids, lists),
        };
        let reply = match reply {
            Ok((machine, correction)) => object([
                ("kind", text("done")),
                ("number", number(ids.len() as i128)),
                ("machine_words", number(machine)),
                ("correction_words", number(correction)),
            ]),
            Err(it) => refused(it),
        };
        let lists = [
            ("ordinals", list(&ordinals)),
            ("values", list(&values)),
            ("kinds", list(&kinds)),
            ("columns", list(&columns)),
        ];
        with(reply, lists)
    }

    fn read_layered_from(&self, headers: Option<[Header; 2]>) -> Json {
        let (mut ids, mut values) = (self.lent("ids_room"), self.lent("values_room"));
        let mut columns = self.lent("columns_room");
        let (machine, correction) = (self.bytes("machine"), self.bytes("correction"));
        let places = Places {
            ids: &mut ids,
            values: &mut values,
            columns: &mut columns,
        };
        let (m, c, id) = (&machine[..], &correction[..], self.id("id"));
        let reply = match &headers {
            None => self.maker.read_layered_from(m, c, id, places),
            Some([x, y]) => self.maker.read_layered_from_in((x, m), (y, c), id, places),
        };
        let reply = match reply {
            Ok((count, ended)) => object([
                ("kind", text(if ended { "ended" } else { "more" })),
                ("number", number(count)),
            ]),
            Err((correction, it)) => with(refused(it), [("column", column(correction))]),
        };
        let lists = [
            ("ids", list(&ids)),
            ("values", list(&values)),
            ("columns", list(&columns)),
        ];
        with(reply, lists)
    }

    fn set_write(&self) -> Json {
        let mut out = self.lent("room");
        let reply = self.maker.set_write(&self.list("ids"), &mut out);
        with(counted(reply), [("out", bytes(&out))])
    }

    fn judge(&self) -> Json {
        let (jumps, power) = (self.number("jump_count"), self.number("power"));
        let high_first = self.argument("order").text() == Some("high");
        match self
            .maker
            .judge(&self.bytes("bytes"), jumps, power, high_first)
        {
            Judged::Accepted(ids) => object([("kind", text("accepted")), ("number", number(ids))]),
            Judged::Faulty(reason, place) => object([
                ("kind", text("faulty")),
                ("reason", number(reason)),
                ("place", number(place)),
            ]),
            Judged::Header => refused((10, 0)),
        }
    }
}
