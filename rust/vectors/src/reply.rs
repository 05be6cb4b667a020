//! Replies as JSON.

use crate::given::{number, object, text};
use crate::recipe::{hex, list_digest};
use crate::sha256::digest;
use crate::{Header, Json, Layered, Look, Refused};

/// In a reply, byte strings and lists up to these lengths stand as they are.
const PLAIN_BYTES: usize = 64;
const PLAIN_NUMBERS: usize = 32;

pub fn with<const N: usize>(reply: Json, more: [(&str, Json); N]) -> Json {
    match (reply, object(more)) {
        (Json::Object(mut entries), Json::Object(more)) => {
            entries.extend(more);
            Json::Object(entries)
        }
        _ => unreachable!("both are objects"),
    }
}

pub fn refused((refusal, with): Refused) -> Json {
    object([
        ("kind", text("refused")),
        ("refusal", number(refusal)),
        ("number", number(with)),
    ])
}

pub fn counted(reply: Result<u64, Refused>) -> Json {
    match reply {
        Ok(count) => object([("kind", text("done")), ("number", number(count))]),
        Err(it) => refused(it),
    }
}

/// A pair, or none.
pub fn candidate(reply: Result<Option<(u32, u64, i64)>, Refused>) -> Json {
    match reply {
        Ok(Some((id, ordinal, value))) => object([
            ("kind", text("found")),
            ("id", number(id)),
            ("ordinal", number(ordinal)),
            ("value", number(value)),
        ]),
        Ok(None) => object([("kind", text("none"))]),
        Err(it) => refused(it),
    }
}

pub fn ordinal(reply: Result<Option<u64>, Refused>, otherwise: &str) -> Json {
    match reply {
        Ok(Some(ordinal)) => object([("kind", text("found")), ("ordinal", number(ordinal))]),
        Ok(None) => object([("kind", text(otherwise))]),
        Err(it) => refused(it),
    }
}

pub fn looked(reply: Result<Look, Refused>) -> Json {
    let look = match reply {
        Ok(look) => look,
        Err(it) => return refused(it),
    };
    let counts = [
        ("words", number(look.words)),
        ("probes", number(look.probes)),
    ];
    let answer = match look.found {
        Some((ordinal, value)) => object([
            ("kind", text("found")),
            ("ordinal", number(ordinal)),
            ("value", number(value)),
        ]),
        None => object([("kind", text("absent"))]),
    };
    with(answer, counts)
}

pub fn column(correction: bool) -> Json {
    text(if correction { "correction" } else { "machine" })
}

pub fn layered(reply: Result<Layered, (bool, Refused)>) -> Json {
    let look = match reply {
        Ok(look) => look,
        Err((correction, it)) => return with(refused(it), [("column", column(correction))]),
    };
    let counts = [
        ("machine_words", number(look.machine_words)),
        ("correction_words", number(look.correction_words)),
    ];
    let answer = match look.found {
        Some((correction, ordinal, value)) => object([
            ("kind", text("found")),
            ("column", column(correction)),
            ("ordinal", number(ordinal)),
            ("value", number(value)),
        ]),
        None => object([("kind", text("absent"))]),
    };
    with(answer, counts)
}

pub fn opened(reply: Result<Header, Refused>) -> Json {
    match reply {
        Ok(header) => with(object([("kind", text("opened"))]), numbers_of(&header)),
        Err(it) => refused(it),
    }
}

/// An opened column's numbers by name.
pub fn numbers_of(header: &Header) -> [(&'static str, Json); 10] {
    [
        ("edition", number(header.edition)),
        ("count", number(header.count)),
        ("power", number(header.power)),
        ("id_bytes", number(header.id_bytes)),
        ("jump_count", number(header.jump_count)),
        ("width", number(header.width)),
        ("smallest", number(header.smallest)),
        ("divisor", number(header.divisor)),
        ("value_bytes", number(header.value_bytes)),
        ("start", number(header.start)),
    ]
}

/// A byte string of a reply: as it is, or its length and digest.
pub fn bytes(out: &[u8]) -> Json {
    match out.len() <= PLAIN_BYTES {
        true => text(&hex(out)),
        false => object([
            ("length", number(out.len() as i128)),
            ("sha256", text(&hex(&digest(out)))),
        ]),
    }
}

/// A list of a reply: as it is, or its count and digest.
pub fn list<T: Copy + Into<i128>>(numbers: &[T]) -> Json {
    let numbers: Vec<i128> = numbers.iter().map(|&it| it.into()).collect();
    match numbers.len() <= PLAIN_NUMBERS {
        true => Json::List(numbers.into_iter().map(number).collect()),
        false => object([
            ("count", number(numbers.len() as i128)),
            ("sha256", text(&list_digest(&numbers))),
        ]),
    }
}
