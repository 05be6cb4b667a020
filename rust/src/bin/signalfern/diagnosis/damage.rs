//! DAMAGED: the first place that differs from what the writer would give.

use signalfern::{ByteOrder, Fault};

use super::{ids, values, Diagnosis, Finding, COPY_AGAIN};
use crate::blocks::Section;
use crate::header::Header;
use crate::judge::block_of;
use crate::text::byte_at;

pub fn explain(header: &Header, bytes: &[u8]) -> Diagnosis {
    let first = match find(header, bytes) {
        Some(Finding { at, part, why }) => {
            format!("first wrong place: byte {at}, {part}: {why}")
        }
        None => "the place could not be found".to_string(),
    };
    let lines = judged(header, bytes).into_iter().chain([first]);
    Diagnosis::new(lines.collect(), COPY_AGAIN)
}

/// What the proved judge says of the id section, where that is the faulty part: block, reason and place.
/// The walk below then says more of it, by what jump entries and ranks tell a second time.
fn judged(header: &Header, bytes: &[u8]) -> Option<String> {
    let section = signalfern::Section {
        bytes: bytes
            .get(header.len()..)?
            .get(..usize::try_from(header.id_bytes).ok()?)?,
        jump_count: header.jump_count,
        power: header.power,
        order: ByteOrder::LowFirst,
    };
    let Err(Fault::At { reason, place }) = section.judge() else {
        return None;
    };
    let block = block_of(&section, reason, place);
    let block = block.map_or(String::new(), |block| format!(", block {block}"));
    let code = reason.name();
    let at = byte_at(header.len() + place);
    Some(format!(
        "the id section is faulty, {code}, from {at}{block} on: {reason}"
    ))
}

/// Ids, jump entries and values are tried in the order of the file. The bytes have the length that
/// the header tells, and the header keeps the rules.
pub fn find(header: &Header, bytes: &[u8]) -> Option<Finding> {
    let section = Section::of(header, bytes);
    let found = match ids::blocks(header, &section) {
        Err(finding) => Some(finding),
        Ok(walked) => ids::header_and_entries(header, &section, &walked),
    };
    found.or_else(|| values::find(header, bytes))
}
