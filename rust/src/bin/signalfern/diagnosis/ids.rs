//! The id section of a damaged column, walked over until something is wrong.

use super::entries::{self, Told};
use super::{dense, Finding};
use crate::blocks::{data_bytes, Block, Kind, Section, END, END_NUMBER, HEAD, LAST_NUMBER};
use crate::header::{Header, NAMES};
use crate::text::counted;

/// What the walk met, where nothing was wrong with the blocks.
pub struct Walked {
    ids: u64,
    last: Option<u64>,
    /// Where the end block stands.
    end: u64,
}

/// Walks over the blocks to the end block.
pub fn blocks(header: &Header, section: &Section) -> Result<Walked, Finding> {
    let (mut at, mut ids, mut last) = (0, 0, None);
    let mut trusted = header.jump_count > 0;
    loop {
        if section.blocks.len() as u64 - at <= END.len() as u64 {
            end_block(section, at)?;
            return Ok(Walked { ids, last, end: at });
        }
        let Some(block) = section.head(at, ids) else {
            return Err(place(section, at, "end block", "it is missing".to_string()));
        };
        let told = told_otherwise(section, &block, &mut trusted);
        let wrong = told
            .or_else(|| wrong_number(section, &block, last))
            .or_else(|| wrong_count(header, section, &block));
        if let Some(why) = wrong {
            return Err(place(section, at, &titled("head of block", &block), why));
        }
        contents(section, &block)?;
        at = block.end(section.power);
        ids += block.count;
        last = Some(block.number);
    }
}

/// A finding at a place of the section.
pub fn place(section: &Section, at: u64, part: &str, why: String) -> Finding {
    Finding {
        at: section.start + at,
        part: part.to_string(),
        why,
    }
}

/// What a block is called, as "block 3 (dense)".
pub fn titled(what: &str, block: &Block) -> String {
    format!("{what} {} ({})", block.number, block.kind.name())
}

/// Only the end block is left, or not even that.
fn end_block(section: &Section, at: u64) -> Result<(), Finding> {
    let rest = &section.blocks[at as usize..];
    let same = rest
        .iter()
        .zip(END)
        .take_while(|(is, should)| **is == *should);
    match same.count() {
        same if same == END.len() => Ok(()),
        same => {
            let at = at + same as u64;
            let bytes: Vec<String> = rest.iter().map(|byte| format!("{byte:02X}")).collect();
            let why = format!("{} where FF 7F 00 00 FF FF must stand", bytes.join(" "));
            Err(place(section, at, "end block", why))
        }
    }
}

/// What the jump entries have against a block's head. Where they fit nothing, they are not asked
/// again.
fn told_otherwise(section: &Section, block: &Block, trusted: &mut bool) -> Option<String> {
    if !*trusted {
        return None;
    }
    let (number, count) = (block.number, block.count);
    match entries::ask(section, block) {
        Told::Same => None,
        Told::Number(told) => Some(format!("number {number}, and the jump entries tell {told}")),
        Told::Count(told) => Some(format!("{count} ids, and the jump entries tell {told}")),
        Told::Nothing => {
            *trusted = false;
            None
        }
    }
}

/// What is wrong with a block's number by the blocks before it.
fn wrong_number(section: &Section, block: &Block, last: Option<u64>) -> Option<String> {
    let number = block.number;
    if number == END_NUMBER {
        let left = section.blocks.len() as u64 - block.at - END.len() as u64;
        let left = counted(left, "byte");
        return Some(format!("an end block, and {left} follow it"));
    }
    if number > LAST_NUMBER {
        return Some(format!(
            "number {number}, and {LAST_NUMBER} is the greatest"
        ));
    }
    let last = last.filter(|last| number <= *last)?;
    Some(format!("number {number} after block {last}"))
}

/// What is wrong with a block's count by the room and by the header.
fn wrong_count(header: &Header, section: &Section, block: &Block) -> Option<String> {
    let count = block.count;
    let needed = HEAD + data_bytes(count, section.power) + END.len() as u64;
    let left = section.blocks.len() as u64 - block.at;
    // Without jump entries there is one block.
    let alone = header.jump_count == 0 && block.number == 0;
    if needed > left || alone && needed < left {
        return Some(format!(
            "{count} ids take {needed} bytes with the end block, and {left} are left"
        ));
    }
    let ids = block.before + count;
    (ids > header.count || alone && ids < header.count).then(|| {
        let n = header.count;
        format!("{ids} ids up to here, and the header tells of {n} in all")
    })
}

fn contents(section: &Section, block: &Block) -> Result<(), Finding> {
    let data = section.data(block).unwrap_or_default();
    match block.kind {
        Kind::Sparse => sparse(section, block, data),
        Kind::Dense => dense::find(section, block, data),
        Kind::All => Ok(()),
    }
}

fn sparse(section: &Section, block: &Block, data: &[u8]) -> Result<(), Finding> {
    let short = |at: usize| u16::from_le_bytes([data[2 * at], data[2 * at + 1]]);
    let pairs = (1..data.len() / 2).map(|index| (index, short(index - 1), short(index)));
    for (index, before, after) in pairs {
        if before >= after {
            let at = block.at + HEAD + 2 * (index as u64 - 1);
            let (first, second) = (index, index + 1);
            let why = format!(
                "{before} and {after}, the places {first} and {second} of {}, do not ascend",
                block.count
            );
            return Err(place(section, at, &titled("places of block", block), why));
        }
    }
    Ok(())
}

/// The counts that the header tells, and the jump entries, beside the blocks.
pub fn header_and_entries(header: &Header, section: &Section, walked: &Walked) -> Option<Finding> {
    let in_header = |index: usize, why: String| {
        let at = header.starts[index] as u64;
        let part = format!("{} in the header", NAMES[index]);
        Some(Finding { at, part, why })
    };
    if walked.ids != header.count {
        let (ids, told) = (walked.ids, header.count);
        return in_header(1, format!("{told}, and the blocks hold {ids} ids"));
    }
    let jumps = match walked.last {
        None => 1,
        Some(0) => 0,
        Some(last) => last + 2,
    };
    if header.jump_count != jumps {
        let told = header.jump_count;
        return in_header(4, format!("{told}, and these blocks have {jumps}"));
    }
    let mut blocks = section.walk().peekable();
    let end = (walked.ids, walked.end);
    for index in 0..jumps {
        while blocks.next_if(|block| block.number < index).is_some() {}
        let expected = blocks.peek().map_or(end, |block| (block.before, block.at));
        let (ids, start) = section.jump(index)?;
        if (ids, start) != expected {
            let at = section.blocks.len() as u64 + 8 * index + 4 * u64::from(ids == expected.0);
            let why = format!(
                "{ids} ids before, start {start}; the blocks give {} and {}",
                expected.0, expected.1
            );
            return Some(place(section, at, &format!("jump entry {index}"), why));
        }
    }
    None
}
