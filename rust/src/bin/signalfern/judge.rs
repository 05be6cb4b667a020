//! judge: a bare id section of another maker.

use signalfern::{power_allowed, ByteOrder, Fault, Reason, Section};

use crate::arguments::Arguments;
use crate::blocks::{rank_bytes, BITMAP, END, HEAD, LAST_NUMBER};
use crate::failure::{complain, Failure, REFUSED};
use crate::json::Object;
use crate::load::Loaded;
use crate::output::print;
use crate::text::{byte_at, counted, hex};

/// The greatest count of jump entries: one for each block, one more than the greatest number and the end.
const MOST_JUMPS: u64 = LAST_NUMBER + 2;
/// Bytes that are read before the first verdict.
const FIRST: u64 = 1 << 20;

pub fn run(mut arguments: Arguments) -> Result<(), Failure> {
    let rule = format!("count of jump entries: 0 to {MOST_JUMPS}");
    let jump_count = needed(&arguments, "jumps", &rule, |it| it <= MOST_JUMPS)?;
    let is_power = |it: u64| u32::try_from(it).is_ok_and(power_allowed);
    let power = needed(&arguments, "power", "rank power: 0, or 7 to 15", is_power)?;
    let order = match arguments.has("lucene8") {
        true => ByteOrder::HighFirst,
        false => ByteOrder::LowFirst,
    };
    let given = arguments.digest("digest")?;
    let path = arguments.file("section")?;
    arguments.finish()?;

    let mut loaded = Loaded::start(&path)?;
    let judged = judge(&mut loaded, jump_count, power, order)?;
    if judged.is_err() && loaded.len.is_none_or(|len| len <= longest(power)) {
        // Whether it is right in the other order is a hint: where it cannot be read, there is none.
        let _ = loaded.read_to(longest(power) + 1);
    }
    let told = Verdict {
        loaded: &loaded,
        section: section(&loaded, jump_count, power, order),
        json: arguments.has("json"),
    };
    match judged {
        Ok(ids) => {
            loaded.confirmed(given, "section")?;
            told.accepted(ids)
        }
        Err(fault) => told.faulty(fault),
    }
}

/// A number that must be given, and allowed.
fn needed(
    arguments: &Arguments,
    long: &str,
    rule: &str,
    is_allowed: impl Fn(u64) -> bool,
) -> Result<u64, Failure> {
    match arguments.number(long, rule)? {
        Some(number) if is_allowed(number) => Ok(number),
        Some(number) => Err(arguments.usage(format!("`{number}` is no {rule}"))),
        None => Err(arguments.usage(format!(
            "`--{long}` is not given: a section does not tell it itself"
        ))),
    }
}

fn section(loaded: &Loaded, jump_count: u64, power: u64, order: ByteOrder) -> Section<'_> {
    Section {
        bytes: &loaded.bytes,
        jump_count,
        power,
        order,
    }
}

/// The most bytes of a block at this power.
fn longest_block(power: u64) -> u64 {
    HEAD + rank_bytes(power) + BITMAP
}

/// The most bytes after the blocks: the end block and all jump entries.
const BEHIND: u64 = END.len() as u64 + 8 * MOST_JUMPS;

/// The most bytes of a section at this power.
fn longest(power: u64) -> u64 {
    (LAST_NUMBER + 1) * longest_block(power) + BEHIND
}

/// Reads on until the library's verdict on what was read is that on the whole: none of its tests looks further than
/// one block and all jump entries behind the place that it names.
fn judge(
    loaded: &mut Loaded,
    jump_count: u64,
    power: u64,
    order: ByteOrder,
) -> Result<Result<u64, Fault>, Failure> {
    let longest = longest(power);
    let mut most = FIRST;
    loop {
        let enough = most > longest;
        loaded.read_to(most.min(longest + 1))?;
        let there = loaded.bytes.len() as u64;
        let verdict = section(loaded, jump_count, power, order).judge();
        let settled = match verdict {
            Err(Fault::At { place, .. }) => place as u64 + longest_block(power) + BEHIND <= there,
            _ => false,
        };
        if enough || settled || loaded.len == Some(there) {
            return Ok(verdict);
        }
        most = most.saturating_mul(16);
    }
}

/// A verdict to be told.
struct Verdict<'a> {
    loaded: &'a Loaded,
    section: Section<'a>,
    json: bool,
}

impl Verdict<'_> {
    fn accepted(&self, ids: u64) -> Result<(), Failure> {
        let bytes = self.loaded.bytes.len() as u64;
        if self.json {
            let object = Object::new().file("file", self.loaded.path());
            let object = object.text("status", "accepted").number("ids", ids);
            let digest = hex(&self.loaded.digest());
            return print(&object.number("bytes", bytes).text("sha256", &digest).line());
        }
        let (name, ids, bytes) = (
            &self.loaded.name,
            counted(ids, "id"),
            counted(bytes, "byte"),
        );
        print(&format!("{name}: accepted, {ids} in {bytes}\n"))
    }

    fn faulty(&self, fault: Fault) -> Result<(), Failure> {
        // A count or a power that is not allowed is a wrong command line, and told before.
        let Fault::At { reason, place } = fault else {
            return Err(Failure::Trouble(format!("{}: {fault}", self.loaded.name)));
        };
        let (number, code) = (reason.number(), reason.name());
        let block = block_of(&self.section, reason, place);
        let hint = self.other_order();
        if self.json {
            let object = Object::new().file("file", self.loaded.path());
            let object = (object.text("status", "faulty").number("reason", number))
                .text("name", code)
                .number("place", place as u64);
            let object = match block {
                Some(block) => object.number("block", block),
                None => object,
            };
            let object = object.text("meaning", &reason.to_string());
            let object = match hint {
                Some(hint) => object.text("advice", hint),
                None => object,
            };
            print(&object.line())?;
            return Err(Failure::Said(REFUSED));
        }
        let (name, at) = (&self.loaded.name, byte_at(place));
        let block = block.map_or(String::new(), |block| format!(", block {block}"));
        let hint = hint.map_or(String::new(), |hint| format!("\nWhat to do: {hint}."));
        complain(format!(
            "{name}: faulty, reason {number}, {code}, at {at}{block}: {reason}{hint}"
        ));
        Err(Failure::Said(REFUSED))
    }

    /// What to do where the section is right in the other order of bytes.
    fn other_order(&self) -> Option<&'static str> {
        let (order, hint) = match self.section.order {
            ByteOrder::LowFirst => (
                ByteOrder::HighFirst,
                "judge it with --lucene8: high byte first, as Lucene 8 writes, it is accepted",
            ),
            ByteOrder::HighFirst => (
                ByteOrder::LowFirst,
                "judge it without --lucene8: low byte first, as Lucene 9 writes, it is accepted",
            ),
        };
        let other = Section {
            order,
            ..self.section
        };
        let is_whole = self.loaded.len == Some(self.loaded.bytes.len() as u64);
        (is_whole && other.judge().is_ok()).then_some(hint)
    }
}

/// The number of the block that a fault is in, as far as it can be read; none for a fault after the blocks.
pub fn block_of(section: &Section<'_>, reason: Reason, place: usize) -> Option<u16> {
    let after_blocks = matches!(reason, Reason::Jumps | Reason::LeftOver);
    let head = section.bytes.get(place..).and_then(<[u8]>::first_chunk);
    let number = head.filter(|_| !after_blocks).copied()?;
    Some(match section.order {
        ByteOrder::LowFirst => u16::from_le_bytes(number),
        ByteOrder::HighFirst => u16::from_be_bytes(number),
    })
}
