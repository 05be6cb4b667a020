//! judge: each reason in both byte orders.

use super::Vectors;
use crate::damage::{flipped, put, sections, turned, Random};
use crate::given::{bits, Numbers};
use crate::given::{bytes, number, text};
use crate::recipe::Noise;
use crate::samples::{self, sample, Sample, POWERS};

/// A section, its entry count and its power; the order is that of its shorts, ints and longs.
#[derive(Clone)]
struct Section {
    about: String,
    bytes: Vec<u8>,
    jumps: u64,
    power: u32,
    high: bool,
}

impl Section {
    fn of(sample: &Sample, high: bool) -> Self {
        let (start, end) = sections(&sample.bytes);
        let section = &sample.bytes[start..end];
        Self {
            about: format!(
                "{}, {} byte first",
                sample.about,
                if high { "high" } else { "low" }
            ),
            bytes: if high {
                turned(section, sample.power)
            } else {
                section.to_vec()
            },
            jumps: crate::damage::numbers_of(&sample.bytes).0[4],
            power: sample.power,
            high,
        }
    }

    fn with(&self, about: &str, bytes: Vec<u8>) -> Self {
        let about = format!("{}: {about}", self.about);
        Self {
            about,
            bytes,
            ..self.clone()
        }
    }

    /// The bytes of a short at a place, in this order.
    fn short(&self, number: u16) -> [u8; 2] {
        if self.high {
            number.to_be_bytes()
        } else {
            number.to_le_bytes()
        }
    }

    fn put(&self, about: &str, at: usize, number: u16) -> Self {
        let bytes = put(&self.bytes, at, &self.short(number));
        self.with(about, bytes)
    }
}

/// A dense block whose bitmap, in this order, is noise; a sparse one before it and a full one after it.
fn dense(power: u32, seed: u32, high: bool) -> Sample {
    let mut bitmap: Vec<u8> = Noise(seed).take(8192).collect();
    if high {
        bitmap.chunks_exact_mut(8).for_each(<[u8]>::reverse);
    }
    let ids = Numbers::of(vec![
        Numbers::plain([3, 9]).given,
        bits(&bitmap, 65_536),
        crate::given::steps(262_144, 1, 65_536),
    ]);
    let values = Numbers::of(vec![crate::given::cycle(&[0], ids.numbers.len())]);
    sample("three blocks", &ids, &values, 1, power)
}

fn sound(high: bool) -> Vec<Section> {
    let mut made = Vec::new();
    for (index, power) in POWERS.into_iter().enumerate() {
        made.push(Section::of(&dense(power, index as u32 + 1, high), high));
    }
    let mut short = samples::small();
    short.retain(|it| it.edition == 1);
    let counted = samples::dense();
    made.extend(
        short
            .iter()
            .chain(counted.iter().skip(10))
            .map(|it| Section::of(it, high)),
    );
    made
}

/// Sections of each reason, and more.
fn faulty(high: bool) -> Vec<Section> {
    let mut made = Vec::new();
    for section in sound(high).iter().take(10).step_by(3) {
        made.extend(faulty_blocks(section));
        made.extend(faulty_ends(section));
    }
    made.extend(numbered_as_the_end(high));
    made
}

/// Where the bitmap of the dense block starts: block 0 with two places has 8 bytes, and the ranks come before it.
fn bitmap_at(section: &Section) -> usize {
    match section.power {
        0 => 12,
        power => 12 + (1 << (17 - power)),
    }
}

fn faulty_blocks(section: &Section) -> Vec<Section> {
    let (bytes, bitmap) = (&section.bytes, bitmap_at(section));
    let one = flipped(bytes, bitmap + 77, 4);
    let mut made = vec![
        section.with("cut off in a head", bytes[..10].to_vec()),
        section.with("cut off in a bitmap", bytes[..bitmap + 8191].to_vec()),
        section.put("block order", 8, 0),
        section.put("block 32766", 8, 32_766),
        section.put("block 32768", 8, 32_768),
        section.put("block 65535", 8, 65_535),
        section.put("a dense block numbered 32767", 8, 32_767),
        section.put("place order", 6, 3),
        section.put("a count of 65535", 10, 65_534),
        section.with("a one more or less", one.clone()),
    ];
    if section.power > 0 {
        made.push(section.with("the first rank", flipped(bytes, 13, 1)));
        made.push(section.with("the last rank", flipped(bytes, bitmap - 2, 0x80)));
        made.push(section.with("ONES before RANK", flipped(&one, 13, 1)));
    }
    made
}

/// The end block, the jump entries and what follows.
fn faulty_ends(section: &Section) -> Vec<Section> {
    let bytes = &section.bytes;
    let end = bitmap_at(section) + 8192 + 4;
    let jumps = end + 6;
    let zeros = put(bytes, jumps + 16, &[0; 8]);
    let mut made = vec![
        section.with("cut off in the end block", bytes[..end + 5].to_vec()),
        section.put("the end block's count", end + 2, 1),
        section.put("the end block's place", end + 4, 65_534),
        section.with("a cut jump entry", bytes[..jumps + 21].to_vec()),
        section.with("no jump entries there", bytes[..jumps].to_vec()),
        section.with("a missing block's entry left zero", zeros),
        section.with("a byte left over", [&bytes[..], &[0]].concat()),
    ];
    for entry in 0..6 {
        let changed = flipped(bytes, jumps + 8 * entry + entry, 1);
        made.push(section.with("a jump entry", changed));
    }
    for jumps in [0, 1, 2, 5, 7, 32_767, 32_768, 1 << 40] {
        let told = section.with("another entry count", bytes.clone());
        made.push(Section { jumps, ..told });
    }
    made
}

/// Blocks numbered 32767 that are not the end block: six bytes, whatever their count says.
fn numbered_as_the_end(high: bool) -> Vec<Section> {
    let short = samples::small();
    let one = Section::of(&short[8], high);
    let empty = Section::of(&short[0], high);
    let mut made = vec![
        one.put("a sparse block numbered 32767", 0, 32_767),
        one.put("numbered 32766", 0, 32_766),
        one.put("numbered 32765, the last", 0, 32_765),
        empty.put("a count of 65536 in the end block", 2, 65_535),
        empty.put("a count of 2 in the end block", 2, 1),
        empty.with("five bytes of the end block", empty.bytes[..5].to_vec()),
        empty.with(
            "four bytes of it, with a count of 65536",
            [empty.short(32_767), empty.short(65_535)].concat(),
        ),
        empty.with("a head of three bytes", empty.bytes[..3].to_vec()),
        empty.with("no bytes", vec![]),
        empty.with(
            "two end blocks",
            [&empty.bytes[..6], &empty.bytes[..]].concat(),
        ),
    ];
    for jumps in [0, 2, 3] {
        made.push(Section {
            jumps,
            ..empty.with("another entry count", empty.bytes.clone())
        });
    }
    made
}

pub fn judge(vectors: &mut Vectors) {
    let mut random = Random(37);
    let mut add = |section: &Section| {
        let given = [
            ("bytes", bytes(&section.bytes)),
            ("jump_count", number(section.jumps)),
            ("power", number(section.power)),
            ("order", text(if section.high { "high" } else { "low" })),
        ];
        vectors.add(&section.about, given);
    };
    for high in [false, true] {
        let (sound, faulty) = (sound(high), faulty(high));
        sound.iter().chain(&faulty).for_each(&mut add);
        let blocks = Section::of(&samples::small()[32], high);
        for at in 0..blocks.bytes.len() {
            for by in [1, random.of(&[2, 4, 0x40, 0x80, 0xFF])] {
                add(&blocks.with(
                    &format!("byte {at} changed"),
                    flipped(&blocks.bytes, at, by),
                ));
            }
            if at % 2 == 0 {
                add(&blocks.with(&format!("cut off at {at}"), blocks.bytes[..at].to_vec()));
            }
        }
        for power in [1, 6, 16, 64] {
            add(&Section {
                power,
                ..blocks.with("no such power", vec![])
            });
        }
        add(&Section {
            high: !high,
            ..blocks.with("in the other order", blocks.bytes.clone())
        });
    }
    let (every, start) = (samples::every_id(), sections(&samples::every_id()).0);
    add(&Section {
        about: "all ids".to_string(),
        bytes: every[start..].to_vec(),
        jumps: 32_767,
        power: 9,
        high: false,
    });
}
