//! What a list of pairs answers, by itself.

use signalfern_reference::Answer;

/// The probes by the list of places alone (document 02, [8]): the middle one is probed, and the half
/// that the id can be in is left.
fn probes(listed: &[u32], id: u32) -> u64 {
    let middle = listed.len() / 2;
    match listed.get(middle) {
        None => 0,
        Some(&probe) if probe == id => 1,
        Some(&probe) if probe < id => 1 + probes(&listed[middle + 1..], id),
        Some(_) => 1 + probes(&listed[..middle], id),
    }
}

/// What the list answers, by "The walk over all blocks, and the words".
pub fn listed(ids: &[u32], values: &[i64], power: u32, id: u32) -> Answer {
    let start = ids.partition_point(|x| x >> 16 < id >> 16);
    let count = ids[start..].partition_point(|x| x >> 16 == id >> 16);
    let dense = u64::from((4096..65_536).contains(&count));
    let probes = match count {
        0..=4095 => probes(&ids[start..start + count], id),
        _ => 0,
    };
    let (word, stride) = (
        u64::from(id % 65_536 / 64),
        if power == 0 { 10 } else { power - 6 },
    );
    match ids.binary_search(&id) {
        Ok(ordinal) => Answer::Found {
            ordinal: ordinal as u64,
            value: values[ordinal],
            words: dense * (word % (1 << stride) + 1),
            probes,
        },
        Err(_) => Answer::Absent {
            words: dense,
            probes,
        },
    }
}
