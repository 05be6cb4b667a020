//! A dense block of a damaged column: its count, its rank table and its bitmap beside each other.

use super::ids::place;
use super::Finding;
use crate::blocks::{long, rank_bytes, Block, Section, HEAD};

/// Places of a word.
const WORD: u64 = 64;

/// The first thing that is wrong in a dense block's data. Its count was held against the jump
/// entries before, or against the header.
pub fn find(section: &Section, block: &Block, data: &[u8]) -> Result<(), Finding> {
    let (table, bitmap) = data.split_at(rank_bytes(section.power) as usize);
    let ranks: Vec<u64> = match table.len() {
        // Without ranks the block is one stride, rank 0.
        0 => vec![0],
        _ => (table.chunks_exact(2))
            .map(|pair| u64::from(u16::from_be_bytes([pair[0], pair[1]])))
            .collect(),
    };
    let stride = bitmap.len() / ranks.len();
    let ones: Vec<u64> = (bitmap.chunks_exact(stride))
        .map(|stride| stride.chunks_exact(8).map(count_ones).sum())
        .collect();
    if ones.iter().sum::<u64>() != block.count {
        if let Some((index, told)) = odd_stride(block, &ranks, &ones) {
            let at = block.at + HEAD + (table.len() + stride * index) as u64;
            let first = (stride / 8 * index) as u64;
            let end = first + stride as u64 / 8;
            let part = format!(
                "bitmap of block {} (dense), words {first} to {}, places {} to {}",
                block.number,
                end - 1,
                first * WORD,
                end * WORD - 1
            );
            let why = format!("{} ones, and {told} are told", ones[index]);
            return Err(place(section, at, &part, why));
        }
    }
    wrong_rank(section, block, &ranks, &ones)
}

fn count_ones(word: &[u8]) -> u64 {
    u64::from(long(word).count_ones())
}

/// The first stride whose ones are not the step from its rank to the next, and that step.
fn odd_stride(block: &Block, ranks: &[u64], ones: &[u64]) -> Option<(usize, i64)> {
    let next = ranks.iter().skip(1).chain([&block.count]);
    let steps = ranks.iter().zip(next);
    let mut told = steps.map(|(rank, next)| *next as i64 - *rank as i64);
    let odd = ones
        .iter()
        .position(|ones| told.next() != Some(*ones as i64))?;
    let next = ranks.get(odd + 1).unwrap_or(&block.count);
    Some((odd, *next as i64 - ranks[odd] as i64))
}

/// The first rank that is not the ones before its stride.
fn wrong_rank(
    section: &Section,
    block: &Block,
    ranks: &[u64],
    ones: &[u64],
) -> Result<(), Finding> {
    let mut before = 0;
    for (index, (rank, ones)) in ranks.iter().zip(ones).enumerate() {
        if *rank != before {
            let at = block.at + HEAD + 2 * index as u64;
            let part = format!("rank {index} of block {} (dense)", block.number);
            let why = format!("{rank}, and {before} ones stand before its stride");
            return Err(place(section, at, &part, why));
        }
        before += ones;
    }
    Ok(())
}
