//! Each call measured, the proved one beside the reference's. Neither is inlined into the loop that
//! measures it.

use std::hint::black_box;

use signalfern::{Column, Edition};
use signalfern_reference as reference;

use crate::inputs::{Input, LOOK_UPS};
use crate::measure::Measured;

pub fn write(input: &Input, runs: usize) -> Measured {
    let mut out = vec![1; input.bytes.len()];
    let measured = Measured::of(
        runs,
        &mut out,
        |out| {
            signalfern::write(&input.ids, &input.values, Edition::Plain, 9, out)
                .map_or(0, |len| len as u64)
        },
        |out| reference_write(&input.ids, &input.values, out),
    );
    assert!(out == input.bytes);
    measured
}

pub fn check(input: &Input, runs: usize) -> Measured {
    assert_eq!(signalfern::check(&input.bytes), Ok(input.ids.len() as u64));
    Measured::of(
        runs,
        &mut (),
        |()| signalfern::check(&input.bytes).unwrap_or(0),
        |()| reference_check(&input.bytes),
    )
}

pub fn read(input: &Input, runs: usize) -> Measured {
    let pairs = input.ids.len();
    let (mut ids, mut values) = (vec![1; pairs], vec![1; pairs]);
    let measured = Measured::of(
        runs,
        &mut (&mut ids, &mut values),
        |(ids, values)| signalfern::read(&input.bytes, ids, values).map_or(0, |n| n as u64),
        |(ids, values)| reference_read(&input.bytes, ids, values),
    );
    assert!(ids == input.ids && values == input.values);
    measured
}

/// A run of look-ups, each from the bytes.
pub fn by_bytes(bytes: &[u8], ids: &[u32], runs: usize) -> Measured {
    assert!((ids.iter()).all(|&id| {
        value(signalfern::look_up(bytes, id)) == reference_value(reference_look_up(bytes, id))
    }));
    Measured::of(
        runs,
        &mut Turns::new(ids),
        |turns| turns.sum(|id| value(signalfern::look_up(bytes, id))),
        |turns| turns.sum(|id| reference_value(reference_look_up(bytes, id))),
    )
}

/// A run of look-ups in a column opened before.
pub fn by_column(bytes: &[u8], ids: &[u32], runs: usize) -> Measured {
    let ours = Column::open(bytes).expect("a sound column");
    let theirs = reference::open(bytes).expect("a sound column");
    Measured::of(
        runs,
        &mut Turns::new(ids),
        |turns| turns.sum(|id| value(ours.look_up(id))),
        |turns| turns.sum(|id| reference_value(reference_look_up_in(&theirs, bytes, id))),
    )
}

/// What is asked for, so many a run. No run asks for that of the run before, so that neither side
/// finds in the cache what the other has just fetched.
pub struct Turns<'a, T> {
    asked: &'a [T],
    taken: usize,
}

impl<'a, T: Copy> Turns<'a, T> {
    pub fn new(asked: &'a [T]) -> Self {
        Self { asked, taken: 0 }
    }

    /// Those of the next run.
    pub fn next(&mut self) -> &'a [T] {
        let mut runs = self.asked.chunks(LOOK_UPS);
        let asked = runs.nth(self.taken % runs.len()).unwrap_or(&[]);
        self.taken += 1;
        asked
    }

    pub fn sum(&mut self, ask: impl Fn(T) -> u64) -> u64 {
        self.next().iter().fold(0, |sum, &it| sum ^ ask(it))
    }
}

pub fn value(answer: Result<signalfern::Answer, signalfern::Refusal>) -> u64 {
    match answer {
        Ok(signalfern::Answer::Found { value, .. }) => value as u64,
        Ok(signalfern::Answer::Absent { words, .. }) => words,
        Err(refusal) => refusal.number(),
    }
}

fn reference_value(answer: Result<reference::Answer, reference::Refusal>) -> u64 {
    match answer {
        Ok(reference::Answer::Found { value, .. }) => value as u64,
        Ok(reference::Answer::Absent { words, .. }) => words,
        Err(refusal) => refusal.number,
    }
}

#[inline(never)]
fn reference_write(ids: &[u32], values: &[i64], out: &mut [u8]) -> u64 {
    reference::write(black_box(ids), values, 1, 9, out).unwrap_or(0)
}

#[inline(never)]
fn reference_check(bytes: &[u8]) -> u64 {
    reference::check(black_box(bytes)).unwrap_or(0)
}

#[inline(never)]
fn reference_read(bytes: &[u8], ids: &mut [u32], values: &mut [i64]) -> u64 {
    reference::read(black_box(bytes), ids, values).unwrap_or(0)
}

#[inline(never)]
fn reference_look_up(bytes: &[u8], id: u32) -> Result<reference::Answer, reference::Refusal> {
    reference::look_up(black_box(bytes), id)
}

#[inline(never)]
fn reference_look_up_in(
    column: &reference::Column,
    bytes: &[u8],
    id: u32,
) -> Result<reference::Answer, reference::Refusal> {
    reference::look_up_in(column, black_box(bytes), id)
}
