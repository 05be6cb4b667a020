//! The C boundary of the proved calls (`include/signalfern.h`), and all `unsafe` of this package.
//!
//! Nothing checks these declarations against the archive but the tests; they stand beside the
//! header's in the same order. Each function below lends whole slices, so the borrow checker keeps
//! the header's pointer rules: alive, aligned, as long as said, and what is written to is lent once.
//! A call writes its whole answer, on every input, to the place that is lent last.
#![allow(unsafe_code)]

use std::mem::MaybeUninit;

#[repr(C)]
#[derive(Clone, Copy)]
pub(crate) struct Reply {
    pub refusal: u64,
    pub number: u64,
}

#[repr(C)]
#[derive(Clone, Copy)]
pub(crate) struct Answer {
    pub kind: u64,
    pub number: u64,
    pub ordinal: u64,
    pub value: i64,
    pub words: u64,
    pub probes: u64,
}

#[repr(C)]
#[derive(Clone, Copy)]
pub(crate) struct Page {
    pub refusal: u64,
    pub number: u64,
    pub words: u64,
}

#[repr(C)]
#[derive(Clone, Copy)]
pub(crate) struct Column {
    pub refusal: u64,
    pub number: u64,
    pub edition: u64,
    pub count: u64,
    pub power: u64,
    pub id_bytes: u64,
    pub jump_count: u64,
    pub width: u64,
    pub smallest: u64,
    pub divisor: u64,
    pub value_bytes: u64,
    pub start: u64,
}

#[repr(C)]
#[derive(Clone, Copy)]
pub(crate) struct Cursor {
    pub last: u64,
}

#[repr(C)]
#[derive(Clone, Copy)]
pub(crate) struct Candidate {
    pub kind: u64,
    pub number: u64,
    pub id: u64,
    pub ordinal: u64,
    pub value: i64,
    pub cursor: Cursor,
}

#[repr(C)]
#[derive(Clone, Copy)]
pub(crate) struct Readout {
    pub kind: u64,
    pub number: u64,
    pub count: u64,
}

#[repr(C)]
#[derive(Clone, Copy)]
pub(crate) struct Pair {
    pub kind: u64,
    pub number: u64,
    pub id: u64,
    pub ordinal: u64,
    pub value: i64,
}

#[repr(C)]
#[derive(Clone, Copy)]
pub(crate) struct Between {
    pub kind: u64,
    pub number: u64,
    pub ordinal: u64,
}

#[repr(C)]
#[derive(Clone, Copy)]
pub(crate) struct Layered {
    pub kind: u64,
    pub number: u64,
    pub column: u64,
    pub ordinal: u64,
    pub value: i64,
    pub machine_words: u64,
    pub correction_words: u64,
}

#[repr(C)]
#[derive(Clone, Copy)]
pub(crate) struct LayeredPage {
    pub refusal: u64,
    pub number: u64,
    pub machine_words: u64,
    pub correction_words: u64,
}

#[repr(C)]
#[derive(Clone, Copy)]
pub(crate) struct LayeredReadout {
    pub kind: u64,
    pub number: u64,
    pub column: u64,
    pub count: u64,
}

#[repr(C)]
#[derive(Clone, Copy)]
pub(crate) struct Part {
    pub column: u64,
    pub start: u64,
    pub len: u64,
}

#[repr(C)]
#[derive(Clone, Copy)]
pub(crate) struct Member {
    pub kind: u64,
    pub number: u64,
    pub ordinal: u64,
}

#[repr(C)]
#[derive(Clone, Copy)]
pub(crate) struct Judgement {
    pub kind: u64,
    pub number: u64,
    pub place: u64,
    pub reason: u64,
}

extern "C" {
    fn signalfern_write_to(
        ids: *const u32,
        ids_len: usize,
        values: *const i64,
        values_len: usize,
        edition: u32,
        power: u32,
        out: *mut u8,
        out_len: usize,
        reply: *mut Reply,
    );
    fn signalfern_write_planned_to(
        ids: *const u32,
        ids_len: usize,
        values: *const i64,
        values_len: usize,
        table: *const i64,
        table_len: usize,
        power: u32,
        out: *mut u8,
        out_len: usize,
        reply: *mut Reply,
    );
    fn signalfern_plan_to(
        values: *const i64,
        values_len: usize,
        table: *mut i64,
        table_len: usize,
        reply: *mut Reply,
    );
    fn signalfern_check_to(bytes: *const u8, len: usize, reply: *mut Reply);
    fn signalfern_read_to(
        bytes: *const u8,
        len: usize,
        ids: *mut u32,
        ids_len: usize,
        values: *mut i64,
        values_len: usize,
        reply: *mut Reply,
    );
    fn signalfern_look_up_to(bytes: *const u8, len: usize, id: u32, answer: *mut Answer);
    fn signalfern_open_to(bytes: *const u8, len: usize, column: *mut Column);
    fn signalfern_look_up_in_to(
        column: *const Column,
        bytes: *const u8,
        len: usize,
        id: u32,
        answer: *mut Answer,
    );
    fn signalfern_look_up_page_to(
        bytes: *const u8,
        len: usize,
        ids: *const u32,
        ids_len: usize,
        ordinals: *mut u64,
        ordinals_len: usize,
        values: *mut i64,
        values_len: usize,
        kinds: *mut u8,
        kinds_len: usize,
        reply: *mut Page,
    );
    fn signalfern_next_to(
        last: u64,
        bytes: *const u8,
        len: usize,
        target: u32,
        candidate: *mut Candidate,
    );
    fn signalfern_next_in_to(
        column: *const Column,
        last: u64,
        bytes: *const u8,
        len: usize,
        target: u32,
        candidate: *mut Candidate,
    );
    fn signalfern_read_from_to(
        bytes: *const u8,
        len: usize,
        id: u32,
        ids: *mut u32,
        ids_len: usize,
        values: *mut i64,
        values_len: usize,
        readout: *mut Readout,
    );
    fn signalfern_read_from_in_to(
        column: *const Column,
        bytes: *const u8,
        len: usize,
        id: u32,
        ids: *mut u32,
        ids_len: usize,
        values: *mut i64,
        values_len: usize,
        readout: *mut Readout,
    );
    fn signalfern_pair_at_to(bytes: *const u8, len: usize, ordinal: u64, pair: *mut Pair);
    fn signalfern_pair_at_in_to(
        column: *const Column,
        bytes: *const u8,
        len: usize,
        ordinal: u64,
        pair: *mut Pair,
    );
    fn signalfern_first_between_to(
        bytes: *const u8,
        len: usize,
        low: i64,
        high: i64,
        between: *mut Between,
    );
    fn signalfern_first_between_in_to(
        column: *const Column,
        bytes: *const u8,
        len: usize,
        low: i64,
        high: i64,
        between: *mut Between,
    );
    fn signalfern_first_between_from_to(
        bytes: *const u8,
        len: usize,
        from: u64,
        low: i64,
        high: i64,
        between: *mut Between,
    );
    fn signalfern_first_between_from_in_to(
        column: *const Column,
        bytes: *const u8,
        len: usize,
        from: u64,
        low: i64,
        high: i64,
        between: *mut Between,
    );
    fn signalfern_look_up_layered_to(
        machine: *const u8,
        machine_len: usize,
        correction: *const u8,
        correction_len: usize,
        id: u32,
        answer: *mut Layered,
    );
    fn signalfern_look_up_layered_in_to(
        machine_column: *const Column,
        machine: *const u8,
        machine_len: usize,
        correction_column: *const Column,
        correction: *const u8,
        correction_len: usize,
        id: u32,
        answer: *mut Layered,
    );
    fn signalfern_layered_values_to(
        machine: *const u8,
        machine_len: usize,
        correction: *const u8,
        correction_len: usize,
        id: u32,
        part: *mut Part,
    );
    fn signalfern_look_up_layered_page_to(
        machine: *const u8,
        machine_len: usize,
        correction: *const u8,
        correction_len: usize,
        ids: *const u32,
        ids_len: usize,
        ordinals: *mut u64,
        ordinals_len: usize,
        values: *mut i64,
        values_len: usize,
        kinds: *mut u8,
        kinds_len: usize,
        columns: *mut u8,
        columns_len: usize,
        reply: *mut LayeredPage,
    );
    fn signalfern_look_up_layered_page_in_to(
        machine_column: *const Column,
        machine: *const u8,
        machine_len: usize,
        correction_column: *const Column,
        correction: *const u8,
        correction_len: usize,
        ids: *const u32,
        ids_len: usize,
        ordinals: *mut u64,
        ordinals_len: usize,
        values: *mut i64,
        values_len: usize,
        kinds: *mut u8,
        kinds_len: usize,
        columns: *mut u8,
        columns_len: usize,
        reply: *mut LayeredPage,
    );
    fn signalfern_read_layered_from_to(
        machine: *const u8,
        machine_len: usize,
        correction: *const u8,
        correction_len: usize,
        id: u32,
        ids: *mut u32,
        ids_len: usize,
        values: *mut i64,
        values_len: usize,
        columns: *mut u8,
        columns_len: usize,
        readout: *mut LayeredReadout,
    );
    fn signalfern_read_layered_from_in_to(
        machine_column: *const Column,
        machine: *const u8,
        machine_len: usize,
        correction_column: *const Column,
        correction: *const u8,
        correction_len: usize,
        id: u32,
        ids: *mut u32,
        ids_len: usize,
        values: *mut i64,
        values_len: usize,
        columns: *mut u8,
        columns_len: usize,
        readout: *mut LayeredReadout,
    );
    fn signalfern_set_write_to(
        ids: *const u32,
        ids_len: usize,
        out: *mut u8,
        out_len: usize,
        reply: *mut Reply,
    );
    fn signalfern_set_check_to(bytes: *const u8, len: usize, reply: *mut Reply);
    fn signalfern_set_find_to(bytes: *const u8, len: usize, id: u32, member: *mut Member);
    fn signalfern_judge_section_to(
        bytes: *const u8,
        len: usize,
        jump_count: u64,
        power: u64,
        high_first: u32,
        judgement: *mut Judgement,
    );
}

/// Lends a call the place for its answer.
///
/// # Safety
///
/// The call writes the whole answer.
unsafe fn told<T>(call: impl FnOnce(*mut T)) -> T {
    let mut answer = MaybeUninit::uninit();
    call(answer.as_mut_ptr());
    // SAFETY: the caller's word.
    unsafe { answer.assume_init() }
}

pub(crate) fn write(
    ids: &[u32],
    values: &[i64],
    edition: u32,
    power: u32,
    out: &mut [u8],
) -> Reply {
    // SAFETY: three slices with their own lengths; `out` is borrowed for this call alone.
    unsafe {
        told(|answer| {
            signalfern_write_to(
                ids.as_ptr(),
                ids.len(),
                values.as_ptr(),
                values.len(),
                edition,
                power,
                out.as_mut_ptr(),
                out.len(),
                answer,
            );
        })
    }
}

pub(crate) fn write_planned(
    ids: &[u32],
    values: &[i64],
    table: &[i64],
    power: u32,
    out: &mut [u8],
) -> Reply {
    // SAFETY: four slices with their own lengths; `out` is borrowed for this call alone.
    unsafe {
        told(|answer| {
            signalfern_write_planned_to(
                ids.as_ptr(),
                ids.len(),
                values.as_ptr(),
                values.len(),
                table.as_ptr(),
                table.len(),
                power,
                out.as_mut_ptr(),
                out.len(),
                answer,
            );
        })
    }
}

pub(crate) fn plan(values: &[i64], table: &mut [i64]) -> Reply {
    let (v, t) = (values, table);
    // SAFETY: two slices with their own lengths; `table` is borrowed for this call alone.
    unsafe {
        told(|answer| signalfern_plan_to(v.as_ptr(), v.len(), t.as_mut_ptr(), t.len(), answer))
    }
}

pub(crate) fn check(bytes: &[u8]) -> Reply {
    // SAFETY: a slice with its own length, only read.
    unsafe { told(|answer| signalfern_check_to(bytes.as_ptr(), bytes.len(), answer)) }
}

pub(crate) fn read(bytes: &[u8], ids: &mut [u32], values: &mut [i64]) -> Reply {
    // SAFETY: three slices with their own lengths; `ids` and `values` are borrowed for this call
    // alone.
    unsafe {
        told(|answer| {
            signalfern_read_to(
                bytes.as_ptr(),
                bytes.len(),
                ids.as_mut_ptr(),
                ids.len(),
                values.as_mut_ptr(),
                values.len(),
                answer,
            );
        })
    }
}

pub(crate) fn look_up(bytes: &[u8], id: u32) -> Answer {
    // SAFETY: a slice with its own length, only read.
    unsafe { told(|answer| signalfern_look_up_to(bytes.as_ptr(), bytes.len(), id, answer)) }
}

pub(crate) fn open(bytes: &[u8]) -> Column {
    // SAFETY: a slice with its own length, only read.
    unsafe { told(|answer| signalfern_open_to(bytes.as_ptr(), bytes.len(), answer)) }
}

pub(crate) fn look_up_in(column: &Column, bytes: &[u8], id: u32) -> Answer {
    // SAFETY: a slice with its own length, only read; the call takes any column.
    unsafe {
        told(|answer| signalfern_look_up_in_to(column, bytes.as_ptr(), bytes.len(), id, answer))
    }
}

pub(crate) fn look_up_page(
    bytes: &[u8],
    ids: &[u32],
    ordinals: &mut [u64],
    values: &mut [i64],
    kinds: &mut [u8],
) -> Page {
    // SAFETY: five slices with their own lengths; `ordinals`, `values` and `kinds` are borrowed for
    // this call alone.
    unsafe {
        told(|answer| {
            signalfern_look_up_page_to(
                bytes.as_ptr(),
                bytes.len(),
                ids.as_ptr(),
                ids.len(),
                ordinals.as_mut_ptr(),
                ordinals.len(),
                values.as_mut_ptr(),
                values.len(),
                kinds.as_mut_ptr(),
                kinds.len(),
                answer,
            );
        })
    }
}

pub(crate) fn next(cursor: Cursor, bytes: &[u8], target: u32) -> Candidate {
    // SAFETY: a slice with its own length, only read; the call takes any cursor.
    unsafe {
        told(|answer| signalfern_next_to(cursor.last, bytes.as_ptr(), bytes.len(), target, answer))
    }
}

pub(crate) fn next_in(column: &Column, cursor: Cursor, bytes: &[u8], target: u32) -> Candidate {
    // SAFETY: a slice with its own length, only read; the call takes any column and any cursor.
    unsafe {
        told(|answer| {
            signalfern_next_in_to(
                column,
                cursor.last,
                bytes.as_ptr(),
                bytes.len(),
                target,
                answer,
            )
        })
    }
}

pub(crate) fn read_from(bytes: &[u8], id: u32, ids: &mut [u32], values: &mut [i64]) -> Readout {
    // SAFETY: three slices with their own lengths; `ids` and `values` are borrowed for this call
    // alone.
    unsafe {
        told(|answer| {
            signalfern_read_from_to(
                bytes.as_ptr(),
                bytes.len(),
                id,
                ids.as_mut_ptr(),
                ids.len(),
                values.as_mut_ptr(),
                values.len(),
                answer,
            );
        })
    }
}

pub(crate) fn read_from_in(
    column: &Column,
    bytes: &[u8],
    id: u32,
    ids: &mut [u32],
    values: &mut [i64],
) -> Readout {
    // SAFETY: three slices with their own lengths; `ids` and `values` are borrowed for this call
    // alone; the call takes any column.
    unsafe {
        told(|answer| {
            signalfern_read_from_in_to(
                column,
                bytes.as_ptr(),
                bytes.len(),
                id,
                ids.as_mut_ptr(),
                ids.len(),
                values.as_mut_ptr(),
                values.len(),
                answer,
            );
        })
    }
}

pub(crate) fn pair_at(bytes: &[u8], ordinal: u64) -> Pair {
    // SAFETY: a slice with its own length, only read.
    unsafe { told(|answer| signalfern_pair_at_to(bytes.as_ptr(), bytes.len(), ordinal, answer)) }
}

pub(crate) fn pair_at_in(column: &Column, bytes: &[u8], ordinal: u64) -> Pair {
    let (start, len) = (bytes.as_ptr(), bytes.len());
    // SAFETY: a slice with its own length, only read; the call takes any column.
    unsafe { told(|answer| signalfern_pair_at_in_to(column, start, len, ordinal, answer)) }
}

pub(crate) fn first_between(bytes: &[u8], low: i64, high: i64) -> Between {
    // SAFETY: a slice with its own length, only read.
    unsafe {
        told(|answer| signalfern_first_between_to(bytes.as_ptr(), bytes.len(), low, high, answer))
    }
}

pub(crate) fn first_between_in(column: &Column, bytes: &[u8], low: i64, high: i64) -> Between {
    // SAFETY: a slice with its own length, only read; the call takes any column.
    unsafe {
        told(|answer| {
            signalfern_first_between_in_to(column, bytes.as_ptr(), bytes.len(), low, high, answer)
        })
    }
}

pub(crate) fn first_between_from(bytes: &[u8], from: u64, low: i64, high: i64) -> Between {
    let (start, len) = (bytes.as_ptr(), bytes.len());
    // SAFETY: a slice with its own length, only read.
    unsafe { told(|answer| signalfern_first_between_from_to(start, len, from, low, high, answer)) }
}

pub(crate) fn first_between_from_in(
    column: &Column,
    bytes: &[u8],
    from: u64,
    low: i64,
    high: i64,
) -> Between {
    let (start, len) = (bytes.as_ptr(), bytes.len());
    // SAFETY: a slice with its own length, only read; the call takes any column.
    unsafe {
        told(|answer| {
            signalfern_first_between_from_in_to(column, start, len, from, low, high, answer)
        })
    }
}

pub(crate) fn look_up_layered(machine: &[u8], correction: &[u8], id: u32) -> Layered {
    let (m, c) = (machine, correction);
    // SAFETY: two slices with their own lengths, only read.
    unsafe {
        told(|answer| {
            signalfern_look_up_layered_to(m.as_ptr(), m.len(), c.as_ptr(), c.len(), id, answer)
        })
    }
}

pub(crate) fn look_up_layered_in(
    (x, m): (&Column, &[u8]),
    (y, c): (&Column, &[u8]),
    id: u32,
) -> Layered {
    // SAFETY: two slices with their own lengths, only read; the call takes any columns.
    unsafe {
        told(|answer| {
            signalfern_look_up_layered_in_to(
                x,
                m.as_ptr(),
                m.len(),
                y,
                c.as_ptr(),
                c.len(),
                id,
                answer,
            )
        })
    }
}

pub(crate) fn layered_values(machine: &[u8], correction: &[u8], id: u32) -> Part {
    let (m, c) = (machine, correction);
    // SAFETY: two slices with their own lengths, only read.
    unsafe {
        told(|answer| {
            signalfern_layered_values_to(m.as_ptr(), m.len(), c.as_ptr(), c.len(), id, answer)
        })
    }
}

pub(crate) fn look_up_layered_page(
    m: &[u8],
    c: &[u8],
    ids: &[u32],
    ordinals: &mut [u64],
    values: &mut [i64],
    kinds: &mut [u8],
    columns: &mut [u8],
) -> LayeredPage {
    // SAFETY: seven slices with their own lengths; the four lists are borrowed for this call alone.
    unsafe {
        told(|answer| {
            signalfern_look_up_layered_page_to(
                m.as_ptr(),
                m.len(),
                c.as_ptr(),
                c.len(),
                ids.as_ptr(),
                ids.len(),
                ordinals.as_mut_ptr(),
                ordinals.len(),
                values.as_mut_ptr(),
                values.len(),
                kinds.as_mut_ptr(),
                kinds.len(),
                columns.as_mut_ptr(),
                columns.len(),
                answer,
            );
        })
    }
}

pub(crate) fn look_up_layered_page_in(
    (x, m): (&Column, &[u8]),
    (y, c): (&Column, &[u8]),
    ids: &[u32],
    ordinals: &mut [u64],
    values: &mut [i64],
    kinds: &mut [u8],
    columns: &mut [u8],
) -> LayeredPage {
    // SAFETY: seven slices with their own lengths; the four lists are borrowed for this call alone; the call takes any columns.
    unsafe {
        told(|answer| {
            signalfern_look_up_layered_page_in_to(
                x,
                m.as_ptr(),
                m.len(),
                y,
                c.as_ptr(),
                c.len(),
                ids.as_ptr(),
                ids.len(),
                ordinals.as_mut_ptr(),
                ordinals.len(),
                values.as_mut_ptr(),
                values.len(),
                kinds.as_mut_ptr(),
                kinds.len(),
                columns.as_mut_ptr(),
                columns.len(),
                answer,
            );
        })
    }
}

pub(crate) fn read_layered_from(
    m: &[u8],
    c: &[u8],
    id: u32,
    ids: &mut [u32],
    values: &mut [i64],
    columns: &mut [u8],
) -> LayeredReadout {
    // SAFETY: five slices with their own lengths; the three lists are borrowed for this call alone.
    unsafe {
        told(|answer| {
            signalfern_read_layered_from_to(
                m.as_ptr(),
                m.len(),
                c.as_ptr(),
                c.len(),
                id,
                ids.as_mut_ptr(),
                ids.len(),
                values.as_mut_ptr(),
                values.len(),
                columns.as_mut_ptr(),
                columns.len(),
                answer,
            );
        })
    }
}

pub(crate) fn read_layered_from_in(
    (x, m): (&Column, &[u8]),
    (y, c): (&Column, &[u8]),
    id: u32,
    ids: &mut [u32],
    values: &mut [i64],
    columns: &mut [u8],
) -> LayeredReadout {
    // SAFETY: five slices with their own lengths; the three lists are borrowed for this call alone; the call takes any columns.
    unsafe {
        told(|answer| {
            signalfern_read_layered_from_in_to(
                x,
                m.as_ptr(),
                m.len(),
                y,
                c.as_ptr(),
                c.len(),
                id,
                ids.as_mut_ptr(),
                ids.len(),
                values.as_mut_ptr(),
                values.len(),
                columns.as_mut_ptr(),
                columns.len(),
                answer,
            );
        })
    }
}

pub(crate) fn set_write(ids: &[u32], out: &mut [u8]) -> Reply {
    // SAFETY: two slices with their own lengths; `out` is borrowed for this call alone.
    unsafe {
        told(|answer| {
            signalfern_set_write_to(ids.as_ptr(), ids.len(), out.as_mut_ptr(), out.len(), answer)
        })
    }
}

pub(crate) fn set_check(bytes: &[u8]) -> Reply {
    // SAFETY: a slice with its own length, only read.
    unsafe { told(|answer| signalfern_set_check_to(bytes.as_ptr(), bytes.len(), answer)) }
}

pub(crate) fn set_find(bytes: &[u8], id: u32) -> Member {
    // SAFETY: a slice with its own length, only read.
    unsafe { told(|answer| signalfern_set_find_to(bytes.as_ptr(), bytes.len(), id, answer)) }
}

pub(crate) fn judge_section(
    bytes: &[u8],
    jump_count: u64,
    power: u64,
    high_first: bool,
) -> Judgement {
    let (start, len) = (bytes.as_ptr(), bytes.len());
    // SAFETY: a slice with its own length, only read.
    unsafe {
        told(|answer| {
            signalfern_judge_section_to(
                start,
                len,
                jump_count,
                power,
                u32::from(high_first),
                answer,
            )
        })
    }
}
