//! The calls on two columns opened before, by C's own types: the package's let no other numbers through than those
//! of the bytes.
#![allow(unsafe_code)]

use signalfern::Header;

/// An opened column: refusal and number, which do not matter, and then its numbers.
pub type Words = [u64; 12];

extern "C" {
    fn signalfern_look_up_layered_page_in_to(
        machine_column: *const Words,
        machine: *const u8,
        machine_len: usize,
        correction_column: *const Words,
        correction: *const u8,
        correction_len: usize,
        ids: *const u32,
        ids_len: usize,
        ordinals: *mut u64,
        ordinals_len: usize,
        values: *mut i64,
        values_len: usize,
        kinds: *mut u8,
        kinds_len: usize,
        columns: *mut u8,
        columns_len: usize,
        reply: *mut [u64; 4],
    );
    fn signalfern_read_layered_from_in_to(
        machine_column: *const Words,
        machine: *const u8,
        machine_len: usize,
        correction_column: *const Words,
        correction: *const u8,
        correction_len: usize,
        id: u32,
        ids: *mut u32,
        ids_len: usize,
        values: *mut i64,
        values_len: usize,
        columns: *mut u8,
        columns_len: usize,
        readout: *mut [u64; 4],
    );
}

pub fn words(header: &Header) -> Words {
    let smallest = header.smallest;
    [
        7,
        7,
        header.edition,
        header.count,
        header.power,
        header.id_bytes,
        header.jump_count,
        header.width,
        (smallest << 1 ^ smallest >> 63) as u64,
        header.divisor,
        header.value_bytes,
        header.start,
    ]
}

/// Gives the words of the reply: refusal, number, and the words of each column.
pub fn look_up_layered_page_in(
    (x, machine): (&Words, &[u8]),
    (y, correction): (&Words, &[u8]),
    ids: &[u32],
    ordinals: &mut [u64],
    values: &mut [i64],
    kinds: &mut [u8],
    columns: &mut [u8],
) -> [u64; 4] {
    let mut reply = [9; 4];
    // SAFETY: seven slices with their own lengths; the four lists and `reply` are borrowed for this call alone; the
    // call takes any columns.
    unsafe {
        signalfern_look_up_layered_page_in_to(
            x,
            machine.as_ptr(),
            machine.len(),
            y,
            correction.as_ptr(),
            correction.len(),
            ids.as_ptr(),
            ids.len(),
            ordinals.as_mut_ptr(),
            ordinals.len(),
            values.as_mut_ptr(),
            values.len(),
            kinds.as_mut_ptr(),
            kinds.len(),
            columns.as_mut_ptr(),
            columns.len(),
            &mut reply,
        );
    }
    reply
}

/// Gives the words of the readout: kind, number, column and count.
pub fn read_layered_from_in(
    (x, machine): (&Words, &[u8]),
    (y, correction): (&Words, &[u8]),
    id: u32,
    ids: &mut [u32],
    values: &mut [i64],
    columns: &mut [u8],
) -> [u64; 4] {
    let mut readout = [9; 4];
    // SAFETY: five slices with their own lengths; the three lists and `readout` are borrowed for this call alone; the
    // call takes any columns.
    unsafe {
        signalfern_read_layered_from_in_to(
            x,
            machine.as_ptr(),
            machine.len(),
            y,
            correction.as_ptr(),
            correction.len(),
            id,
            ids.as_mut_ptr(),
            ids.len(),
            values.as_mut_ptr(),
            values.len(),
            columns.as_mut_ptr(),
            columns.len(),
            &mut readout,
        );
    }
    readout
}
