//! Edition 2 (document 02, [6]): its widths, its bits, and a header of the other edition.

use super::*;

fn written(values: &[i64], edition: u32) -> Vec<u8> {
    let ids: Vec<u32> = (0..values.len() as u32).collect();
    let mut out = vec![0xAA; 400];
    let len = write(&ids, values, edition, 9, &mut out).expect("room for a few values");
    out.truncate(len as usize);
    out
}

#[test]
fn the_case_of_the_request() {
    let values = [1, 1, 1, 0, 2, 2, 0, 0];
    assert!(written(&values, 1).ends_with(&[0xFF, 0xFF, 0x54, 0xA0]));
    assert!(written(&values, 2).ends_with(&[0xFF, 0xFF, 0x15, 0x0A]));
}

#[test]
fn a_width_that_is_not_in_the_list() {
    for width in 0..=66_u8 {
        let bytes = usize::from(width).div_ceil(8) as u8;
        let mut column = vec![2, 1, 9, 12, 0, width, 0, 1, bytes, 0, 0, 0, 0, 0, 0];
        column.extend([0xFF, 0x7F, 0, 0, 0xFF, 0xFF]);
        column.extend(vec![0; bytes.into()]);
        let known = matches!(
            width,
            0 | 1 | 2 | 4 | 8 | 12 | 16 | 20 | 24 | 28 | 32 | 40 | 48 | 56 | 64
        );
        assert_eq!(open(&column).is_ok(), known, "{width}");
        assert!(known || open(&column) == Err(Refusal::HEADER), "{width}");
    }
}

#[test]
fn told_another_edition() {
    for edition in [0, 5, 6, 257, u32::MAX] {
        let refused = |ids: &[u32], values: &[i64], power| {
            write(ids, values, edition, power, &mut [0; 99]).unwrap_err()
        };
        // After LENGTHS, and before POWER.
        assert_eq!(refused(&[4, 4], &[1], 6), Refusal::LENGTHS);
        assert_eq!(refused(&[4, 4], &[1, 2], 6), Refusal::EDITION);
        assert_eq!(refused(&[], &[], 9), Refusal::EDITION);
    }
}

/// Where only the first number is another, the column of the other edition is taken or not by what
/// its bits then say.
#[test]
fn the_first_number_changed() {
    // One bit each: the same byte has other bits first.
    let mut column = written(&[0, 1, 0], 1);
    assert_eq!((check(&column), column[column.len() - 1]), (Ok(3), 0x40));
    column[0] = 2;
    // Bits 0 to 2 of 40 are 0, and a spare bit is set.
    assert_eq!(check(&column), Err(Refusal::DAMAGED));
    // Three bits each: edition 2 has no such width.
    let mut column = written(&[0, 7, 3], 1);
    column[0] = 2;
    assert_eq!(check(&column), Err(Refusal::HEADER));
    // Eight bits each: both say the same.
    let mut column = written(&[0, 200, 3], 2);
    assert_eq!(check(&column), Ok(3));
    column[0] = 1;
    assert_eq!(check(&column), Ok(3));
    // Five bits at width 8: edition 1 would have given 5.
    let mut column = written(&[0, 20, 3], 2);
    assert_eq!(check(&column), Ok(3));
    column[0] = 1;
    assert_eq!(check(&column), Err(Refusal::DAMAGED));
}
