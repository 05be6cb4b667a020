//! The calls that make their own buffers: pairs from an iterator, no memory, and errors passed on.

use std::io::ErrorKind;
use std::process::Command;
use std::{env, io, iter};

use crate::common::parts::Parts;
use crate::common::{few_ids, values_of_width, Random};
use signalfern::{Edition, Error, Refusal, MAX_ID};

#[test]
fn pairs_from_an_iterator_are_the_list() {
    let mut random = Random::new(50);
    for _ in 0..2000 {
        let mut ids = few_ids(&mut random, 30);
        let values = values_of_width(&mut random, ids.len() + 2, 9);
        // Sometimes out of order, or above the limit, or both.
        for _ in 0..random.below(3) {
            let at = random.below(ids.len() + 1);
            ids.insert(at, random.pick(&[0, 5, 70_000, MAX_ID, MAX_ID + 1]));
        }
        let values = &values[..ids.len()];
        let power = random.pick(&[0, 9, 15, 6, 16]);
        let pairs = ids.iter().copied().zip(values.iter().copied());
        let hidden = pairs.clone().filter(|_| true);
        let expected = signalfern::write_to_vec(&ids, values, Edition::Plain, power);
        assert_eq!(
            signalfern::write_pairs(pairs, Edition::Plain, power),
            expected
        );
        assert_eq!(
            signalfern::write_pairs(hidden, Edition::Plain, power),
            expected
        );
    }
}

#[test]
fn nothing_is_taken_after_an_id_out_of_order() {
    let mut taken = 0;
    let endless = iter::repeat_with(|| {
        taken += 1;
        (u32::min(taken, 5), 1)
    });
    // An endless iterator tells no length that could be reserved.
    let refused = signalfern::write_pairs(endless.take_while(|_| true), Edition::Plain, 9);
    assert_eq!(refused, Err(Refusal::Order { index: 5 }.into()));
    assert_eq!(taken, 6);
}

#[test]
fn a_length_that_cannot_be_is_no_abort() {
    let refused = signalfern::write_pairs(iter::repeat((1, 1)), Edition::Plain, 9);
    assert!(matches!(refused, Err(Error::Memory(_))), "{refused:?}");
}

/// Runs in a process of its own, with some 450 MB of memory.
#[test]
#[ignore = "run by the test below"]
fn in_little_memory() {
    let memory = |result: Result<usize, Error>| {
        let error = result.unwrap_err();
        assert!(matches!(error, Error::Memory(_)), "{error:?}");
        assert_eq!(io::Error::from(error).kind(), ErrorKind::OutOfMemory);
    };
    // A hundred million pairs in some bytes.
    let bytes = Parts::full_blocks(1600).bytes();
    assert_eq!(signalfern::check(&bytes), Ok(1600 << 16));
    memory(signalfern::read_to_vecs(&bytes).map(|(ids, _)| ids.len()));
    // The walk needs none.
    let column = signalfern::Checked::new(&bytes).unwrap();
    assert!(column.iter().all(|(_, value)| value == 42));

    // With a length told, and without.
    let pairs = (0..MAX_ID).map(|id| (id, 1));
    memory(signalfern::write_pairs(pairs.clone(), Edition::Plain, 9).map(|column| column.len()));
    memory(
        signalfern::write_pairs(pairs.filter(|_| true), Edition::Plain, 9)
            .map(|column| column.len()),
    );

    // Lists that fit, and a column beside them that does not: 2^38 + 1 and 2^39 have no common divisor.
    let count = 25_000_000;
    let ids: Vec<u32> = (0..count).collect();
    let values: Vec<i64> = (0..i64::from(count)).map(|i| i << 38 | i & 1).collect();
    memory(signalfern::write_to_vec(&ids, &values, Edition::Plain, 9).map(|column| column.len()));
}

#[test]
fn memory_that_cannot_be_had_is_no_abort() {
    let ran = Command::new("bash")
        .args(["-c", r#"ulimit -v 450000 && exec "$0" "$@""#])
        .arg(env::current_exe().unwrap())
        .args([
            "--exact",
            "--ignored",
            "--test-threads=1",
            "buffers::in_little_memory",
        ])
        .output()
        .expect("bash is installed");
    let out = String::from_utf8_lossy(&ran.stdout);
    let err = String::from_utf8_lossy(&ran.stderr);
    assert!(ran.status.success(), "{}: {out}{err}", ran.status);
    assert!(out.contains("1 passed"), "{out}");
}

#[test]
fn refusals_as_errors_of_io() {
    for refusal in (1..=17).filter_map(|number| Refusal::from_number(number, 7)) {
        let error = io::Error::from(Error::from(refusal));
        assert_eq!(error.to_string(), refusal.to_string());
        // Bytes that are no column; or another input that is wrong.
        let bytes = matches!(refusal.number(), 7..=11 | 13 | 15);
        let kind = [ErrorKind::InvalidInput, ErrorKind::InvalidData][usize::from(bytes)];
        assert_eq!(error.kind(), kind, "{refusal:?}");
        assert_eq!(error.downcast::<Refusal>().unwrap(), refusal);
    }
}
