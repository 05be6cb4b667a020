//! Ids looked up in a column that was not checked: what a look-up costs, and what it may refuse.
//!
//!     cargo run --example look_up

use signalfern::{Answer, Column, Edition, Error};

fn main() -> Result<(), Error> {
    // Every third id of a block: it is stored as a bitmap with ranks. Of the next block every
    // hundredth: they are listed, and a look-up halves the list.
    let ids = (0..65_536).step_by(3).chain((65_536..131_072).step_by(100));
    let ids: Vec<u32> = ids.collect();
    let values: Vec<i64> = ids.iter().map(|&id| i64::from(id) * 10).collect();
    let mut bytes = signalfern::write_to_vec(&ids, &values, Edition::Plain, 9)?;
    ask(
        &Column::open(&bytes)?,
        &[0, 600, 601, 65_535, 98_336, 98_337],
    );

    // One bit of the first rank is flipped. A look-up does not see what it has no need to read, and
    // goes by what it reads: check first, where bytes may have been damaged.
    let start = Column::open(&bytes)?.start() as usize;
    bytes[start + 5] ^= 1;
    println!("one bit flipped:");
    ask(&Column::open(&bytes)?, &[0, 600]);
    println!("the check: {:?}", signalfern::check(&bytes));
    Ok(())
}

fn ask(column: &Column, ids: &[u32]) {
    for &id in ids {
        match column.look_up(id) {
            Ok(answer @ Answer::Found { ordinal, value, .. }) => {
                println!(
                    "{id}: {value}, the pair with ordinal {ordinal}; {}",
                    cost(answer)
                );
            }
            Ok(answer) => println!("{id}: not listed; {}", cost(answer)),
            Err(refusal) => println!("{id}: {refusal}"),
        }
    }
}

fn cost(answer: Answer) -> String {
    format!("words {}, probes {}", answer.words(), answer.probes())
}
