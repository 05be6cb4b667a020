//! A page and a reading of a machine column with a correction on top, beside the reference. Every place of each list
//! is compared.

use signalfern::{Column, Header, Layered, LayeredPage, LayeredPageAnswer, Readout, Refusal};
use signalfern_reference::{self as reference, Layer};

use super::by_c;
use super::same::to_reference;

/// The lists of a page, each of its own length.
#[derive(Clone, Debug, PartialEq)]
pub struct Lists {
    pub ordinals: Vec<u64>,
    pub values: Vec<i64>,
    pub kinds: Vec<u8>,
    pub columns: Vec<u8>,
}

impl Lists {
    /// Filled so that no change goes unseen.
    fn filled([ordinals, values, kinds, columns]: [usize; 4]) -> Self {
        Self {
            ordinals: (0..ordinals as u64).map(|i| !(i * 3)).collect(),
            values: (0..values as i64).map(|i| !(i * 5)).collect(),
            kinds: (0..kinds).map(|i| (i * 7 + 0x5A) as u8).collect(),
            columns: (0..columns).map(|i| (i * 11 + 0x33) as u8).collect(),
        }
    }

    /// The first so many places of each.
    fn first(mut self, count: usize) -> Self {
        self.ordinals.truncate(count);
        self.values.truncate(count);
        self.kinds.truncate(count);
        self.columns.truncate(count);
        self
    }

    /// What the places hold, told anew from the single look-ups; and the words of each column.
    fn put_singly(&mut self, machine: &[u8], correction: &[u8], ids: &[u32]) -> (u64, u64) {
        let mut sums = (0, 0);
        for (i, &id) in ids.iter().enumerate() {
            let answer = signalfern::look_up_layered(machine, correction, id);
            let found = answer.ok();
            self.kinds[i] = match answer {
                Err(refused) => refused.refusal.number() as u8,
                Ok(answer) => u8::from(answer.value().is_none()),
            };
            let layer = match answer {
                Err(refused) => Some(refused.layer),
                Ok(answer) => answer.layer(),
            };
            self.columns[i] = layer.map_or(0, |layer| layer.number());
            self.ordinals[i] = found.and_then(|it| it.ordinal()).unwrap_or(0);
            self.values[i] = found.and_then(|it| it.value()).unwrap_or(0);
            sums.0 += found.map_or(0, |it| it.words(signalfern::Layer::Machine));
            sums.1 += found.map_or(0, |it| it.words(signalfern::Layer::Correction));
        }
        sums
    }
}

/// The lists and the words of each column.
pub type Paged = Result<(Lists, (u64, u64)), Refusal>;

/// What the page says is what stands in the lists.
#[track_caller]
fn as_told(page: LayeredPage) -> (Lists, (u64, u64)) {
    let told: Vec<LayeredPageAnswer> = page.iter().collect();
    assert_eq!((told.len(), page.get(told.len())), (page.len(), None));
    assert_eq!(page.is_empty(), told.is_empty(), "{page:?}");
    for (index, answer) in told.into_iter().enumerate() {
        assert_eq!(page.get(index), Some(answer));
        let column = page.columns()[index];
        match (page.kinds()[index], answer) {
            (0, LayeredPageAnswer::Found { layer, .. }) => {
                assert_eq!((layer.number(), answer.layer()), (column, Some(layer)));
                assert_eq!(answer.value(), Some(page.values()[index]));
            }
            (1, LayeredPageAnswer::Absent) => assert_eq!((column, answer.layer()), (0, None)),
            (kind, LayeredPageAnswer::Refused { layer, refusal, .. }) if kind > 1 => {
                assert_eq!((refusal, layer.number()), (kind, column));
                assert_eq!(answer.value(), None);
            }
            told => panic!("{told:?}"),
        }
    }
    let lists = Lists {
        ordinals: page.ordinals().to_vec(),
        values: page.values().to_vec(),
        kinds: page.kinds().to_vec(),
        columns: page.columns().to_vec(),
    };
    let words = [signalfern::Layer::Machine, signalfern::Layer::Correction];
    let [machine, correction] = words.map(|layer| page.words(layer));
    (lists, (machine, correction))
}

fn refused(refusal: reference::Refusal) -> Refusal {
    Refusal::from_number(refusal.number, refusal.with).expect("a refusal's number")
}

/// Looks a page up into lists of these lengths, by the bytes and, where both open, by the opened columns.
#[track_caller]
pub fn page(machine: &[u8], correction: &[u8], ids: &[u32], rooms: [usize; 4]) -> Paged {
    let before = Lists::filled(rooms);
    let mut ours = before.clone();
    let Lists {
        ordinals: o,
        values: v,
        kinds: k,
        columns: c,
    } = &mut ours;
    let result =
        signalfern::look_up_layered_page(machine, correction, ids, o, v, k, c).map(as_told);
    let mut theirs = before.clone();
    let Lists {
        ordinals: o,
        values: v,
        kinds: k,
        columns: c,
    } = &mut theirs;
    let expected = reference::look_up_layered_page(machine, correction, ids, o, v, k, c);
    assert_eq!(ours, theirs, "other places");
    let words = result.as_ref().map(|it| it.1).map_err(|&it| it);
    assert_eq!(words, expected.map_err(refused));
    let mut singly = before.clone();
    if let Ok((told, words)) = &result {
        assert_eq!(singly.put_singly(machine, correction, ids), *words);
        assert_eq!(*told, ours.clone().first(ids.len()));
    }
    // The places after the ids, and after a refusal all of them, are as they were.
    assert_eq!(ours, singly, "other places than those of single look-ups");
    if let (Ok(below), Ok(above)) = (Column::open(machine), Column::open(correction)) {
        let mut opened = before;
        let Lists {
            ordinals: o,
            values: v,
            kinds: k,
            columns: c,
        } = &mut opened;
        let by_opened = Layered::new(below, above).look_up_page(ids, o, v, k, c);
        assert_eq!(by_opened.map(as_told), result);
        assert_eq!(opened, ours);
    }
    result
}

/// A page by any numbers in any bytes: the kinds of its places, or the refusal.
#[track_caller]
pub fn page_in(
    (x, machine): (Header, &[u8]),
    (y, correction): (Header, &[u8]),
    ids: &[u32],
    rooms: [usize; 4],
) -> Result<Vec<u8>, Refusal> {
    let mut ours = Lists::filled(rooms);
    let mut theirs = ours.clone();
    let (m, n) = (by_c::words(&x), by_c::words(&y));
    let Lists {
        ordinals: o,
        values: v,
        kinds: k,
        columns: c,
    } = &mut ours;
    let reply = by_c::look_up_layered_page_in((&m, machine), (&n, correction), ids, o, v, k, c);
    let (below, above) = (to_reference(x), to_reference(y));
    let Lists {
        ordinals: o,
        values: v,
        kinds: k,
        columns: c,
    } = &mut theirs;
    let expected = reference::look_up_layered_page_in(
        (&below, machine),
        (&above, correction),
        ids,
        o,
        v,
        k,
        c,
    );
    assert_eq!(
        reply,
        match expected {
            Ok((machine, correction)) => [0, ids.len() as u64, machine, correction],
            Err(refusal) => [refusal.number, refusal.with, 0, 0],
        }
    );
    assert_eq!(ours, theirs, "other places");
    let kinds = ours.first(ids.len()).kinds;
    expected.map(|_| kinds).map_err(refused)
}

/// What a reading gives: its pairs, each with its column's number, and whether no listed id is left.
pub type Read = Result<(Vec<(u32, i64, u8)>, bool), (Layer, Refusal)>;

type Places = (Vec<u32>, Vec<i64>, Vec<u8>);

fn places([ids, values, columns]: [usize; 3]) -> Places {
    let ids = (0..ids as u32).map(|i| !(i * 3)).collect();
    let values = (0..values as i64).map(|i| !(i * 5)).collect();
    let columns = (0..columns).map(|i| (i * 7 + 0x5A) as u8).collect();
    (ids, values, columns)
}

fn layer(layer: signalfern::Layer) -> Layer {
    match layer {
        signalfern::Layer::Machine => Layer::Machine,
        signalfern::Layer::Correction => Layer::Correction,
    }
}

/// The pairs that were placed; every place after them, and all where it is refused, as it was.
#[track_caller]
fn placed(told: Result<(usize, bool), (Layer, Refusal)>, given: Places, before: &Places) -> Read {
    let count = told.map_or(0, |it| it.0);
    assert!(given.0[count..] == before.0[count..], "ids after the pairs");
    assert!(
        given.1[count..] == before.1[count..],
        "values after the pairs"
    );
    assert!(
        given.2[count..] == before.2[count..],
        "columns after the pairs"
    );
    let pairs = (0..count).map(|at| (given.0[at], given.1[at], given.2[at]));
    told.map(|it| (pairs.collect(), it.1))
}

/// Reads from an id on, into lists of the given lengths: by the bytes and, where both open, by the opened columns.
#[track_caller]
pub fn read(machine: &[u8], correction: &[u8], id: u32, lens: [usize; 3]) -> Read {
    let before = places(lens);
    let mut ours = before.clone();
    let told = |it: Result<Readout, signalfern::LayeredRefusal>| {
        it.map(|it| (it.count, it.ended))
            .map_err(|it| (layer(it.layer), it.refusal))
    };
    let (i, v, c) = (&mut ours.0, &mut ours.1, &mut ours.2);
    let result = told(signalfern::read_layered_from(
        machine, correction, id, i, v, c,
    ));
    let result = placed(result, ours, &before);
    let mut theirs = before.clone();
    let (i, v, c) = (&mut theirs.0, &mut theirs.1, &mut theirs.2);
    let expected = reference::read_layered_from(machine, correction, id, i, v, c);
    let expected = expected
        .map(|it| (it.count, it.ended))
        .map_err(|(layer, it)| (layer, refused(it)));
    assert_eq!(result, placed(expected, theirs, &before), "from {id}");
    if let (Ok(below), Ok(above)) = (Column::open(machine), Column::open(correction)) {
        let mut opened = before.clone();
        let (i, v, c) = (&mut opened.0, &mut opened.1, &mut opened.2);
        let by_opened = told(Layered::new(below, above).read_from(id, i, v, c));
        assert_eq!(placed(by_opened, opened, &before), result, "from {id}");
    }
    result
}

/// Reads from an id on by any numbers in any bytes.
#[track_caller]
pub fn read_in(
    (x, machine): (Header, &[u8]),
    (y, correction): (Header, &[u8]),
    id: u32,
    lens: [usize; 3],
) -> Read {
    let before = places(lens);
    let mut ours = before.clone();
    let (m, n) = (by_c::words(&x), by_c::words(&y));
    let (i, v, c) = (&mut ours.0, &mut ours.1, &mut ours.2);
    let [kind, number, column, count] =
        by_c::read_layered_from_in((&m, machine), (&n, correction), id, i, v, c);
    let told = match kind {
        0 | 1 => {
            assert_eq!((number, column), (0, 0));
            Ok((count as usize, kind == 1))
        }
        refusal => {
            assert_eq!(count, 0);
            let layer = [Layer::Machine, Layer::Correction][column as usize];
            let refusal = Refusal::from_number(refusal, number);
            Err((layer, refusal.expect("a refusal's number")))
        }
    };
    let result = placed(told, ours, &before);
    let (below, above) = (to_reference(x), to_reference(y));
    let mut theirs = before.clone();
    let (i, v, c) = (&mut theirs.0, &mut theirs.1, &mut theirs.2);
    let (m, n) = ((&below, machine), (&above, correction));
    let expected = reference::read_layered_from_in(m, n, id, i, v, c)
        .map(|it| (it.count, it.ended))
        .map_err(|(layer, it)| (layer, refused(it)));
    assert_eq!(result, placed(expected, theirs, &before), "from {id}");
    result
}
