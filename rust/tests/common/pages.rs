//! A page of ids beside the reference, and beside the single look-up of each.

use signalfern::{Page, PageAnswer, Refusal};
use signalfern_reference as reference;

/// The three lists for the answers of a page, each of its own length.
#[derive(Clone, Debug, PartialEq)]
pub struct Lists {
    pub ordinals: Vec<u64>,
    pub values: Vec<i64>,
    pub kinds: Vec<u8>,
}

impl Lists {
    /// Filled so that no change goes unseen.
    pub fn filled([ordinals, values, kinds]: [usize; 3]) -> Self {
        Self {
            ordinals: (0..ordinals as u64).map(|i| !(i * 3)).collect(),
            values: (0..values as i64).map(|i| !(i * 5)).collect(),
            kinds: (0..kinds).map(|i| (i * 7 + 0x5A) as u8).collect(),
        }
    }

    /// The first so many places of each.
    fn first(mut self, count: usize) -> Self {
        self.ordinals.truncate(count);
        self.values.truncate(count);
        self.kinds.truncate(count);
        self
    }

    /// What the places hold, told anew from the single look-ups of the bytes; and the words.
    fn put_singly(&mut self, bytes: &[u8], ids: &[u32]) -> u64 {
        let mut sum = 0_u64;
        for (i, &id) in ids.iter().enumerate() {
            let answer = signalfern::look_up(bytes, id);
            self.kinds[i] = match answer {
                Ok(signalfern::Answer::Found { .. }) => 0,
                Ok(signalfern::Answer::Absent { .. }) => 1,
                Err(refusal) => refusal.number() as u8,
            };
            let found = answer.ok().filter(|answer| answer.value().is_some());
            self.ordinals[i] = found.and_then(|it| it.ordinal()).unwrap_or(0);
            self.values[i] = found.and_then(|it| it.value()).unwrap_or(0);
            sum = sum.wrapping_add(answer.map_or(0, |answer| answer.words()));
        }
        sum
    }
}

/// What the page says is what stands in the lists.
#[track_caller]
fn as_told(page: Page) -> (Lists, u64) {
    let told: Vec<PageAnswer> = page.iter().collect();
    assert_eq!(
        (told.len(), page.is_empty()),
        (page.len(), told.is_empty()),
        "{page:?}"
    );
    assert_eq!(page.get(told.len()), None);
    for (index, answer) in told.into_iter().enumerate() {
        assert_eq!(page.get(index), Some(answer));
        let (ordinal, value) = (page.ordinals()[index], page.values()[index]);
        let found = match (page.kinds()[index], answer) {
            (0, PageAnswer::Found { .. }) => Some((ordinal, value)),
            (1, PageAnswer::Absent) => None,
            (kind, PageAnswer::Refused(refusal)) if kind == refusal && kind > 1 => None,
            told => panic!("{told:?}"),
        };
        assert_eq!(answer.ordinal().zip(answer.value()), found);
        assert!(found.is_some() || (ordinal, value) == (0, 0));
    }
    let lists = Lists {
        ordinals: page.ordinals().to_vec(),
        values: page.values().to_vec(),
        kinds: page.kinds().to_vec(),
    };
    (lists, page.words())
}

/// Looks a page up into lists of these lengths; gives the places of the ids and the words, or the
/// refusal.
#[track_caller]
pub fn look_up(bytes: &[u8], ids: &[u32], rooms: [usize; 3]) -> Result<(Lists, u64), Refusal> {
    let before = Lists::filled(rooms);
    let (mut ours, mut theirs) = (before.clone(), before.clone());
    let result = signalfern::look_up_page(
        bytes,
        ids,
        &mut ours.ordinals,
        &mut ours.values,
        &mut ours.kinds,
    )
    .map(as_told);
    let expected = reference::look_up_page(
        bytes,
        ids,
        &mut theirs.ordinals,
        &mut theirs.values,
        &mut theirs.kinds,
    );
    assert_eq!(ours, theirs, "other places");
    let words = result.as_ref().map(|(_, words)| *words);
    assert_eq!(
        words.map_err(|refusal| (refusal.number(), refusal.number_with())),
        expected.map_err(|refusal| (refusal.number, refusal.with))
    );
    let mut singly = before.clone();
    if let Ok((told, words)) = &result {
        assert_eq!(singly.put_singly(bytes, ids), *words);
        assert_eq!(*told, ours.clone().first(ids.len()));
    }
    // The places after the ids, and after a refusal all of them, are as they were.
    assert_eq!(ours, singly, "other places than those of single look-ups");
    result
}

/// The same with just the room that is needed.
#[track_caller]
pub fn look_up_exactly(bytes: &[u8], ids: &[u32]) -> (Lists, u64) {
    let given = look_up(bytes, ids, [ids.len(); 3]).expect("room for all answers");
    let answers = signalfern::look_up_page_to_vec(bytes, ids).expect("memory for all answers");
    let by_lists = (answers.iter()).map(|it| (it.ordinal().unwrap_or(0), it.value().unwrap_or(0)));
    assert!(by_lists.eq((given.0.ordinals.iter().copied()).zip(given.0.values.iter().copied())));
    if let Ok(column) = signalfern::Column::open(bytes) {
        assert_eq!(column.look_up_page_to_vec(ids), Ok(answers));
    }
    given
}
