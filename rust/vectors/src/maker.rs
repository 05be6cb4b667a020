//! The calls, as any maker may have them.

/// A refusal: its number, and the number with it.
pub type Refused = (u64, u64);

/// What a look-up answers: ordinal and value, if the id is found, and the counts.
#[allow(missing_docs)]
pub struct Look {
    pub found: Option<(u64, i64)>,
    pub words: u64,
    pub probes: u64,
}

/// What a look-up with a correction answers; `found` has whether it is the correction's, ordinal and value.
#[allow(missing_docs)]
pub struct Layered {
    pub found: Option<(bool, u64, i64)>,
    pub machine_words: u64,
    pub correction_words: u64,
}

/// A part of the correction or of the machine column.
#[allow(missing_docs)]
#[derive(Debug, PartialEq, Eq)]
pub struct Part {
    pub correction: bool,
    pub start: u64,
    pub length: u64,
}

/// What the judge says: the count of ids; a reason and a place; or refusal 10.
#[allow(missing_docs)]
pub enum Judged {
    Accepted(u64),
    Faulty(u64, u64),
    Header,
}

/// The numbers of an opened column.
#[allow(missing_docs)]
#[derive(Clone, Copy)]
pub struct Header {
    pub edition: u64,
    pub count: u64,
    pub power: u64,
    pub id_bytes: u64,
    pub jump_count: u64,
    pub width: u64,
    pub smallest: i64,
    pub divisor: u64,
    pub value_bytes: u64,
    pub start: u64,
}

/// The lists that are lent to a page in two columns.
#[allow(missing_docs)]
pub struct Lists<'a> {
    pub ordinals: &'a mut [u64],
    pub values: &'a mut [i64],
    pub kinds: &'a mut [u8],
    pub columns: &'a mut [u8],
}

/// The lists that are lent to a reading of two columns.
#[allow(missing_docs)]
pub struct Places<'a> {
    pub ids: &'a mut [u32],
    pub values: &'a mut [i64],
    pub columns: &'a mut [u8],
}

/// The calls of `docs/FORMAT.md`, each on lent lists.
#[allow(missing_docs)]
pub trait Maker {
    fn write(
        &self,
        ids: &[u32],
        values: &[i64],
        edition: u32,
        power: u32,
        out: &mut [u8],
    ) -> Result<u64, Refused>;
    fn write_planned(
        &self,
        ids: &[u32],
        values: &[i64],
        table: &[i64],
        power: u32,
        out: &mut [u8],
    ) -> Result<u64, Refused>;
    fn plan(&self, values: &[i64], table: &mut [i64]) -> Result<u64, Refused>;
    fn check(&self, bytes: &[u8]) -> Result<u64, Refused>;
    fn read(&self, bytes: &[u8], ids: &mut [u32], values: &mut [i64]) -> Result<u64, Refused>;
    fn look_up(&self, bytes: &[u8], id: u32) -> Result<Look, Refused>;
    /// Gives the sum of words.
    fn look_up_page(
        &self,
        bytes: &[u8],
        ids: &[u32],
        ordinals: &mut [u64],
        values: &mut [i64],
        kinds: &mut [u8],
    ) -> Result<u64, Refused>;
    /// Gives id, ordinal and value.
    fn next(
        &self,
        cursor: &mut u32,
        bytes: &[u8],
        target: u32,
    ) -> Result<Option<(u32, u64, i64)>, Refused>;
    /// Gives how many pairs were placed, and whether no listed id is left.
    fn read_from(
        &self,
        bytes: &[u8],
        id: u32,
        ids: &mut [u32],
        values: &mut [i64],
    ) -> Result<(u64, bool), Refused>;
    /// Gives id, ordinal and value.
    fn pair_at(&self, bytes: &[u8], ordinal: u64) -> Result<Option<(u32, u64, i64)>, Refused>;
    fn first_between(&self, bytes: &[u8], low: i64, high: i64) -> Result<Option<u64>, Refused>;
    fn first_between_from(
        &self,
        bytes: &[u8],
        from: u64,
        low: i64,
        high: i64,
    ) -> Result<Option<u64>, Refused>;
    /// A refusal has whether it is the correction's.
    fn look_up_layered(
        &self,
        machine: &[u8],
        correction: &[u8],
        id: u32,
    ) -> Result<Layered, (bool, Refused)>;
    fn layered_values(&self, machine: &[u8], correction: &[u8], id: u32) -> Part;
    /// Gives the sums of words, the machine column's first.
    fn look_up_layered_page(
        &self,
        machine: &[u8],
        correction: &[u8],
        ids: &[u32],
        lists: Lists,
    ) -> Result<(u64, u64), Refused>;
    /// Gives how many pairs were placed, and whether no listed id is left; a refusal has whether it is the
    /// correction's.
    fn read_layered_from(
        &self,
        machine: &[u8],
        correction: &[u8],
        id: u32,
        places: Places,
    ) -> Result<(u64, bool), (bool, Refused)>;
    fn set_write(&self, ids: &[u32], out: &mut [u8]) -> Result<u64, Refused>;
    fn set_check(&self, bytes: &[u8]) -> Result<u64, Refused>;
    fn set_find(&self, bytes: &[u8], id: u32) -> Result<Option<u64>, Refused>;
    fn judge(&self, bytes: &[u8], jump_count: u64, power: u64, high_first: bool) -> Judged;
    fn open(&self, bytes: &[u8]) -> Result<Header, Refused>;
    fn look_up_in(&self, header: &Header, bytes: &[u8], id: u32) -> Result<Look, Refused>;
    fn next_in(
        &self,
        header: &Header,
        cursor: &mut u32,
        bytes: &[u8],
        target: u32,
    ) -> Result<Option<(u32, u64, i64)>, Refused>;
    fn read_from_in(
        &self,
        header: &Header,
        bytes: &[u8],
        id: u32,
        ids: &mut [u32],
        values: &mut [i64],
    ) -> Result<(u64, bool), Refused>;
    fn pair_at_in(
        &self,
        header: &Header,
        bytes: &[u8],
        ordinal: u64,
    ) -> Result<Option<(u32, u64, i64)>, Refused>;
    fn first_between_in(
        &self,
        header: &Header,
        bytes: &[u8],
        low: i64,
        high: i64,
    ) -> Result<Option<u64>, Refused>;
    fn first_between_from_in(
        &self,
        header: &Header,
        bytes: &[u8],
        from: u64,
        low: i64,
        high: i64,
    ) -> Result<Option<u64>, Refused>;
    fn look_up_layered_in(
        &self,
        machine: (&Header, &[u8]),
        correction: (&Header, &[u8]),
        id: u32,
    ) -> Result<Layered, (bool, Refused)>;
    fn look_up_layered_page_in(
        &self,
        machine: (&Header, &[u8]),
        correction: (&Header, &[u8]),
        ids: &[u32],
        lists: Lists,
    ) -> Result<(u64, u64), Refused>;
    fn read_layered_from_in(
        &self,
        machine: (&Header, &[u8]),
        correction: (&Header, &[u8]),
        id: u32,
        places: Places,
    ) -> Result<(u64, bool), (bool, Refused)>;
}
