//! The opened columns of the package: the one place where the tool uses them.

use signalfern::{
    Answer, Candidates, Column, Layer, Layered, LayeredAnswer, LayeredRefusal, Readout, Refusal,
};

use crate::failure::Failure;
use crate::load::Loaded;

/// Ids that are taken from a list before they are asked for.
pub const PAGE: usize = 1 << 20;

/// A column to be asked for many ids.
pub struct Asked<'a>(Column<'a>);

impl<'a> Asked<'a> {
    pub fn open(bytes: &'a [u8]) -> Result<Self, Refusal> {
        Column::open(bytes).map(Self)
    }

    /// The column of a file.
    pub fn of(loaded: &'a Loaded) -> Result<Self, Failure> {
        Self::open(&loaded.bytes).map_err(|refusal| Failure::refused(&loaded.name, refusal))
    }

    pub fn look_up(&self, id: u32) -> Result<Answer, Refusal> {
        self.0.look_up(id)
    }

    pub fn count(&self) -> u64 {
        self.0.count()
    }

    pub fn column(&self) -> Column<'a> {
        self.0
    }

    pub fn candidates_from(&self, id: u32) -> Candidates<'a> {
        self.0.candidates_from(id)
    }

    /// This column with a correction on top.
    pub fn under(&self, correction: &Self) -> Corrected<'a> {
        Corrected(Layered::new(self.0, correction.0))
    }
}

/// What is answered to a page of ids: a place for each in every list.
#[derive(Default)]
pub struct Answers {
    pub ordinals: Vec<u64>,
    pub values: Vec<i64>,
    pub kinds: Vec<u8>,
    /// The numbers of the columns; of one column alone, that of the machine column.
    pub columns: Vec<u8>,
}

impl Answers {
    fn resize(&mut self, len: usize) {
        self.ordinals.resize(len, 0);
        self.values.resize(len, 0);
        self.kinds.resize(len, 0);
        self.columns.resize(len, 0);
    }
}

/// What can be asked for a page of ids, in any order.
pub trait Paged {
    /// Whether its answers name one of two columns.
    const LAYERED: bool;

    fn look_up_page(&self, ids: &[u32], page: &mut Answers) -> Result<(), Refusal>;
}

impl Paged for Asked<'_> {
    const LAYERED: bool = false;

    fn look_up_page(&self, ids: &[u32], page: &mut Answers) -> Result<(), Refusal> {
        page.resize(ids.len());
        let (ordinals, values) = (&mut page.ordinals, &mut page.values);
        let page = self.0.look_up_page(ids, ordinals, values, &mut page.kinds);
        page.map(|_| ())
    }
}

impl Paged for Corrected<'_> {
    const LAYERED: bool = true;

    fn look_up_page(&self, ids: &[u32], page: &mut Answers) -> Result<(), Refusal> {
        page.resize(ids.len());
        let (ordinals, values) = (&mut page.ordinals, &mut page.values);
        let (kinds, columns) = (&mut page.kinds, &mut page.columns);
        let page = self.0.look_up_page(ids, ordinals, values, kinds, columns);
        page.map(|_| ())
    }
}

/// A machine column with a correction on top.
pub struct Corrected<'a>(Layered<Column<'a>>);

impl<'a> Corrected<'a> {
    pub fn look_up(&self, id: u32) -> Result<LayeredAnswer, LayeredRefusal> {
        self.0.look_up(id)
    }

    /// Reads pairs of both from an id on, as many as all lists have places.
    pub fn read_from(
        &self,
        id: u32,
        ids: &mut [u32],
        values: &mut [i64],
        columns: &mut [u8],
    ) -> Result<Readout, LayeredRefusal> {
        self.0.read_from(id, ids, values, columns)
    }

    /// The part of a file that holds the values among which the id's is.
    pub fn values_of(&self, id: u32) -> &'a [u8] {
        self.0.values_of(id)
    }

    pub fn column(&self, layer: Layer) -> Column<'a> {
        self.0.column(layer)
    }
}

/// What the library says of a header: these bytes are the first of a file, or all.
pub fn judge_header(bytes: &[u8]) -> Result<(), Refusal> {
    Column::open(bytes).map(|_| ())
}
