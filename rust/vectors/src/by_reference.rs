//! The reference as a maker.

use signalfern_reference as reference;
use signalfern_reference::{Answer, Column, Judgement, Layer, LayeredAnswer, LayeredLook, Refusal};

use crate::{Header, Judged, Layered, Lists, Look, Maker, Part, Places, Refused};

/// The calls of `rust/reference`, which is documents 01 and 02 in plain Rust.
pub struct Reference;

fn refused(refusal: Refusal) -> Refused {
    (refusal.number, refusal.with)
}

fn look(answer: Result<Answer, Refusal>) -> Result<Look, Refused> {
    let (found, words, probes) = match answer.map_err(refused)? {
        Answer::Found {
            ordinal,
            value,
            words,
            probes,
        } => (Some((ordinal, value)), words, probes),
        Answer::Absent { words, probes } => (None, words, probes),
    };
    Ok(Look {
        found,
        words,
        probes,
    })
}

fn candidate(next: reference::Next) -> Result<Option<(u32, u64, i64)>, Refused> {
    let found = next.map_err(refused)?;
    Ok(found.map(|it| (it.id, it.ordinal, it.value)))
}

fn readout(read: Result<reference::Readout, Refusal>) -> Result<(u64, bool), Refused> {
    let read = read.map_err(refused)?;
    Ok((read.count as u64, read.ended))
}

fn is_correction(layer: Layer) -> bool {
    layer == Layer::Correction
}

fn layered_readout(
    readout: Result<reference::Readout, (Layer, Refusal)>,
) -> Result<(u64, bool), (bool, Refused)> {
    let readout = readout.map_err(|(layer, it)| (is_correction(layer), refused(it)))?;
    Ok((readout.count as u64, readout.ended))
}

fn layered(look: LayeredLook) -> Result<Layered, (bool, Refused)> {
    match look.map_err(|(layer, refusal)| (is_correction(layer), refused(refusal)))? {
        LayeredAnswer::Found {
            layer,
            ordinal,
            value,
            machine_words,
            correction_words,
        } => Ok(Layered {
            found: Some((is_correction(layer), ordinal, value)),
            machine_words,
            correction_words,
        }),
        LayeredAnswer::Absent {
            machine_words,
            correction_words,
        } => Ok(Layered {
            found: None,
            machine_words,
            correction_words,
        }),
    }
}

fn column(header: &Header) -> Column {
    let smallest = header.smallest;
    Column {
        edition: header.edition,
        count: header.count,
        power: header.power,
        id_bytes: header.id_bytes,
        jump_count: header.jump_count,
        width: header.width,
        smallest_number: (smallest << 1 ^ smallest >> 63) as u64,
        divisor: header.divisor,
        value_bytes: header.value_bytes,
        start: header.start,
    }
}

impl Maker for Reference {
    fn write(
        &self,
        ids: &[u32],
        values: &[i64],
        edition: u32,
        power: u32,
        out: &mut [u8],
    ) -> Result<u64, Refused> {
        reference::write(ids, values, edition, power, out).map_err(refused)
    }

    fn write_planned(
        &self,
        ids: &[u32],
        values: &[i64],
        table: &[i64],
        power: u32,
        out: &mut [u8],
    ) -> Result<u64, Refused> {
        reference::write_planned(ids, values, table, power, out).map_err(refused)
    }

    fn plan(&self, values: &[i64], table: &mut [i64]) -> Result<u64, Refused> {
        reference::plan(values, table).map_err(refused)
    }

    fn check(&self, bytes: &[u8]) -> Result<u64, Refused> {
        reference::check(bytes).map_err(refused)
    }

    fn read(&self, bytes: &[u8], ids: &mut [u32], values: &mut [i64]) -> Result<u64, Refused> {
        reference::read(bytes, ids, values).map_err(refused)
    }

    fn look_up(&self, bytes: &[u8], id: u32) -> Result<Look, Refused> {
        look(reference::look_up(bytes, id))
    }

    fn look_up_page(
        &self,
        bytes: &[u8],
        ids: &[u32],
        ordinals: &mut [u64],
        values: &mut [i64],
        kinds: &mut [u8],
    ) -> Result<u64, Refused> {
        reference::look_up_page(bytes, ids, ordinals, values, kinds).map_err(refused)
    }

    fn next(
        &self,
        cursor: &mut u32,
        bytes: &[u8],
        target: u32,
    ) -> Result<Option<(u32, u64, i64)>, Refused> {
        candidate(reference::next(cursor, bytes, target))
    }

    fn read_from(
        &self,
        bytes: &[u8],
        id: u32,
        ids: &mut [u32],
        values: &mut [i64],
    ) -> Result<(u64, bool), Refused> {
        readout(reference::read_from(bytes, id, ids, values))
    }

    fn pair_at(&self, bytes: &[u8], ordinal: u64) -> Result<Option<(u32, u64, i64)>, Refused> {
        candidate(reference::pair_at(bytes, ordinal))
    }

    fn first_between(&self, bytes: &[u8], low: i64, high: i64) -> Result<Option<u64>, Refused> {
        reference::first_between(bytes, low, high).map_err(refused)
    }

    fn first_between_from(
        &self,
        bytes: &[u8],
        from: u64,
        low: i64,
        high: i64,
    ) -> Result<Option<u64>, Refused> {
        reference::first_between_from(bytes, from, low, high).map_err(refused)
    }

    fn look_up_layered(
        &self,
        machine: &[u8],
        correction: &[u8],
        id: u32,
    ) -> Result<Layered, (bool, Refused)> {
        layered(reference::look_up_layered(machine, correction, id))
    }

    /// The value section of the column that the look-up names.
    fn layered_values(&self, machine: &[u8], correction: &[u8], id: u32) -> Part {
        let part = reference::layered_values(machine, correction, id);
        let found = self.look_up_layered(machine, correction, id);
        let layer = found.ok().and_then(|it| it.found).map(|it| it.0);
        let start = |bytes: &[u8]| (bytes.len() - part.len()) as u64;
        Part {
            correction: layer == Some(true),
            start: match layer {
                None => 0,
                Some(true) => start(correction),
                Some(false) => start(machine),
            },
            length: part.len() as u64,
        }
    }

    fn look_up_layered_page(
        &self,
        machine: &[u8],
        correction: &[u8],
        ids: &[u32],
        lists: Lists,
    ) -> Result<(u64, u64), Refused> {
        let (ordinals, values) = (lists.ordinals, lists.values);
        let (kinds, columns) = (lists.kinds, lists.columns);
        reference::look_up_layered_page(machine, correction, ids, ordinals, values, kinds, columns)
            .map_err(refused)
    }

    fn read_layered_from(
        &self,
        machine: &[u8],
        correction: &[u8],
        id: u32,
        places: Places,
    ) -> Result<(u64, bool), (bool, Refused)> {
        let (ids, values, columns) = (places.ids, places.values, places.columns);
        layered_readout(reference::read_layered_from(
            machine, correction, id, ids, values, columns,
        ))
    }

    fn set_write(&self, ids: &[u32], out: &mut [u8]) -> Result<u64, Refused> {
        reference::set_write(ids, out).map_err(refused)
    }

    fn set_check(&self, bytes: &[u8]) -> Result<u64, Refused> {
        reference::set_check(bytes).map_err(refused)
    }

    fn set_find(&self, bytes: &[u8], id: u32) -> Result<Option<u64>, Refused> {
        reference::set_find(bytes, id).map_err(refused)
    }

    fn judge(&self, bytes: &[u8], jump_count: u64, power: u64, high_first: bool) -> Judged {
        match reference::judge_section(bytes, jump_count, power, high_first) {
            Judgement::Accepted(ids) => Judged::Accepted(ids),
            Judgement::Faulty(reason, place) => Judged::Faulty(reason, place as u64),
            Judgement::Header => Judged::Header,
        }
    }

    fn open(&self, bytes: &[u8]) -> Result<Header, Refused> {
        let column = reference::open(bytes).map_err(refused)?;
        let number = column.smallest_number;
        Ok(Header {
            edition: column.edition,
            count: column.count,
            power: column.power,
            id_bytes: column.id_bytes,
            jump_count: column.jump_count,
            width: column.width,
            smallest: (number >> 1) as i64 ^ -((number & 1) as i64),
            divisor: column.divisor,
            value_bytes: column.value_bytes,
            start: column.start,
        })
    }

    fn look_up_in(&self, header: &Header, bytes: &[u8], id: u32) -> Result<Look, Refused> {
        look(reference::look_up_in(&column(header), bytes, id))
    }

    fn next_in(
        &self,
        header: &Header,
        cursor: &mut u32,
        bytes: &[u8],
        target: u32,
    ) -> Result<Option<(u32, u64, i64)>, Refused> {
        candidate(reference::next_in(&column(header), cursor, bytes, target))
    }

    fn read_from_in(
        &self,
        header: &Header,
        bytes: &[u8],
        id: u32,
        ids: &mut [u32],
        values: &mut [i64],
    ) -> Result<(u64, bool), Refused> {
        let column = column(header);
        readout(reference::read_from_in(&column, bytes, id, ids, values))
    }

    fn pair_at_in(
        &self,
        header: &Header,
        bytes: &[u8],
        ordinal: u64,
    ) -> Result<Option<(u32, u64, i64)>, Refused> {
        candidate(reference::pair_at_in(&column(header), bytes, ordinal))
    }

    fn first_between_from_in(
        &self,
        header: &Header,
        bytes: &[u8],
        from: u64,
        low: i64,
        high: i64,
    ) -> Result<Option<u64>, Refused> {
        let column = column(header);
        reference::first_between_from_in(&column, bytes, from, low, high).map_err(refused)
    }

    fn first_between_in(
        &self,
        header: &Header,
        bytes: &[u8],
        low: i64,
        high: i64,
    ) -> Result<Option<u64>, Refused> {
        reference::first_between_in(&column(header), bytes, low, high).map_err(refused)
    }

    fn look_up_layered_in(
        &self,
        machine: (&Header, &[u8]),
        correction: (&Header, &[u8]),
        id: u32,
    ) -> Result<Layered, (bool, Refused)> {
        layered(reference::look_up_layered_in(
            (&column(machine.0), machine.1),
            (&column(correction.0), correction.1),
            id,
        ))
    }

    fn look_up_layered_page_in(
        &self,
        machine: (&Header, &[u8]),
        correction: (&Header, &[u8]),
        ids: &[u32],
        lists: Lists,
    ) -> Result<(u64, u64), Refused> {
        let (x, y) = (column(machine.0), column(correction.0));
        reference::look_up_layered_page_in(
            (&x, machine.1),
            (&y, correction.1),
            ids,
            lists.ordinals,
            lists.values,
            lists.kinds,
            lists.columns,
        )
        .map_err(refused)
    }

    fn read_layered_from_in(
        &self,
        machine: (&Header, &[u8]),
        correction: (&Header, &[u8]),
        id: u32,
        places: Places,
    ) -> Result<(u64, bool), (bool, Refused)> {
        let (x, y) = (column(machine.0), column(correction.0));
        layered_readout(reference::read_layered_from_in(
            (&x, machine.1),
            (&y, correction.1),
            id,
            places.ids,
            places.values,
            places.columns,
        ))
    }
}
