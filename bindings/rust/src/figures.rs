//! A result as figures, also one under the text of 2015.

/// A row's figures. Volumes are in tenths of a megawatt, the payment is in tiyn.
#[derive(Clone, Copy, Debug, PartialEq, Eq)]
pub struct RowLine {
    /// Volume after the cut.
    pub after_cut: u32,
    /// Actual volume, for the days that the row covers.
    pub actual: u32,
    /// Payment.
    pub payment: u64,
}

/// A consumer's figures. Volumes are in tenths of a megawatt, the charge is in tiyn.
#[derive(Clone, Copy, Debug, PartialEq, Eq)]
pub struct ConsumerLine {
    /// Credit.
    pub credit: u32,
    /// p, in thousandths.
    pub percent: u32,
    /// n, in tenths.
    pub band: u8,
    /// Actual volume.
    pub volume: u64,
    /// Charge.
    pub charge: u64,
}

/// A consumer's figures under the text of 2015. The volume is in tenths of a megawatt, the charge is in tiyn.
#[derive(Clone, Copy, Debug, PartialEq, Eq)]
pub struct Line2015 {
    /// The factor, in tenths.
    pub factor: u8,
    /// Volume.
    pub volume: u64,
    /// Charge.
    pub charge: u64,
}

/// The totals, in tiyn.
#[derive(Clone, Copy, Debug, PartialEq, Eq)]
pub struct Totals {
    /// Total paid.
    pub paid: u64,
    /// Total charged.
    pub charged: u64,
}

/// The figures of a result, read where they stand.
#[derive(Clone, Copy, Debug)]
pub struct Figures<'a> {
    rows: &'a [u8],
    consumers: &'a [u8],
    totals: &'a [u8],
}

/// The bytes from a place on, as many as an array has.
fn part<const N: usize>(bytes: &[u8], at: usize) -> [u8; N] {
    core::array::from_fn(|i| bytes[at + i])
}

/// What a result of so many bytes has behind its head. Nothing where its length field says otherwise, or the bytes are
/// fewer; bytes past the result are left out.
fn behind_head(result: &[u8], head: usize, length: usize) -> Option<&[u8]> {
    let field = u32::from_be_bytes(result.get(..4)?.try_into().ok()?);
    (usize::try_from(field) == Ok(length)).then_some(result.get(head..length)?)
}

impl<'a> Figures<'a> {
    /// The figures of a result that [`crate::settle`] wrote of a sheet: the sheet's header has the counts of rows and
    /// consumers. Nothing where the bytes are not as long as these counts ask for; bytes past the result are left out.
    pub fn of(sheet: &[u8], result: &'a [u8]) -> Option<Figures<'a>> {
        let rows = 16 * usize::from(*sheet.get(12)?);
        let consumers = 25 * usize::from(*sheet.get(13)?);
        let (rows, back) = behind_head(result, 5, 21 + rows + consumers)?.split_at(rows);
        let (consumers, totals) = back.split_at(consumers);
        Some(Figures { rows, consumers, totals })
    }

    /// The rows, in the sheet's order.
    pub fn rows(self) -> impl ExactSizeIterator<Item = RowLine> + DoubleEndedIterator + 'a {
        self.rows.chunks_exact(16).map(|at| RowLine {
            after_cut: u32::from_be_bytes(part(at, 0)),
            actual: u32::from_be_bytes(part(at, 4)),
            payment: u64::from_be_bytes(part(at, 8)),
        })
    }

    /// The consumers, in the sheet's order.
    pub fn consumers(self) -> impl ExactSizeIterator<Item = ConsumerLine> + DoubleEndedIterator + 'a {
        self.consumers.chunks_exact(25).map(|at| ConsumerLine {
            credit: u32::from_be_bytes(part(at, 0)),
            percent: u32::from_be_bytes(part(at, 4)),
            band: at[8],
            volume: u64::from_be_bytes(part(at, 9)),
            charge: u64::from_be_bytes(part(at, 17)),
        })
    }

    /// The totals.
    pub fn totals(self) -> Totals {
        Totals { paid: u64::from_be_bytes(part(self.totals, 0)), charged: u64::from_be_bytes(part(self.totals, 8)) }
    }
}

/// The figures of a result under the text of 2015, read where they stand.
#[derive(Clone, Copy, Debug)]
pub struct Figures2015<'a> {
    consumers: &'a [u8],
}

impl<'a> Figures2015<'a> {
    /// The figures of a result that [`crate::settle_2015`] wrote of a sheet: the sheet's header has the count of
    /// consumers. Nothing where the bytes are not as long as it asks for; bytes past the result are left out.
    pub fn of(sheet: &[u8], result: &'a [u8]) -> Option<Figures2015<'a>> {
        let consumers = behind_head(result, 4, 4 + 17 * usize::from(*sheet.get(13)?))?;
        Some(Figures2015 { consumers })
    }

    /// The consumers, in the sheet's order.
    pub fn consumers(self) -> impl ExactSizeIterator<Item = Line2015> + DoubleEndedIterator + 'a {
        self.consumers.chunks_exact(17).map(|at| Line2015 {
            factor: at[0],
            volume: u64::from_be_bytes(part(at, 1)),
            charge: u64::from_be_bytes(part(at, 9)),
        })
    }
}
