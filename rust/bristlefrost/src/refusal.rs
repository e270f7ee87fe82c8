//! The refusals by name, with their numbers, places and slacks. Each has the same name in the proved crates and in the C header.

use std::fmt;

/// A lent list, by its number.
#[derive(Clone, Copy, Debug, PartialEq, Eq)]
pub enum List {
    /// 1: the column of each row; for [`cost`](crate::cost), the only list.
    Columns,
    /// 2: the row of each column.
    Rows,
    /// 3: the price of each row.
    RowPrices,
    /// 4: the price of each column.
    ColumnPrices,
    /// 5: the columns barred to each row.
    Bars,
    /// 6: the columns of a second pairing.
    Second,
}

/// A work room, by its number.
#[derive(Clone, Copy, Debug, PartialEq, Eq)]
pub enum Room {
    /// 1: at least 4 * side indices.
    Indices,
    /// 2: at least side numbers.
    Numbers,
}

/// Why an input was refused, by number. Nothing that was lent has changed, but for the slip's room with
/// [`NoPairing`](Refusal::NoPairing); only [`Pieces`](crate::Pieces) remember it. A place of a cost is row * side +
/// column.
#[derive(Clone, Copy, Debug, PartialEq, Eq)]
#[non_exhaustive]
pub enum Refusal {
    /// 1: the side is over 4,096; with bars or fewer rows over 64; for [`plain`](crate::plain) over 8.
    SideOver,
    /// 2: there are not exactly side * side costs.
    CostsLength,
    /// 3: an output or list is shorter than the side, or [`cost`](crate::cost)'s is longer; the first such.
    ListLength(List),
    /// 4: a work room is too short; the first such.
    RoomShort(Room),
    /// 5: a cost lies outside -1,000,000,000..1,000,000,000; with bars, outside -1,000,000..1,000,000.
    CostOutside {
        /// The first such cost.
        place: u64,
    },
    /// 6: a listed column is not below the side, or the row that a repair names is not.
    ColumnOutside {
        /// The first such row; the side where it is the row to repair that lies outside.
        row: u64,
    },
    /// 7: the column of a row does not name that row back, or is used twice.
    RowNotNamed {
        /// The first such row; the later one of a column used twice.
        row: u64,
    },
    /// 8: a price lies outside -10,000,000,000..10,000,000,000.
    PriceOutside {
        /// The first such price: a row's number, or side + a column's number.
        place: u64,
    },
    /// 9: row price + column price is over the cost.
    PricesOverCost {
        /// The first such cost.
        place: u64,
        /// That cost minus both prices: below 0. An [`audit`](crate::audit) does not tell it, and has 0.
        slack: i64,
    },
    /// 10: on a pair that sum is not the cost.
    PricesNotCost {
        /// The first such row.
        row: u64,
        /// The cost of its pair minus both prices: above 0. An [`audit`](crate::audit) does not tell it, and has 0.
        slack: i64,
    },
    /// 11: the sheet has under 12 bytes, or a wrong mark.
    NoMark,
    /// 12: the sheet's edition is not 1, 2 or 3.
    EditionUnknown,
    /// 13: the sheet's side is over 64.
    SheetSideOver,
    /// 14: the sheet's distance is not 4 * side * side, in edition 2 8 * side more, in edition 3 4 * rows * side + 2.
    DistanceWrong,
    /// 15: the sheet's distance exceeds the bytes before the trailer.
    DistancePastBytes,
    /// 16: the slip's room is under 18 * side + 20 bytes, in edition 3 under 10 * rows + 8 * side + 22, or the room of a
    /// sheet of scores under 4 * side * side + 12.
    SlipRoomShort,
    /// 17: the sheet is over 65,536 bytes.
    SheetOver,
    /// 18: a reference is not of 12 characters, or lists of them are not equally long or not of whole references.
    ReferenceLength {
        /// The first such reference, 1 or 2; 0 for lists.
        reference: u64,
    },
    /// 19: a character of a reference is not from 0-9 and A-Z.
    CharacterUnknown {
        /// The first such, counted on over both references; in lists, the first list before the second, 24 times the
        /// reference's number are added.
        place: u64,
    },
    /// 20: no pairing of the sheet is without a barred pair.
    NoPairing {
        /// Rows that show it, bit i for row i: the columns allowed to any of them are fewer than they are.
        rows: u64,
    },
    /// 21: the sheet's note, all bytes before its first cost, is over 4,096 bytes or has one outside 32 to 126.
    NoteUnfit {
        /// The first such position, 4,096 for a longer note whose first 4,096 bytes are good.
        place: u64,
    },
    /// 22: a row's bars have a bit set from the side up.
    BarsPastSide {
        /// The first such row.
        row: u64,
    },
    /// 23: there are more rows than columns, or a sheet of edition 3 has under 14 bytes.
    RowsOver {
        /// The number of rows; 0 for a sheet that is too short.
        rows: u64,
    },
    /// 24: a price lies outside -7,000,000,000..7,000,000,000, so that a repair could take it too far: solve afresh.
    PriceFar {
        /// The first such price: a row's number, or side + a column's number.
        place: u64,
    },
    /// 25: a slip has not the length, trailer, edition, side or number of rows that its sheet wants, or it states another
    /// total than its pairing has.
    SlipWrong,
    /// 26: a row has a column that is barred to it.
    BarredPair {
        /// The first such row.
        row: u64,
    },
    /// 27: the price of a spare column is below that of a column that is used.
    SpareBelow {
        /// The first such spare column.
        column: u64,
    },
    /// 28: the sheet in [`Pieces`](crate::Pieces) has ended.
    SheetEnded,
    /// A number without a meaning, which the archive never answers.
    Other {
        /// The number.
        number: u8,
        /// The place.
        place: u64,
    },
}

impl Refusal {
    /// Reads the archive's answer, 0 or number + 256*place, and the slack that the checker answers with it.
    pub(crate) fn read(code: u64, slack: i64) -> Result<(), Refusal> {
        let (number, place) = ((code % 256) as u8, code / 256);
        let refusal = match (number, place) {
            (0, 0) => return Ok(()),
            (1, 0) => Refusal::SideOver,
            (2, 0) => Refusal::CostsLength,
            (3, 1) => Refusal::ListLength(List::Columns),
            (3, 2) => Refusal::ListLength(List::Rows),
            (3, 3) => Refusal::ListLength(List::RowPrices),
            (3, 4) => Refusal::ListLength(List::ColumnPrices),
            (3, 5) => Refusal::ListLength(List::Bars),
            (3, 6) => Refusal::ListLength(List::Second),
            (4, 1) => Refusal::RoomShort(Room::Indices),
            (4, 2) => Refusal::RoomShort(Room::Numbers),
            (5, _) => Refusal::CostOutside { place },
            (6, _) => Refusal::ColumnOutside { row: place },
            (7, _) => Refusal::RowNotNamed { row: place },
            (8, _) => Refusal::PriceOutside { place },
            (9, _) => Refusal::PricesOverCost { place, slack },
            (10, _) => Refusal::PricesNotCost { row: place, slack },
            (11, 0) => Refusal::NoMark,
            (12, 0) => Refusal::EditionUnknown,
            (13, 0) => Refusal::SheetSideOver,
            (14, 0) => Refusal::DistanceWrong,
            (15, 0) => Refusal::DistancePastBytes,
            (16, 0) => Refusal::SlipRoomShort,
            (17, 0) => Refusal::SheetOver,
            (18, 0..=2) => Refusal::ReferenceLength { reference: place },
            (19, _) => Refusal::CharacterUnknown { place },
            (20, 0) => Refusal::NoPairing { rows: 0 },
            (21, _) => Refusal::NoteUnfit { place },
            (22, _) => Refusal::BarsPastSide { row: place },
            (23, _) => Refusal::RowsOver { rows: place },
            (24, _) => Refusal::PriceFar { place },
            (25, 0) => Refusal::SlipWrong,
            (26, _) => Refusal::BarredPair { row: place },
            (27, _) => Refusal::SpareBelow { column: place },
            (28, 0) => Refusal::SheetEnded,
            _ => Refusal::Other { number, place },
        };
        Err(refusal)
    }

    /// Reads the archive's answer to a sheet: with 20 the slip's room begins with the rows that show it.
    pub(crate) fn read_sheet(code: u64, slip: &[u8]) -> Result<(), Refusal> {
        match (Refusal::read(code, 0), slip.first_chunk()) {
            (Err(Refusal::NoPairing { .. }), Some(&rows)) => {
                Err(Refusal::NoPairing { rows: u64::from_le_bytes(rows) })
            }
            (answer, _) => answer,
        }
    }

    /// The refusal's number.
    pub fn number(&self) -> u8 {
        match *self {
            Refusal::SideOver => 1,
            Refusal::CostsLength => 2,
            Refusal::ListLength(_) => 3,
            Refusal::RoomShort(_) => 4,
            Refusal::CostOutside { .. } => 5,
            Refusal::ColumnOutside { .. } => 6,
            Refusal::RowNotNamed { .. } => 7,
            Refusal::PriceOutside { .. } => 8,
            Refusal::PricesOverCost { .. } => 9,
            Refusal::PricesNotCost { .. } => 10,
            Refusal::NoMark => 11,
            Refusal::EditionUnknown => 12,
            Refusal::SheetSideOver => 13,
            Refusal::DistanceWrong => 14,
            Refusal::DistancePastBytes => 15,
            Refusal::SlipRoomShort => 16,
            Refusal::SheetOver => 17,
            Refusal::ReferenceLength { .. } => 18,
            Refusal::CharacterUnknown { .. } => 19,
            Refusal::NoPairing { .. } => 20,
            Refusal::NoteUnfit { .. } => 21,
            Refusal::BarsPastSide { .. } => 22,
            Refusal::RowsOver { .. } => 23,
            Refusal::PriceFar { .. } => 24,
            Refusal::SlipWrong => 25,
            Refusal::BarredPair { .. } => 26,
            Refusal::SpareBelow { .. } => 27,
            Refusal::SheetEnded => 28,
            Refusal::Other { number, .. } => number,
        }
    }

    /// The refusal's place; 0 where none is named.
    pub fn place(&self) -> u64 {
        match *self {
            Refusal::ListLength(list) => list as u64 + 1,
            Refusal::RoomShort(room) => room as u64 + 1,
            Refusal::CostOutside { place }
            | Refusal::PriceOutside { place }
            | Refusal::PriceFar { place }
            | Refusal::PricesOverCost { place, .. }
            | Refusal::CharacterUnknown { place }
            | Refusal::NoteUnfit { place }
            | Refusal::Other { place, .. } => place,
            Refusal::ColumnOutside { row }
            | Refusal::RowNotNamed { row }
            | Refusal::PricesNotCost { row, .. }
            | Refusal::BarsPastSide { row }
            | Refusal::BarredPair { row } => row,
            Refusal::ReferenceLength { reference } => reference,
            Refusal::RowsOver { rows } => rows,
            Refusal::SpareBelow { column } => column,
            _ => 0,
        }
    }

    /// The cost of the place named minus both its prices: below 0 with a 9, above 0 with a 10, and 0 with all others and
    /// in an [`audit`](crate::audit).
    pub fn slack(&self) -> i64 {
        match *self {
            Refusal::PricesOverCost { slack, .. } | Refusal::PricesNotCost { slack, .. } => slack,
            _ => 0,
        }
    }
}

impl fmt::Display for Refusal {
    fn fmt(&self, out: &mut fmt::Formatter<'_>) -> fmt::Result {
        let meaning = match self {
            Refusal::SideOver => {
                "the side is over 4,096, with bars or fewer rows over 64, or for a plain run over 8"
            }
            Refusal::CostsLength => "there are not exactly side * side costs",
            Refusal::ListLength(_) => "a list's length does not fit the side",
            Refusal::RoomShort(_) => "a work room is too short",
            Refusal::CostOutside { .. } => {
                "a cost lies outside -1,000,000,000..1,000,000,000, or with bars outside -1,000,000..1,000,000"
            }
            Refusal::ColumnOutside { .. } => "a listed column or the row to repair is not below the side",
            Refusal::RowNotNamed { .. } => "the column of a row does not name that row back, or is used twice",
            Refusal::PriceOutside { .. } => "a price lies outside -10,000,000,000..10,000,000,000",
            Refusal::PricesOverCost { .. } => "row price + column price is over the cost",
            Refusal::PricesNotCost { .. } => "on a pair row price + column price is not the cost",
            Refusal::NoMark => "the sheet is under 12 bytes or its mark is wrong",
            Refusal::EditionUnknown => "the sheet's edition is not 1, 2 or 3",
            Refusal::SheetSideOver => "the sheet's side is over 64",
            Refusal::DistanceWrong => "the sheet's distance is not that of its edition and side",
            Refusal::DistancePastBytes => "the sheet's distance exceeds the bytes before the trailer",
            Refusal::SlipRoomShort => "the room is under the slip's bytes or the sheet's",
            Refusal::SheetOver => "the sheet is over 65,536 bytes",
            Refusal::ReferenceLength { .. } => {
                "a reference is not of 12 characters, or two lists of them do not fit"
            }
            Refusal::CharacterUnknown { .. } => "a character of a reference is not from 0-9 and A-Z",
            Refusal::NoPairing { .. } => "no pairing is without a barred pair",
            Refusal::NoteUnfit { .. } => "the sheet's note is over 4,096 bytes or has a byte outside 32 to 126",
            Refusal::BarsPastSide { .. } => "a row's bars have a bit set from the side up",
            Refusal::RowsOver { .. } => {
                "there are more rows than columns, or a sheet of edition 3 has under 14 bytes"
            }
            Refusal::PriceFar { .. } => "a price lies outside -7,000,000,000..7,000,000,000",
            Refusal::SlipWrong => {
                "the slip is not of its sheet's form, or states another total than its pairing has"
            }
            Refusal::BarredPair { .. } => "a row has a column that is barred to it",
            Refusal::SpareBelow { .. } => "the price of a spare column is below that of a used one",
            Refusal::SheetEnded => "the sheet has ended",
            Refusal::Other { .. } => "a number without a meaning",
        };
        write!(out, "refused {} place {}: {meaning}", self.number(), self.place())?;
        match *self {
            _ if matches!(self.number(), 9 | 10) && self.slack() == 0 => Ok(()),
            Refusal::PricesOverCost { place, slack } => {
                write!(out, "; place {place}: {} over its cost", slack.unsigned_abs())
            }
            Refusal::PricesNotCost { row, slack } => write!(out, "; row {row}: {slack} below its cost"),
            Refusal::NoPairing { rows } => {
                write!(out, "; too few columns are allowed to rows")?;
                (0..64).filter(|row| rows >> row & 1 == 1).try_for_each(|row| write!(out, " {row}"))
            }
            _ => Ok(()),
        }
    }
}

impl std::error::Error for Refusal {}
