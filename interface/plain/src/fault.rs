use std::fmt;

/// What stands in place of a byte that is not known.
#[derive(Clone, Copy, Debug, PartialEq, Eq)]
pub struct Mark {
    pub place: u16,
    pub layers: u8,
}

/// Why the text of a sheet is refused.
#[derive(Clone, Copy, Debug, PartialEq, Eq)]
pub enum SheetFault {
    FirstLine,
    Line,
    Word,
    Column,
    NameTwice,
    RowCount,
    Depth,
}

/// Why a message is refused.
#[derive(Clone, Copy, Debug, PartialEq, Eq)]
pub enum LayingFault {
    PastEnd,
    NoValue,
    Void,
    ListFull,
    Count,
    Lost(Mark),
}

/// Everything that can be wrong with an input, with what is told of it.
#[derive(Clone, Copy, Debug, PartialEq, Eq)]
pub enum Fault {
    /// Lines count from 1.
    Sheet { fault: SheetFault, line: usize },
    /// The place of the bad pair's first character.
    Capture { place: usize },
    /// The row in front, the place reached and the number of pieces placed.
    Laying { fault: LayingFault, row: usize, place: usize, pieces: usize },
}

impl Fault {
    pub fn number(&self) -> u8 {
        match self {
            Fault::Sheet { fault, .. } => match fault {
                SheetFault::FirstLine => 1,
                SheetFault::Line => 2,
                SheetFault::Word => 3,
                SheetFault::Column => 4,
                SheetFault::NameTwice => 5,
                SheetFault::RowCount => 6,
                SheetFault::Depth => 7,
            },
            Fault::Laying { fault, .. } => match fault {
                LayingFault::PastEnd => 11,
                LayingFault::NoValue => 12,
                LayingFault::Void => 13,
                LayingFault::ListFull => 14,
                LayingFault::Count => 15,
                LayingFault::Lost(_) => 16,
            },
            Fault::Capture { .. } => 32,
        }
    }

    /// The values of the line, row, place, pieces, lost and layers columns.
    pub(crate) fn values(&self) -> [Option<usize>; 6] {
        match *self {
            Fault::Sheet { line, .. } => [Some(line), None, None, None, None, None],
            Fault::Capture { place } => [None, None, Some(place), None, None, None],
            Fault::Laying { fault, row, place, pieces } => {
                let mark = match fault {
                    LayingFault::Lost(mark) => Some(mark),
                    _ => None,
                };
                [
                    None,
                    Some(row),
                    Some(place),
                    Some(pieces),
                    mark.map(|mark| mark.place.into()),
                    mark.map(|mark| mark.layers.into()),
                ]
            }
        }
    }
}

impl fmt::Display for Fault {
    fn fmt(&self, f: &mut fmt::Formatter<'_>) -> fmt::Result {
        write!(f, "refused with {}", self.number())
    }
}

impl std::error::Error for Fault {}
