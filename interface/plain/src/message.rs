use crate::fault::{Fault, Mark};

/// A message has no more cells than this.
pub const MAX_CELLS: usize = 65_535;

#[derive(Clone, Copy, Debug, PartialEq, Eq)]
pub enum Cell {
    Byte(u8),
    Lost(Mark),
}

/// What can be laid: plain bytes, or cells of which some may be lost.
pub trait Message {
    /// The number of cells, at most [`MAX_CELLS`].
    fn cells(&self) -> usize;

    /// The cell at a place below [`Message::cells`].
    fn cell(&self, place: usize) -> Cell;
}

impl Message for [u8] {
    #[inline]
    fn cells(&self) -> usize {
        self.len().min(MAX_CELLS)
    }

    #[inline]
    fn cell(&self, place: usize) -> Cell {
        Cell::Byte(self[place])
    }
}

impl Message for [Cell] {
    #[inline]
    fn cells(&self) -> usize {
        self.len().min(MAX_CELLS)
    }

    #[inline]
    fn cell(&self, place: usize) -> Cell {
        self[place]
    }
}

/// The cells that a text of hexadecimal pairs and `--` stands for.
pub fn open_capture(text: &[u8]) -> Result<Vec<Cell>, Fault> {
    let mut cells = Vec::with_capacity(text.len() / 2);
    for (k, pair) in text.chunks(2).enumerate() {
        let cell = match pair {
            b"--" => Some(Cell::Lost(Mark { place: k as u16, layers: 0 })),
            &[high, low] => hex_byte(high, low).map(Cell::Byte),
            _ => None,
        };
        let cell = cell.ok_or(Fault::Capture { place: 2 * k })?;
        if k < MAX_CELLS {
            cells.push(cell);
        }
    }
    Ok(cells)
}

fn hex_byte(high: u8, low: u8) -> Option<u8> {
    let digit = |character: u8| char::from(character).to_digit(16);
    Some((digit(high)? * 16 + digit(low)?) as u8)
}
