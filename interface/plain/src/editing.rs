use crate::fault::Fault;
use crate::laying::{lay_bytes, Piece};
use crate::path::Path;
use crate::sheet::{check, Sheet, MAX_ROWS};

pub const NO_SUCH_PIECE: u8 = 22;
pub const WRONG_WIDTH: u8 = 23;
pub const BROKEN_READING: u8 = 24;

/// The piece with a path as it is printed.
pub fn find<'a>(sheet: &Sheet, pieces: &'a [Piece], path: &[u8]) -> Option<&'a Piece> {
    let path = Path::parse(sheet, path)?;
    pieces.iter().find(|piece| piece.path == path)
}

/// Puts new bytes into the piece with a path, if the reading stays as it is. Answers 0, or the number of the refusal;
/// then the message is as it was.
pub fn put(sheet: &[u8], message: &mut [u8], places: usize, path: &[u8], bytes: &[u8]) -> u8 {
    match try_put(sheet, message, places, path, bytes) {
        Ok(()) => 0,
        Err(number) => number,
    }
}

fn try_put(sheet: &[u8], message: &mut [u8], places: usize, path: &[u8], bytes: &[u8]) -> Result<(), u8> {
    let number = |fault: Fault| fault.number();
    let sheet = check(sheet, MAX_ROWS).map_err(number)?;
    let pieces = lay_bytes(&sheet, message, places).map_err(number)?;
    let piece = find(&sheet, &pieces, path).ok_or(NO_SUCH_PIECE)?;
    if bytes.len() != piece.range().len() {
        return Err(WRONG_WIDTH);
    }

    let old = message[piece.range()].to_vec();
    message[piece.range()].copy_from_slice(bytes);
    if lay_bytes(&sheet, message, places).is_ok_and(|changed| changed == pieces) {
        Ok(())
    } else {
        message[piece.range()].copy_from_slice(&old);
        Err(BROKEN_READING)
    }
}
