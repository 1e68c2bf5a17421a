//! The proved reader of analyser messages, called from Rust.
//!
//! [`check`] checks the text of a format sheet, [`list`] lists a message by a sheet, and [`put`] puts a value into a
//! message where its reading stays the same. The work is done by libbalskif.a, whose functions are proved for all inputs;
//! what is here only hands slices over as C wants them. A message counts up to its 65,535th byte.
//!
//! # Stack
//!
//! [`list`] and [`put`] take up to 400 KB of stack with at most [`PLACES_SHORT`] places, and up to 3 MB with more. The main
//! thread has enough by default, but [`std::thread::spawn`] and `cargo test` give 2 MB: with more places call from a thread
//! made with [`std::thread::Builder::stack_size`] there. As with any function of Rust, a stack that is too small ends the
//! program.

use std::error::Error;
use std::fmt;

/// Piece lists of so many places are made quickly.
pub const PLACES_SHORT: usize = 2048;

/// No piece list has more places; a larger number counts as this one.
pub const PLACES_LONG: usize = 16_384;

/// Why a text is no sheet.
#[derive(Clone, Copy, Debug, PartialEq, Eq)]
pub struct SheetFault {
    /// 1 to 7.
    pub number: u8,
    /// The line of the fault, from 1.
    pub line: u64,
}

/// The buffer is too short for the text.
#[derive(Clone, Copy, Debug, PartialEq, Eq)]
pub struct NoRoom;

/// Why a value is not put.
#[derive(Clone, Copy, Debug, PartialEq, Eq)]
pub struct Refusal {
    /// 1 to 7 of the sheet, 11 to 15 of the message, 22 to 24 of the put.
    pub number: u8,
}

/// Checks a sheet.
///
/// # Errors
///
/// The first fault of the sheet with its line.
///
/// ```
/// assert_eq!(balskif::check(b"row,word,name,one,two,three\n0,u8,-,-,-,-\n"), Ok(()));
/// assert_eq!(balskif::check(b""), Err(balskif::SheetFault { number: 1, line: 1 }));
/// ```
pub fn check(sheet: &[u8]) -> Result<(), SheetFault> {
    let mut line = 0;
    // SAFETY: the sheet is a slice, and the line a place of its own.
    let number = unsafe { c::balskif_check(sheet.as_ptr(), sheet.len(), &mut line) };
    match number {
        0 => Ok(()),
        number => Err(SheetFault { number, line }),
    }
}

/// Lists a message by a sheet, with a piece list of so many places. Answers the text, which stands at the front of the
/// buffer; what is behind it stays as it was. A refusal of the sheet or of the message is a text of two lines.
///
/// # Errors
///
/// The text is longer than the buffer, which stays as it was.
pub fn list<'out>(sheet: &[u8], message: &[u8], places: usize, out: &'out mut [u8]) -> Result<&'out [u8], NoRoom> {
    // SAFETY: sheet, message and buffer are slices, and nothing else refers to the buffer.
    let length = unsafe {
        c::balskif_list(
            sheet.as_ptr(),
            sheet.len(),
            message.as_ptr(),
            message.len(),
            places,
            out.as_mut_ptr(),
            out.len(),
        )
    };
    match length {
        0 => Err(NoRoom),
        length => Ok(&out[..length]),
    }
}

/// Puts a value to the piece of a message that has the path, as `root.pts[1]`, by a sheet, with a piece list of so many
/// places. The value then stands in the bytes of that piece, and nothing else has changed.
///
/// # Errors
///
/// The number of the refusal; no byte of the message has changed.
pub fn put(sheet: &[u8], message: &mut [u8], places: usize, path: &[u8], value: &[u8]) -> Result<(), Refusal> {
    // SAFETY: all four are slices, and nothing else refers to the message.
    let number = unsafe {
        c::balskif_put(
            sheet.as_ptr(),
            sheet.len(),
            message.as_mut_ptr(),
            message.len(),
            places,
            path.as_ptr(),
            path.len(),
            value.as_ptr(),
            value.len(),
        )
    };
    match number {
        0 => Ok(()),
        number => Err(Refusal { number }),
    }
}

impl fmt::Display for SheetFault {
    fn fmt(&self, f: &mut fmt::Formatter<'_>) -> fmt::Result {
        write!(f, "refused with {} in line {}", self.number, self.line)
    }
}

impl fmt::Display for NoRoom {
    fn fmt(&self, f: &mut fmt::Formatter<'_>) -> fmt::Result {
        f.write_str("the text is longer than the buffer")
    }
}

impl fmt::Display for Refusal {
    fn fmt(&self, f: &mut fmt::Formatter<'_>) -> fmt::Result {
        write!(f, "refused with {}", self.number)
    }
}

impl Error for SheetFault {}
impl Error for NoRoom {}
impl Error for Refusal {}

/// As balskif.h declares them.
mod c {
    extern "C" {
        pub fn balskif_check(sheet: *const u8, sheet_length: usize, line: *mut u64) -> u8;

        pub fn balskif_list(
            sheet: *const u8,
            sheet_length: usize,
            message: *const u8,
            message_length: usize,
            places: usize,
            out: *mut u8,
            room: usize,
        ) -> usize;

        pub fn balskif_put(
            sheet: *const u8,
            sheet_length: usize,
            message: *mut u8,
            message_length: usize,
            places: usize,
            path: *const u8,
            path_length: usize,
            value: *const u8,
            value_length: usize,
        ) -> u8;
    }
}
