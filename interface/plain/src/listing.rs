use crate::fault::Fault;
use crate::laying::{lay_into, Piece};
use crate::message::{open_capture, Cell, Message};
use crate::path::{Path, Step};
use crate::sheet::{check, Row, Sheet, MAX_ROWS};

/// How many pieces the lister holds.
pub const LISTER_PLACES: usize = 512;

/// No more of an input is looked at.
const MAX_INPUT: usize = 60_000;

/// The listing of an input: a sheet, an empty line, and a capture.
pub fn list(input: &[u8], places: usize) -> Vec<u8> {
    let (sheet, capture) = split_input(&input[..input.len().min(MAX_INPUT)]);
    let read = || {
        let sheet = check(sheet, MAX_ROWS)?;
        let message = open_capture(capture)?;
        listing(&sheet, message.as_slice(), places)
    };
    read().unwrap_or_else(|fault| fault_lines(&fault))
}

/// The listing of a message of bytes.
pub fn list_message(sheet: &[u8], message: &[u8], places: usize) -> Vec<u8> {
    let read = || listing(&check(sheet, MAX_ROWS)?, message, places);
    read().unwrap_or_else(|fault| fault_lines(&fault))
}

/// Cuts an input at its first empty line.
fn split_input(input: &[u8]) -> (&[u8], &[u8]) {
    let is_empty_line = |k: usize| input[k] == b'\n' && (k == 0 || input[k - 1] == b'\n');
    match (0..input.len()).find(|&k| is_empty_line(k)) {
        None => (input, &[]),
        Some(k) => {
            let capture = &input[k + 1..];
            (&input[..k], capture.strip_suffix(b"\n").unwrap_or(capture))
        }
    }
}

fn listing<M: Message + ?Sized>(sheet: &Sheet, message: &M, places: usize) -> Result<Vec<u8>, Fault> {
    let mut pieces = Vec::new();
    lay_into(sheet, message, places, &mut pieces)?;
    let mut out = Vec::with_capacity(32 * pieces.len() + 2 * message.cells() + 64);
    write_listing(sheet, message, &pieces, &mut out);
    Ok(out)
}

/// Appends the lines of laid pieces and of the rest behind them.
pub fn write_listing<M: Message + ?Sized>(sheet: &Sheet, message: &M, pieces: &[Piece], out: &mut Vec<u8>) {
    out.extend_from_slice(b"path,word,place,width,bytes\n");
    for piece in pieces {
        let Row::Base(base) = sheet.row(piece.row) else { unreachable!("a piece of no base row") };
        push_path(sheet, &piece.path, out);
        out.push(b',');
        out.extend_from_slice(base.word().as_bytes());
        push_cells(message, piece.place.into(), piece.width.into(), out);
    }
    let covered = pieces.last().map_or(0, |piece| piece.range().end);
    out.extend_from_slice(b"rest,-");
    push_cells(message, covered, message.cells() - covered, out);
}

fn fault_lines(fault: &Fault) -> Vec<u8> {
    let mut out = b"fault,line,row,place,pieces,lost,layers\n".to_vec();
    push_number(fault.number().into(), &mut out);
    for value in fault.values() {
        out.push(b',');
        match value {
            Some(number) => push_number(number, &mut out),
            None => out.push(b'-'),
        }
    }
    out.push(b'\n');
    out
}

fn push_path(sheet: &Sheet, path: &Path, out: &mut Vec<u8>) {
    out.extend_from_slice(b"root");
    for step in path.steps() {
        match *step {
            Step::Field(name) => {
                out.push(b'.');
                out.extend_from_slice(sheet.name(name));
            }
            Step::Index(number) => {
                out.push(b'[');
                push_number(number.into(), out);
                out.push(b']');
            }
        }
    }
}

/// Place, width and bytes, to the end of the line.
fn push_cells<M: Message + ?Sized>(message: &M, place: usize, width: usize, out: &mut Vec<u8>) {
    out.push(b',');
    push_number(place, out);
    out.push(b',');
    push_number(width, out);
    out.push(b',');
    if width == 0 {
        out.push(b'-');
    }
    for k in place..place + width {
        match message.cell(k) {
            Cell::Byte(byte) => out.extend_from_slice(&[hex_digit(byte >> 4), hex_digit(byte & 15)]),
            Cell::Lost(_) => out.extend_from_slice(b"--"),
        }
    }
    out.push(b'\n');
}

fn hex_digit(value: u8) -> u8 {
    b"0123456789abcdef"[usize::from(value)]
}

fn push_number(mut number: usize, out: &mut Vec<u8>) {
    if number < 10 {
        out.push(b'0' + number as u8);
        return;
    }
    let mut digits = [0; 20];
    let mut first = digits.len();
    loop {
        first -= 1;
        digits[first] = b'0' + (number % 10) as u8;
        number /= 10;
        if number == 0 {
            break;
        }
    }
    out.extend_from_slice(&digits[first..]);
}
