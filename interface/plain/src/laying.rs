use std::collections::HashMap;
use std::hash::BuildHasherDefault;
use std::ops::Range;

use crate::fault::{Fault, LayingFault};
use crate::message::{Cell, Message};
use crate::path::{Path, Step, StepHasher};
use crate::sheet::{Base, Row, RowId, Sheet};

const MAX_NUMBER: u64 = i64::MAX as u64;
const MAX_COUNT: u64 = 65_535;

/// A base row that has been placed.
#[derive(Clone, Copy, Debug, PartialEq, Eq)]
pub struct Piece {
    pub path: Path,
    pub row: RowId,
    pub place: u16,
    pub width: u8,
}

impl Piece {
    #[inline]
    pub fn range(&self) -> Range<usize> {
        let place = usize::from(self.place);
        place..place + usize::from(self.width)
    }
}

/// Finds the reading of a message, into a list of so many places.
pub fn lay(sheet: &Sheet, message: &[Cell], places: usize) -> Result<Vec<Piece>, Fault> {
    let mut pieces = Vec::new();
    lay_into(sheet, message, places, &mut pieces)?;
    Ok(pieces)
}

/// As [`lay`], over bytes of which none is lost.
pub fn lay_bytes(sheet: &Sheet, message: &[u8], places: usize) -> Result<Vec<Piece>, Fault> {
    let mut pieces = Vec::new();
    lay_into(sheet, message, places, &mut pieces)?;
    Ok(pieces)
}

/// As [`lay`], in place of what the vector holds. After a refusal it holds the pieces placed so far.
pub fn lay_into<M: Message + ?Sized>(
    sheet: &Sheet,
    message: &M,
    places: usize,
    pieces: &mut Vec<Piece>,
) -> Result<(), Fault> {
    pieces.clear();
    pieces.reserve(places.min(message.cells()));
    Matcher {
        sheet,
        message,
        places,
        pieces,
        place: 0,
        path: Path::ROOT,
        open: Vec::new(),
        located: HashMap::default(),
        barren: vec![Barren::default()],
    }
    .lay_type(0)
}

struct Matcher<'a, M: ?Sized> {
    sheet: &'a Sheet,
    message: &'a M,
    places: usize,
    pieces: &'a mut Vec<Piece>,
    place: usize,
    /// Where we are.
    path: Path,
    /// The open records, the innermost last. Each lies on our path, so the number of its steps is enough.
    open: Vec<usize>,
    /// The placed pieces that some location of the sheet could name.
    located: HashMap<Path, usize, BuildHasherDefault<StepHasher>>,
    /// For each number of open records, what placed nothing while just these are open.
    barren: Vec<Barren>,
}

/// Rows that placed nothing after so many pieces. All that they looked at are pieces below records that were open before,
/// since no piece lies below a record that has just been opened; so they place nothing at any other path either.
#[derive(Default)]
struct Barren {
    pieces: usize,
    rows: Vec<RowId>,
}

impl<M: Message + ?Sized> Matcher<'_, M> {
    fn lay_type(&mut self, row: RowId) -> Result<(), Fault> {
        match self.sheet.row(row) {
            Row::Base(base) => self.lay_base(row, base),
            Row::Void => Err(self.fault(row, LayingFault::Void)),
            Row::Rec { .. } | Row::Arr { .. } if self.sheet.is_idle(row) => Ok(()),
            _ if self.is_barren(row) => Ok(()),
            _ => {
                let before = self.pieces.len();
                self.lay_parts(row)?;
                if self.pieces.len() == before {
                    self.note_barren(row);
                }
                Ok(())
            }
        }
    }

    fn is_barren(&self, row: RowId) -> bool {
        let Barren { pieces, rows } = &self.barren[self.open.len()];
        *pieces == self.pieces.len() && rows.contains(&row)
    }

    fn note_barren(&mut self, row: RowId) {
        let Barren { pieces, rows } = &mut self.barren[self.open.len()];
        if *pieces != self.pieces.len() {
            *pieces = self.pieces.len();
            rows.clear();
        }
        rows.push(row);
    }

    fn lay_parts(&mut self, row: RowId) -> Result<(), Fault> {
        match self.sheet.row(row) {
            Row::Rec { first } => self.lay_record(first),
            Row::Arr { element, count } => self.lay_array(row, element, count),
            Row::Alt { truth, yes, no } => match self.truth(truth) {
                Ok(true) => self.lay_type(yes),
                Ok(false) => self.lay_type(no),
                Err(fault) => Err(self.fault(row, fault)),
            },
            _ => unreachable!("only types are laid"),
        }
    }

    fn lay_base(&mut self, row: RowId, base: Base) -> Result<(), Fault> {
        let width = base.width();
        if self.place + width > self.message.cells() {
            return Err(self.fault(row, LayingFault::PastEnd));
        }
        if self.pieces.len() >= self.places {
            return Err(self.fault(row, LayingFault::ListFull));
        }
        if self.sheet.is_located(self.path.steps().last()) {
            self.located.insert(self.path, self.pieces.len());
        }
        self.pieces.push(Piece { path: self.path, row, place: self.place as u16, width: width as u8 });
        self.place += width;
        Ok(())
    }

    fn lay_record(&mut self, first: Option<RowId>) -> Result<(), Fault> {
        let sheet = self.sheet;
        self.open.push(self.path.len());
        self.barren.resize_with(self.barren.len().max(self.open.len() + 1), Barren::default);
        self.barren[self.open.len()].rows.clear();
        for field in sheet.fields(first) {
            self.path.push(Step::Field(field.name));
            self.lay_type(field.kind)?;
            self.path.pop();
        }
        self.open.pop();
        Ok(())
    }

    fn lay_array(&mut self, row: RowId, element: RowId, count: RowId) -> Result<(), Fault> {
        let count = self.number(count).map_err(|fault| self.fault(row, fault))?;
        if count > MAX_COUNT {
            return Err(self.fault(row, LayingFault::Count));
        }
        for index in 0..count as u16 {
            let before = self.pieces.len();
            self.path.push(Step::Index(index));
            self.lay_type(element)?;
            self.path.pop();
            if self.pieces.len() == before {
                // The next element would meet the same pieces again, and place nothing either.
                break;
            }
        }
        Ok(())
    }

    fn fault(&self, row: RowId, fault: LayingFault) -> Fault {
        Fault::Laying { fault, row: row.into(), place: self.place, pieces: self.pieces.len() }
    }

    // Numbers and truths

    fn number(&self, row: RowId) -> Result<u64, LayingFault> {
        match self.sheet.row(row) {
            Row::Lit(number) => Ok(number),
            Row::Loc { from } => self.read(self.locate(from)?),
            Row::Add(left, right) => {
                let (left, right) = (self.number(left)?, self.number(right)?);
                limited(left.checked_add(right))
            }
            Row::Mul(left, right) => {
                let (left, right) = (self.number(left)?, self.number(right)?);
                limited(left.checked_mul(right))
            }
            _ => unreachable!("no number"),
        }
    }

    fn truth(&self, row: RowId) -> Result<bool, LayingFault> {
        // Both sides are worked out, whatever the left one says.
        match self.sheet.row(row) {
            Row::True => Ok(true),
            Row::False => Ok(false),
            Row::Bloc { from } => {
                let piece = self.locate(from)?;
                match self.sheet.row(piece.row) {
                    Row::Base(Base::Bool) => Ok(self.read(piece)? != 0),
                    _ => Err(LayingFault::NoValue),
                }
            }
            Row::Not(inner) => Ok(!self.truth(inner)?),
            Row::And(left, right) => Ok(self.truth(left)? & self.truth(right)?),
            Row::Or(left, right) => Ok(self.truth(left)? | self.truth(right)?),
            Row::Eq(left, right) => Ok(self.number(left)? == self.number(right)?),
            Row::Lt(left, right) => Ok(self.number(left)? < self.number(right)?),
            _ => unreachable!("no truth"),
        }
    }

    /// The piece that a location names.
    fn locate(&self, from: RowId) -> Result<&Piece, LayingFault> {
        let Row::From { climb, step } = self.sheet.row(from) else { unreachable!("no location") };
        let start = self.open.iter().rev().nth(climb.into()).ok_or(LayingFault::NoValue)?;
        let mut path = self.path.prefix(*start);
        // False once no piece can have the path. The numbers that follow may still refuse on their own.
        let mut is_path = true;
        let mut next = step;
        while let Some(row) = next {
            let step;
            (step, next) = match self.sheet.row(row) {
                Row::Dot { name, next } => (Some(Step::Field(name)), next),
                Row::Idx { number, next } => (Step::index(self.number(number)?), next),
                _ => unreachable!("no step"),
            };
            is_path &= step.is_some_and(|step| path.try_push(step));
        }
        match self.located.get(&path) {
            Some(&k) if is_path => Ok(&self.pieces[k]),
            _ => Err(LayingFault::NoValue),
        }
    }

    /// The cells of a piece as a number. A lost cell is told even where the number is too large.
    fn read(&self, piece: &Piece) -> Result<u64, LayingFault> {
        let mut number = 0u64;
        for place in piece.range() {
            match self.message.cell(place) {
                Cell::Byte(byte) => number = number << 8 | u64::from(byte),
                Cell::Lost(mark) => return Err(LayingFault::Lost(mark)),
            }
        }
        limited(Some(number))
    }
}

fn limited(number: Option<u64>) -> Result<u64, LayingFault> {
    number.filter(|&number| number <= MAX_NUMBER).ok_or(LayingFault::NoValue)
}
