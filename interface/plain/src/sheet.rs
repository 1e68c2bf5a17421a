use crate::fault::{Fault, SheetFault};

pub const MAX_ROWS: usize = 256;

const FIRST_LINE: &[u8] = b"row,word,name,one,two,three\n";
const MAX_NAME: usize = 16;
const MAX_NUMBER: u64 = i64::MAX as u64;
const MAX_CLIMB: u64 = 8;
const MAX_DEPTH: u16 = 8;
const MAX_COUNT: u64 = 65_535;

/// The number of a row, from 0.
pub type RowId = u16;

/// A name of the sheet. Equal names have equal numbers.
pub type NameId = u16;

#[derive(Clone, Copy, Debug, PartialEq, Eq)]
pub enum Base {
    Bool,
    Char,
    U8,
    U16,
    I16,
    U32,
    I32,
    Float,
    U64,
    I64,
    Double,
}

impl Base {
    #[inline]
    pub fn width(self) -> usize {
        match self {
            Base::Bool | Base::Char | Base::U8 => 1,
            Base::U16 | Base::I16 => 2,
            Base::U32 | Base::I32 | Base::Float => 4,
            Base::U64 | Base::I64 | Base::Double => 8,
        }
    }

    pub fn word(self) -> &'static str {
        match self {
            Base::Bool => "bool",
            Base::Char => "char",
            Base::U8 => "u8",
            Base::U16 => "u16",
            Base::I16 => "i16",
            Base::U32 => "u32",
            Base::I32 => "i32",
            Base::Float => "float",
            Base::U64 => "u64",
            Base::I64 => "i64",
            Base::Double => "double",
        }
    }
}

#[derive(Clone, Copy, Debug, PartialEq, Eq)]
pub struct Field {
    pub name: NameId,
    pub kind: RowId,
    pub next: Option<RowId>,
}

/// A row whose columns keep the rule of its word.
#[derive(Clone, Copy, Debug, PartialEq, Eq)]
pub enum Row {
    Base(Base),
    Void,
    Rec { first: Option<RowId> },
    Arr { element: RowId, count: RowId },
    Alt { truth: RowId, yes: RowId, no: RowId },
    Fld(Field),
    Lit(u64),
    Loc { from: RowId },
    Add(RowId, RowId),
    Mul(RowId, RowId),
    True,
    False,
    Bloc { from: RowId },
    Not(RowId),
    And(RowId, RowId),
    Or(RowId, RowId),
    Eq(RowId, RowId),
    Lt(RowId, RowId),
    From { climb: u8, step: Option<RowId> },
    Dot { name: NameId, next: Option<RowId> },
    Idx { number: RowId, next: Option<RowId> },
}

/// A sheet that keeps all the rules.
#[derive(Clone, Debug)]
pub struct Sheet {
    rows: Vec<Row>,
    names: Vec<Vec<u8>>,
    /// By row: a type that places nothing and looks at nothing.
    idle: Vec<bool>,
    /// By name: some location ends with a step into a field of that name.
    located_names: Vec<bool>,
    /// Some location ends with a step into an element.
    located_elements: bool,
}

impl Sheet {
    pub fn rows(&self) -> &[Row] {
        &self.rows
    }

    #[inline]
    pub fn row(&self, row: RowId) -> Row {
        self.rows[usize::from(row)]
    }

    #[inline]
    pub fn name(&self, name: NameId) -> &[u8] {
        &self.names[usize::from(name)]
    }

    pub fn name_id(&self, name: &[u8]) -> Option<NameId> {
        self.names.iter().position(|known| known == name).map(|k| k as NameId)
    }

    /// The fields of a chain in order.
    pub fn fields(&self, first: Option<RowId>) -> impl Iterator<Item = Field> + '_ {
        chain(&self.rows, first)
    }

    #[inline]
    pub(crate) fn is_idle(&self, row: RowId) -> bool {
        self.idle[usize::from(row)]
    }

    /// Whether a location could name a piece with that last step.
    #[inline]
    pub(crate) fn is_located(&self, last: Option<&crate::Step>) -> bool {
        match last {
            None => false,
            Some(crate::Step::Field(name)) => self.located_names[usize::from(*name)],
            Some(crate::Step::Index(_)) => self.located_elements,
        }
    }
}

/// Reads the text of a sheet into a table of so many rows.
pub fn check(sheet: &[u8], table: usize) -> Result<Sheet, Fault> {
    let lines = read_lines(sheet, table)?;

    let mut names = Vec::new();
    let mut rows = Vec::with_capacity(lines.len());
    for (k, line) in lines.iter().enumerate() {
        let columns = Columns { lines: &lines, row: k };
        match columns.to_row(line, &mut names) {
            Some(row) if k > 0 || line.word.family() == Family::Type => rows.push(row),
            _ => return Err(fault_at(SheetFault::Column, k)),
        }
    }

    if let Some(k) = rows.iter().position(|row| has_name_twice(&rows, row, names.len())) {
        return Err(fault_at(SheetFault::NameTwice, k));
    }
    if let Some(k) = depths(&rows).iter().position(|&depth| depth > MAX_DEPTH) {
        return Err(fault_at(SheetFault::Depth, k));
    }

    let idle = idle_types(&rows);
    let mut located_names = vec![false; names.len()];
    let mut located_elements = false;
    for row in &rows {
        match *row {
            Row::Dot { name, next: None } => located_names[usize::from(name)] = true,
            Row::Idx { next: None, .. } => located_elements = true,
            _ => {}
        }
    }
    let names = names.into_iter().map(<[u8]>::to_vec).collect();
    Ok(Sheet { rows, names, idle, located_names, located_elements })
}

/// The fault of a row, told with its line.
fn fault_at(fault: SheetFault, row: usize) -> Fault {
    Fault::Sheet { fault, line: row + 2 }
}

// Lines

#[derive(Clone, Copy, PartialEq, Eq)]
enum Value<'a> {
    Blank,
    Number(u64),
    Name(&'a [u8]),
}

impl<'a> Value<'a> {
    fn parse(text: &'a [u8]) -> Option<Value<'a>> {
        match text.first()? {
            b'-' => (text.len() == 1).then_some(Value::Blank),
            b'0'..=b'9' => parse_number(text).map(Value::Number),
            _ => is_name(text).then_some(Value::Name(text)),
        }
    }
}

pub(crate) fn is_name(text: &[u8]) -> bool {
    text.len() <= MAX_NAME
        && text.first().is_some_and(u8::is_ascii_alphabetic)
        && text.iter().all(|&b| b.is_ascii_alphanumeric() || b == b'_')
}

/// A number without leading zeros, up to the limit.
pub(crate) fn parse_number(text: &[u8]) -> Option<u64> {
    if text.is_empty() || (text[0] == b'0' && text.len() > 1) {
        return None;
    }
    let mut number = 0u64;
    for &character in text {
        if !character.is_ascii_digit() {
            return None;
        }
        number = number.checked_mul(10)?.checked_add(u64::from(character - b'0'))?;
    }
    (number <= MAX_NUMBER).then_some(number)
}

struct Line<'a> {
    word: Word,
    name: Value<'a>,
    one: Value<'a>,
    two: Value<'a>,
    three: Value<'a>,
}

fn read_lines(text: &[u8], table: usize) -> Result<Vec<Line<'_>>, Fault> {
    let Some(mut rest) = text.strip_prefix(FIRST_LINE) else {
        return Err(Fault::Sheet { fault: SheetFault::FirstLine, line: 1 });
    };
    if rest.is_empty() {
        return Err(Fault::Sheet { fault: SheetFault::RowCount, line: 1 });
    }
    let mut lines = Vec::new();
    while !rest.is_empty() {
        let row = lines.len();
        if row >= table.min(MAX_ROWS) {
            return Err(fault_at(SheetFault::RowCount, row));
        }
        let Some(end) = rest.iter().position(|&b| b == b'\n') else {
            return Err(fault_at(SheetFault::Line, row));
        };
        lines.push(read_line(&rest[..end], row).map_err(|fault| fault_at(fault, row))?);
        rest = &rest[end + 1..];
    }
    Ok(lines)
}

fn read_line(text: &[u8], row: usize) -> Result<Line<'_>, SheetFault> {
    let mut values = [Value::Blank; 6];
    let mut texts = text.split(|&b| b == b',');
    for value in &mut values {
        *value = texts.next().and_then(Value::parse).ok_or(SheetFault::Line)?;
    }
    let [number, word, name, one, two, three] = values;
    if texts.next().is_some() || number != Value::Number(row as u64) {
        return Err(SheetFault::Line);
    }
    let word = match word {
        Value::Name(text) => Word::parse(text).ok_or(SheetFault::Word)?,
        _ => return Err(SheetFault::Word),
    };
    Ok(Line { word, name, one, two, three })
}

#[derive(Clone, Copy, PartialEq, Eq)]
enum Word {
    Base(Base),
    Void,
    Rec,
    Arr,
    Alt,
    Fld,
    Lit,
    Loc,
    Add,
    Mul,
    True,
    False,
    Bloc,
    Not,
    And,
    Or,
    Eq,
    Lt,
    From,
    Dot,
    Idx,
}

#[derive(Clone, Copy, PartialEq, Eq)]
enum Family {
    Type,
    Field,
    Number,
    Truth,
    From,
    Step,
}

impl Word {
    fn parse(text: &[u8]) -> Option<Word> {
        Some(match text {
            b"bool" => Word::Base(Base::Bool),
            b"char" => Word::Base(Base::Char),
            b"u8" => Word::Base(Base::U8),
            b"u16" => Word::Base(Base::U16),
            b"i16" => Word::Base(Base::I16),
            b"u32" => Word::Base(Base::U32),
            b"i32" => Word::Base(Base::I32),
            b"float" => Word::Base(Base::Float),
            b"u64" => Word::Base(Base::U64),
            b"i64" => Word::Base(Base::I64),
            b"double" => Word::Base(Base::Double),
            b"void" => Word::Void,
            b"rec" => Word::Rec,
            b"arr" => Word::Arr,
            b"alt" => Word::Alt,
            b"fld" => Word::Fld,
            b"lit" => Word::Lit,
            b"loc" => Word::Loc,
            b"add" => Word::Add,
            b"mul" => Word::Mul,
            b"true" => Word::True,
            b"false" => Word::False,
            b"bloc" => Word::Bloc,
            b"not" => Word::Not,
            b"and" => Word::And,
            b"or" => Word::Or,
            b"eq" => Word::Eq,
            b"lt" => Word::Lt,
            b"from" => Word::From,
            b"dot" => Word::Dot,
            b"idx" => Word::Idx,
            _ => return None,
        })
    }

    fn family(self) -> Family {
        match self {
            Word::Base(_) | Word::Void | Word::Rec | Word::Arr | Word::Alt => Family::Type,
            Word::Fld => Family::Field,
            Word::Lit | Word::Loc | Word::Add | Word::Mul => Family::Number,
            Word::True | Word::False | Word::Bloc | Word::Not | Word::And | Word::Or | Word::Eq | Word::Lt => {
                Family::Truth
            }
            Word::From => Family::From,
            Word::Dot | Word::Idx => Family::Step,
        }
    }
}

// Columns

/// The columns of one row, seen among all the lines.
struct Columns<'a> {
    lines: &'a [Line<'a>],
    row: usize,
}

impl<'a> Columns<'a> {
    /// The row that a line states, if its columns keep the rule of its word.
    fn to_row(&self, line: &Line<'a>, names: &mut Vec<&'a [u8]>) -> Option<Row> {
        use Family::*;

        let Line { word, name, one, two, three } = *line;
        let is_named = matches!(word, Word::Fld | Word::Dot);
        let used = match word {
            Word::Base(_) | Word::Void | Word::True | Word::False => 0,
            Word::Rec | Word::Lit | Word::Loc | Word::Bloc | Word::Not | Word::Dot => 1,
            Word::Alt => 3,
            _ => 2,
        };
        if (!is_named && name != Value::Blank) || [one, two, three][used..].iter().any(|&v| v != Value::Blank) {
            return None;
        }

        Some(match word {
            Word::Base(base) => Row::Base(base),
            Word::Void => Row::Void,
            Word::Rec => Row::Rec { first: self.row_or_blank(one, Field)? },
            Word::Arr => Row::Arr { element: self.row(one, Type)?, count: self.row(two, Number)? },
            Word::Alt => {
                Row::Alt { truth: self.row(one, Truth)?, yes: self.row(two, Type)?, no: self.row(three, Type)? }
            }
            Word::Fld => Row::Fld(crate::Field {
                name: intern(name, names)?,
                kind: self.row(one, Type)?,
                next: self.row_or_blank(two, Field)?,
            }),
            Word::Lit => Row::Lit(number(one)?),
            Word::Loc => Row::Loc { from: self.row(one, From)? },
            Word::Add => Row::Add(self.row(one, Number)?, self.row(two, Number)?),
            Word::Mul => Row::Mul(self.row(one, Number)?, self.row(two, Number)?),
            Word::True => Row::True,
            Word::False => Row::False,
            Word::Bloc => Row::Bloc { from: self.row(one, From)? },
            Word::Not => Row::Not(self.row(one, Truth)?),
            Word::And => Row::And(self.row(one, Truth)?, self.row(two, Truth)?),
            Word::Or => Row::Or(self.row(one, Truth)?, self.row(two, Truth)?),
            Word::Eq => Row::Eq(self.row(one, Number)?, self.row(two, Number)?),
            Word::Lt => Row::Lt(self.row(one, Number)?, self.row(two, Number)?),
            Word::From => Row::From {
                climb: number(one).filter(|&climb| climb <= MAX_CLIMB)? as u8,
                step: self.row_or_blank(two, Step)?,
            },
            Word::Dot => Row::Dot { name: intern(name, names)?, next: self.row_or_blank(one, Step)? },
            Word::Idx => Row::Idx { number: self.row(one, Number)?, next: self.row_or_blank(two, Step)? },
        })
    }

    /// A later row of a family.
    fn row(&self, value: Value, family: Family) -> Option<RowId> {
        let row = usize::try_from(number(value)?).ok()?;
        let target = self.lines.get(row)?;
        (row > self.row && target.word.family() == family).then_some(row as RowId)
    }

    fn row_or_blank(&self, value: Value, family: Family) -> Option<Option<RowId>> {
        match value {
            Value::Blank => Some(None),
            _ => self.row(value, family).map(Some),
        }
    }
}

fn number(value: Value) -> Option<u64> {
    match value {
        Value::Number(number) => Some(number),
        _ => None,
    }
}

fn intern<'a>(value: Value<'a>, names: &mut Vec<&'a [u8]>) -> Option<NameId> {
    let Value::Name(name) = value else { return None };
    let id = names.iter().position(|&known| known == name).unwrap_or_else(|| {
        names.push(name);
        names.len() - 1
    });
    Some(id as NameId)
}

// Rules over several rows. Columns name later rows only, so one pass from the last row to the first is enough.

fn chain(rows: &[Row], first: Option<RowId>) -> impl Iterator<Item = Field> + '_ {
    let field = |row: RowId| match rows[usize::from(row)] {
        Row::Fld(field) => field,
        _ => unreachable!("a chain holds fields only"),
    };
    std::iter::successors(first.map(field), move |last| last.next.map(field))
}

fn has_name_twice(rows: &[Row], row: &Row, names: usize) -> bool {
    let Row::Rec { first } = *row else { return false };
    let mut seen = vec![false; names];
    chain(rows, first).any(|field| std::mem::replace(&mut seen[usize::from(field.name)], true))
}

/// The depth of every type, 0 for all other rows.
fn depths(rows: &[Row]) -> Vec<u16> {
    let mut depths = vec![0; rows.len()];
    for (k, row) in rows.iter().enumerate().rev() {
        depths[k] = match *row {
            Row::Rec { first } => {
                chain(rows, first).map(|field| depths[usize::from(field.kind)] + 1).max().unwrap_or(0)
            }
            Row::Arr { element, .. } => depths[usize::from(element)] + 1,
            Row::Alt { yes, no, .. } => depths[usize::from(yes)].max(depths[usize::from(no)]),
            _ => 0,
        };
    }
    depths
}

fn idle_types(rows: &[Row]) -> Vec<bool> {
    let mut idle = vec![false; rows.len()];
    for (k, row) in rows.iter().enumerate().rev() {
        idle[k] = match *row {
            Row::Rec { first } => chain(rows, first).all(|field| idle[usize::from(field.kind)]),
            Row::Arr { element, count } => match rows[usize::from(count)] {
                Row::Lit(count) => count == 0 || (count <= MAX_COUNT && idle[usize::from(element)]),
                _ => false,
            },
            _ => false,
        };
    }
    idle
}
