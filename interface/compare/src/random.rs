//! Random sheets, messages and puts, all from a seed.
//!
//! A sheet is drawn as a graph of rows, so that most locations name something that is placed by then. The message is
//! then grown by laying it again and again: wherever it ends too early, a value for the row in front is put behind it.
//! Last, some of the cases are damaged.

use plain::{Fault, LayingFault, Path, Piece, Row, Sheet, Step};

pub struct Case {
    pub sheet: Vec<u8>,
    pub message: Vec<u8>,
    pub path: Vec<u8>,
    pub bytes: Vec<u8>,
}

/// The case of a seed.
pub fn case(seed: u64) -> Case {
    let mut random = Random(seed.wrapping_mul(0xd134_2543_de82_ef95) ^ 0x5eed);
    let sheet = random_sheet(&mut random);
    let checked = plain::check(&sheet, 256).ok();
    let message = match &checked {
        Some(checked) => random_message(&mut random, checked),
        None => random.bytes(12),
    };
    let (path, bytes) = random_put(&mut random, checked.as_ref(), &message);
    Case { sheet, message, path, bytes }
}

/// The generator splitmix64.
struct Random(u64);

impl Random {
    fn next(&mut self) -> u64 {
        self.0 = self.0.wrapping_add(0x9e37_79b9_7f4a_7c15);
        let mut z = self.0;
        z = (z ^ (z >> 30)).wrapping_mul(0xbf58_476d_1ce4_e5b9);
        z = (z ^ (z >> 27)).wrapping_mul(0x94d0_49bb_1331_11eb);
        z ^ (z >> 31)
    }

    fn below(&mut self, end: usize) -> usize {
        (self.next() % end as u64) as usize
    }

    fn between(&mut self, low: usize, high: usize) -> usize {
        low + self.below(high - low + 1)
    }

    /// True so many times in a thousand.
    fn chance(&mut self, thousandths: usize) -> bool {
        self.below(1000) < thousandths
    }

    fn pick<T: Copy>(&mut self, of: &[T]) -> T {
        of[self.below(of.len())]
    }

    fn byte(&mut self) -> u8 {
        self.next() as u8
    }

    fn bytes(&mut self, most: usize) -> Vec<u8> {
        let count = self.between(0, most);
        (0..count).map(|_| self.byte()).collect()
    }

    fn small(&mut self) -> u8 {
        self.pick(&[0, 0, 1, 1, 1, 2, 2, 2, 3, 3, 4, 5, 7, 12])
    }
}

// Sheets

const NAMES: [&str; 14] =
    ["a", "b", "n", "m", "k", "v", "pts", "flag", "x_1", "Len", "N", "items", "abcdefghijklmnop", "z9"];
const BASES: [&str; 15] =
    ["bool", "bool", "char", "u8", "u8", "u8", "u16", "u16", "i16", "u32", "i32", "float", "u64", "i64", "double"];
const WORDS: [&str; 31] = [
    "bool", "char", "u8", "u16", "i16", "u32", "i32", "float", "u64", "i64", "double", "void", "rec", "arr", "alt",
    "fld", "lit", "loc", "add", "mul", "true", "false", "bloc", "not", "and", "or", "eq", "lt", "from", "dot", "idx",
];
const LARGEST: u64 = i64::MAX as u64;

#[derive(Clone, Copy)]
enum Column {
    Blank,
    Number(u64),
    Node(usize),
}

#[derive(Clone)]
struct Node {
    word: &'static str,
    name: Option<&'static str>,
    columns: [Column; 3],
}

/// What a type places, as far as locations into it are concerned.
#[derive(Clone)]
enum Shape {
    Base { is_bool: bool },
    Rec(Vec<(&'static str, Shape)>),
    Arr(Box<Shape>),
    Alt(Box<Shape>, Box<Shape>),
    Nothing,
}

struct Closed {
    node: usize,
    shape: Shape,
    depth: usize,
}

struct Builder<'r> {
    random: &'r mut Random,
    nodes: Vec<Node>,
    /// The fields so far of the open records, the innermost last.
    open: Vec<Vec<(&'static str, Shape)>>,
    /// The outermost open record that a location began at since this was last set.
    outermost: usize,
    /// Records that look at nothing outside of themselves: they can stand anywhere.
    closed: Vec<Closed>,
    /// So many rows are wanted, roughly.
    size: usize,
    /// So many locations in a thousand may name anything.
    wild: usize,
}

impl Builder<'_> {
    fn add(&mut self, word: &'static str, columns: [Column; 3]) -> usize {
        self.nodes.push(Node { word, name: None, columns });
        self.nodes.len() - 1
    }

    fn add_named(&mut self, word: &'static str, name: &'static str, columns: [Column; 3]) -> usize {
        let node = self.add(word, columns);
        self.nodes[node].name = Some(name);
        node
    }

    fn is_full(&self) -> bool {
        self.nodes.len() >= self.size
    }

    /// A type of at most that depth.
    fn draw_type(&mut self, depth: usize) -> (usize, Shape) {
        if self.is_full() {
            return self.draw_base();
        }
        match self.random.below(100) {
            0..=22 => self.draw_base(),
            23..=24 if self.random.chance(200) => (self.add("void", [Column::Blank; 3]), Shape::Nothing),
            23..=29 => self.draw_reused(depth),
            30..=55 if depth > 0 => self.draw_record(depth),
            56..=86 if depth > 0 => self.draw_array(depth),
            87..=99 => self.draw_alternative(depth),
            _ => self.draw_base(),
        }
    }

    fn draw_base(&mut self) -> (usize, Shape) {
        let word = self.random.pick(&BASES);
        let shape = Shape::Base { is_bool: word == "bool" };
        if self.random.chance(500) {
            if let Some(node) = self.nodes.iter().position(|node| node.word == word) {
                return (node, shape);
            }
        }
        (self.add(word, [Column::Blank; 3]), shape)
    }

    fn draw_reused(&mut self, depth: usize) -> (usize, Shape) {
        let fitting: Vec<usize> = (0..self.closed.len()).filter(|&k| self.closed[k].depth <= depth).collect();
        if fitting.is_empty() {
            return self.draw_base();
        }
        let found = &self.closed[fitting[self.random.below(fitting.len())]];
        (found.node, found.shape.clone())
    }

    fn draw_record(&mut self, depth: usize) -> (usize, Shape) {
        if self.random.chance(15) {
            if let Some(field) = self.any_node("fld") {
                let first = Column::Node(field);
                return (self.add("rec", [first, Column::Blank, Column::Blank]), Shape::Nothing);
            }
        }
        let ahead = std::mem::replace(&mut self.outermost, usize::MAX);
        let count = self.random.pick(&[0, 1, 2, 2, 3, 3, 3, 4, 4, 4, 5, 5, 6, 8]);
        let mut names = NAMES;
        for k in 0..count {
            names.swap(k, self.random.between(k, NAMES.len() - 1));
        }
        let level = self.open.len();
        self.open.push(Vec::new());
        let mut kinds = Vec::new();
        for &name in &names[..count] {
            let (kind, shape) = self.draw_type(depth - 1);
            kinds.push((name, kind));
            self.open[level].push((name, shape));
        }
        let fields = self.open.pop().unwrap_or_default();
        let mut next = Column::Blank;
        for (name, kind) in kinds.into_iter().rev() {
            next = Column::Node(self.add_named("fld", name, [Column::Node(kind), next, Column::Blank]));
        }
        let node = self.add("rec", [next, Column::Blank, Column::Blank]);
        let shape = Shape::Rec(fields);
        if self.outermost >= level {
            self.closed.push(Closed { node, shape: shape.clone(), depth });
        }
        self.outermost = self.outermost.min(ahead);
        (node, shape)
    }

    fn draw_array(&mut self, depth: usize) -> (usize, Shape) {
        let number = if self.random.chance(12) { self.draw_limit() } else { self.draw_number(2) };
        let (element, shape) = self.draw_type(depth - 1);
        let node = self.add("arr", [Column::Node(element), Column::Node(number), Column::Blank]);
        (node, Shape::Arr(Box::new(shape)))
    }

    fn draw_alternative(&mut self, depth: usize) -> (usize, Shape) {
        let truth = self.draw_truth(3);
        let (yes, yes_shape) = self.draw_type(depth);
        let (no, no_shape) = if self.random.chance(20) {
            (self.add("void", [Column::Blank; 3]), Shape::Nothing)
        } else {
            self.draw_type(depth)
        };
        let node = self.add("alt", [Column::Node(truth), Column::Node(yes), Column::Node(no)]);
        (node, Shape::Alt(Box::new(yes_shape), Box::new(no_shape)))
    }

    fn draw_literal(&mut self) -> usize {
        let number = self.random.small().into();
        self.add("lit", [Column::Number(number), Column::Blank, Column::Blank])
    }

    /// A number at or beyond some limit.
    fn draw_limit(&mut self) -> usize {
        let number = self.random.pick(&[600, 256, 65_535, 65_536, 65_534, 70_000, 1 << 32, LARGEST]);
        let left = self.add("lit", [Column::Number(number), Column::Blank, Column::Blank]);
        if self.random.chance(500) {
            return left;
        }
        let word = self.random.pick(&["add", "mul"]);
        let right = if self.random.chance(500) { left } else { self.draw_literal() };
        self.add(word, [Column::Node(left), Column::Node(right), Column::Blank])
    }

    fn draw_number(&mut self, nesting: usize) -> usize {
        match self.random.below(100) {
            0..=59 => match self.draw_location(false) {
                Some(from) => self.add("loc", [Column::Node(from), Column::Blank, Column::Blank]),
                None => self.draw_literal(),
            },
            60..=74 if nesting > 0 => {
                let word = self.random.pick(&["add", "mul"]);
                let left = self.draw_number(nesting - 1);
                let right = if self.random.chance(150) { left } else { self.draw_number(nesting - 1) };
                self.add(word, [Column::Node(left), Column::Node(right), Column::Blank])
            }
            _ => self.draw_literal(),
        }
    }

    fn draw_truth(&mut self, nesting: usize) -> usize {
        let blank = Column::Blank;
        match self.random.below(100) {
            0..=44 => {
                if let Some(from) = self.draw_location(true) {
                    return self.add("bloc", [Column::Node(from), blank, blank]);
                }
            }
            45..=64 => {
                let word = self.random.pick(&["eq", "lt"]);
                let (left, right) = (self.draw_number(1), self.draw_number(1));
                return self.add(word, [Column::Node(left), Column::Node(right), blank]);
            }
            65..=74 if nesting > 0 => {
                let inner = self.draw_truth(nesting - 1);
                return self.add("not", [Column::Node(inner), blank, blank]);
            }
            75..=89 if nesting > 0 => {
                let word = self.random.pick(&["and", "or"]);
                let (left, right) = (self.draw_truth(nesting - 1), self.draw_truth(nesting - 1));
                return self.add(word, [Column::Node(left), Column::Node(right), blank]);
            }
            _ => {}
        }
        let word = self.random.pick(&["true", "false"]);
        self.add(word, [blank; 3])
    }

    /// A location, most often of something that is placed by then.
    fn draw_location(&mut self, is_bool: bool) -> Option<usize> {
        if self.random.chance(self.wild) {
            return Some(self.draw_wild());
        }
        for _ in 0..6 {
            if self.open.is_empty() {
                break;
            }
            let climb = self.random.below(self.open.len());
            let level = self.open.len() - 1 - climb;
            let fields = self.open[level].clone();
            if let Some(step) = self.draw_steps(&Shape::Rec(fields), is_bool) {
                self.outermost = self.outermost.min(level);
                return Some(self.add("from", [Column::Number(climb as u64), step, Column::Blank]));
            }
        }
        None
    }

    /// The steps from here to a piece, if the way that is tried leads to one.
    fn draw_steps(&mut self, shape: &Shape, is_bool: bool) -> Option<Column> {
        match shape {
            Shape::Base { is_bool: found } => (*found || !is_bool).then_some(Column::Blank),
            Shape::Rec(fields) => {
                if fields.is_empty() {
                    return None;
                }
                let (name, inner) = &fields[self.random.below(fields.len())];
                let next = self.draw_steps(inner, is_bool)?;
                Some(Column::Node(self.add_named("dot", name, [next, Column::Blank, Column::Blank])))
            }
            Shape::Arr(element) => {
                let next = self.draw_steps(element, is_bool)?;
                let index = match self.random.below(10) {
                    0..=6 => 0,
                    7 => 1,
                    _ => self.random.small().into(),
                };
                let number = if self.random.chance(120) {
                    self.draw_number(0)
                } else {
                    self.add("lit", [Column::Number(index), Column::Blank, Column::Blank])
                };
                Some(Column::Node(self.add("idx", [Column::Node(number), next, Column::Blank])))
            }
            Shape::Alt(yes, no) => {
                let chosen = if self.random.chance(500) { yes } else { no };
                self.draw_steps(chosen, is_bool)
            }
            Shape::Nothing => None,
        }
    }

    fn draw_wild(&mut self) -> usize {
        self.outermost = 0;
        let mut next = Column::Blank;
        let count = self.random.pick(&[0, 1, 1, 1, 2, 2, 3, 9]);
        for _ in 0..count {
            next = Column::Node(if self.random.chance(250) {
                let number = if self.random.chance(200) { self.draw_limit() } else { self.draw_literal() };
                self.add("idx", [Column::Node(number), next, Column::Blank])
            } else {
                let name = self.random.pick(&NAMES);
                self.add_named("dot", name, [next, Column::Blank, Column::Blank])
            });
        }
        let climb = self.random.pick(&[0, 0, 0, 1, 1, 2, 3, 8]);
        self.add("from", [Column::Number(climb), next, Column::Blank])
    }

    fn any_node(&mut self, word: &str) -> Option<usize> {
        let nodes: Vec<usize> = (0..self.nodes.len()).filter(|&k| self.nodes[k].word == word).collect();
        (!nodes.is_empty()).then(|| nodes[self.random.below(nodes.len())])
    }

    /// Stands so many arrays and records of one field around a type.
    fn wrap(&mut self, mut node: usize, count: usize) -> usize {
        for _ in 0..count {
            node = if self.random.chance(600) {
                let number = self.draw_literal();
                self.add("arr", [Column::Node(node), Column::Node(number), Column::Blank])
            } else {
                let name = self.random.pick(&NAMES);
                let field = self.add_named("fld", name, [Column::Node(node), Column::Blank, Column::Blank]);
                self.add("rec", [Column::Node(field), Column::Blank, Column::Blank])
            };
        }
        node
    }

    /// Gives two fields of one record the same name.
    fn repeat_name(&mut self) {
        let field = match self.any_node("fld") {
            Some(field) if self.random.chance(700) => field,
            _ => {
                let (kind, _) = self.draw_base();
                let field = self.add_named("fld", "a", [Column::Node(kind), Column::Blank, Column::Blank]);
                self.add("rec", [Column::Node(field), Column::Blank, Column::Blank]);
                field
            }
        };
        let name = self.nodes[field].name.unwrap_or("a");
        let [kind, next, _] = self.nodes[field].columns;
        let again = self.add_named("fld", name, [kind, next, Column::Blank]);
        self.nodes[field].columns[1] = Column::Node(again);
    }

    /// Numbers the nodes so that each stands ahead of those that it names, with the root first.
    fn rows(&mut self, root: usize) -> Vec<Vec<String>> {
        let count = self.nodes.len();
        let mut named = vec![0; count];
        for node in &self.nodes {
            for column in node.columns {
                if let Column::Node(k) = column {
                    named[k] += 1;
                }
            }
        }
        let mut ready: Vec<usize> = (0..count).filter(|&k| named[k] == 0 && k != root).collect();
        let mut order = Vec::new();
        let mut row_of = vec![0; count];
        let shuffled = self.random.chance(500);
        let mut next = Some(root);
        while let Some(k) = next {
            row_of[k] = order.len();
            order.push(k);
            for column in self.nodes[k].columns {
                if let Column::Node(child) = column {
                    named[child] -= 1;
                    if named[child] == 0 {
                        ready.push(child);
                    }
                }
            }
            next = if ready.is_empty() {
                None
            } else if shuffled {
                Some(ready.swap_remove(self.random.below(ready.len())))
            } else {
                ready.pop()
            };
        }
        let row = |(k, &node): (usize, &usize)| {
            let node = &self.nodes[node];
            let mut values = vec![k.to_string(), node.word.to_string(), node.name.unwrap_or("-").to_string()];
            values.extend(node.columns.map(|column| match column {
                Column::Blank => "-".to_string(),
                Column::Number(number) => number.to_string(),
                Column::Node(k) => row_of[k].to_string(),
            }));
            values
        };
        order.iter().enumerate().map(row).collect()
    }
}

fn random_sheet(random: &mut Random) -> Vec<u8> {
    let damage = if random.chance(760) { 0 } else { random.between(1, 8) };
    let size = random.pick(&[5, 20, 40, 60, 80, 120]);
    let wild = random.pick(&[0, 0, 0, 20, 100]);
    let mut builder =
        Builder { random, nodes: Vec::new(), open: Vec::new(), outermost: usize::MAX, closed: Vec::new(), size, wild };
    let depth = builder.random.pick(&[1, 2, 3, 3, 4, 4, 5, 8]);
    let (mut root, _) = if builder.random.chance(850) { builder.draw_record(depth) } else { builder.draw_type(depth) };
    match damage {
        5 => builder.repeat_name(),
        7 => {
            let count = builder.random.between(6, 10);
            if builder.random.chance(700) {
                root = builder.wrap(root, count);
            } else {
                let kind = builder.add("u8", [Column::Blank; 3]);
                builder.wrap(kind, count);
            }
        }
        _ if builder.random.chance(100) => {
            // Rows that nothing names, and fillers up to the most rows.
            builder.draw_truth(2);
            if builder.random.chance(300) {
                while builder.nodes.len() < 256 {
                    builder.add("true", [Column::Blank; 3]);
                }
            }
        }
        _ => {}
    }
    let mut rows = builder.rows(root);
    match damage {
        3 => {
            let k = random.below(rows.len());
            rows[k][1] = random.pick(&["-", "7", "U8", "byte", "record", "u128", "x"]).to_string();
        }
        4 => damage_column(random, &mut rows),
        6 => match random.below(3) {
            0 => rows.clear(),
            _ => {
                for k in rows.len()..random.between(257, 260) {
                    rows.push([&k.to_string(), "false", "-", "-", "-", "-"].map(String::from).to_vec());
                }
            }
        },
        _ => {}
    }
    let mut text = String::from("row,word,name,one,two,three\n");
    for row in &rows {
        text.push_str(&row.join(","));
        text.push('\n');
    }
    let mut text = text.into_bytes();
    match damage {
        1 => match random.below(3) {
            0 => text.truncate(random.below(28)),
            _ => damage_byte(random, &mut text, 0, 28),
        },
        2 => damage_line(random, &mut text, &mut rows),
        8 => {
            let end = text.len();
            damage_byte(random, &mut text, 0, end);
        }
        _ => {}
    }
    text
}

fn damage_column(random: &mut Random, rows: &mut [Vec<String>]) {
    let k = random.below(rows.len());
    let column = random.between(1, 5);
    rows[k][column] = match (column, random.below(4)) {
        (1, _) => random.pick(&WORDS).to_string(),
        (_, 0) => "-".to_string(),
        (_, 1) => random.pick(&NAMES).to_string(),
        (_, 2) => random.below(rows.len() + 3).to_string(),
        _ => random.pick(&[0, 1, 8, 9, 255, 256, 65_536, LARGEST]).to_string(),
    };
}

fn damage_byte(random: &mut Random, text: &mut Vec<u8>, low: usize, high: usize) {
    let k = random.between(low, high - 1);
    match random.below(3) {
        0 => {
            text.remove(k);
        }
        1 => text.insert(k, random.pick(b"0,-a_\n \r.\x00\xff9")),
        _ => text[k] = random.pick(b"01,-aZ\n "),
    }
}

fn damage_line(random: &mut Random, text: &mut Vec<u8>, rows: &mut [Vec<String>]) {
    if random.chance(120) {
        text.pop();
        return;
    }
    let k = random.below(rows.len());
    let column = random.below(6);
    let value = &mut rows[k][column];
    match random.below(10) {
        0 => value.clear(),
        1 => value.insert(0, '0'),
        2 => value.insert(0, ' '),
        3 => value.push('\r'),
        4 => value.push_str(",-"),
        5 => value.push_str("9223372036854775808"),
        6 => *value = "abcdefghijklmnopq".to_string(),
        7 => *value = "_a".to_string(),
        8 => *value = "18446744073709551617".to_string(),
        _ => rows[k][0] = (k + 1).to_string(),
    }
    let mut lines: Vec<String> = rows.iter().map(|row| row.join(",")).collect();
    if random.chance(100) {
        lines.insert(k, String::new());
    }
    *text = format!("row,word,name,one,two,three\n{}\n", lines.join("\n")).into_bytes();
}

// Messages

fn random_message(random: &mut Random, sheet: &Sheet) -> Vec<u8> {
    let mut message = Vec::new();
    let mut pieces = Vec::new();
    let large = random.pick(&[0, 0, 5, 20, 60]);
    let many = random.pick(&[0, 50, 150, 300]);
    for _ in 0..400 {
        match plain::lay_into(sheet, message.as_slice(), 700, &mut pieces) {
            Err(Fault::Laying { fault: LayingFault::PastEnd, row, .. }) => {
                grow(random, sheet, row, large, many, &mut message);
            }
            _ => break,
        }
    }
    match random.below(100) {
        0..=49 => {}
        50..=69 => message.extend(random.bytes(20)),
        70..=81 => message.truncate(random.below(message.len() + 1)),
        82..=91 => {
            if !message.is_empty() {
                let k = random.below(message.len());
                message[k] = if random.chance(500) { random.byte() } else { random.small() };
            }
        }
        92..=94 => message = random.bytes(60),
        95..=96 => message.insert(random.below(message.len() + 1), random.small()),
        97..=98 => {
            if !message.is_empty() {
                message.remove(random.below(message.len()));
            }
        }
        _ => {
            let most = if random.chance(80) { 65_540 } else { random.between(900, 2500) };
            while message.len() < most {
                message.push(random.byte());
            }
        }
    }
    message
}

/// A value for the row in front; in long messages some more bytes at once.
fn grow(random: &mut Random, sheet: &Sheet, row: usize, large: usize, many: usize, message: &mut Vec<u8>) {
    let Row::Base(base) = sheet.rows()[row] else { return };
    let width = base.width();
    if random.chance(large) {
        message.extend((0..width).map(|_| random.byte()));
        return;
    }
    let mut value = vec![0; width];
    value[width - 1] = match base {
        plain::Base::Bool => random.pick(&[0, 0, 0, 1, 1, 1, 2, 255]),
        _ if message.len() < 60 && random.chance(many) => random.between(6, 50) as u8,
        _ => random.small(),
    };
    if width > 1 && random.chance(large / 2) {
        value[width - 2] = random.between(1, 3) as u8;
    }
    message.extend(value);
    if message.len() > 150 {
        let count = random.between(0, message.len() / 2);
        message.extend((0..count).map(|_| if random.chance(500) { 0 } else { random.small() }));
    }
}

// Puts

fn random_put(random: &mut Random, sheet: Option<&Sheet>, message: &[u8]) -> (Vec<u8>, Vec<u8>) {
    let laid = sheet.and_then(|sheet| Some((sheet, plain::lay_bytes(sheet, message, 512).ok()?)));
    match laid {
        Some((sheet, pieces)) if !pieces.is_empty() => put_to_piece(random, sheet, message, &pieces),
        _ => {
            let path = format!("root.{}", random.pick(&NAMES));
            (path.into_bytes(), random.bytes(8))
        }
    }
}

fn put_to_piece(random: &mut Random, sheet: &Sheet, message: &[u8], pieces: &[Piece]) -> (Vec<u8>, Vec<u8>) {
    let end = if random.chance(500) { pieces.len().min(4) } else { pieces.len() };
    let mut piece = &pieces[random.below(end)];
    if random.chance(600) {
        // Look for one that the reading hangs on.
        for _ in 0..16 {
            let other = &pieces[random.below(pieces.len())];
            if is_consulted(sheet, message, pieces, other) {
                piece = other;
                break;
            }
        }
    }
    let mut path = print_path(sheet, &piece.path);
    let mut bytes = message[piece.range()].to_vec();
    let last = bytes.len() - 1;
    match random.below(10) {
        0 => {}
        1..=3 => bytes = bytes.iter().map(|_| random.byte()).collect(),
        4..=6 => bytes[last] = random.small(),
        7 => bytes.fill(0),
        _ => bytes[last] ^= random.pick(&[1, 1, 2, 255]),
    }
    match random.below(100) {
        0..=79 => {}
        80..=87 => match random.below(3) {
            0 => bytes.truncate(random.below(bytes.len())),
            1 => bytes.push(random.byte()),
            _ => bytes.extend([0; 8]),
        },
        88..=93 => path = other_path(random, path),
        _ => damage_path(random, &mut path),
    }
    (path, bytes)
}

fn is_consulted(sheet: &Sheet, message: &[u8], pieces: &[Piece], piece: &Piece) -> bool {
    let mut changed = message.to_vec();
    let last = piece.range().end - 1;
    changed[last] = if changed[last] == 0 { 1 } else { 0 };
    !plain::lay_bytes(sheet, &changed, 512).is_ok_and(|again| again == pieces)
}

fn print_path(sheet: &Sheet, path: &Path) -> Vec<u8> {
    let mut text = String::from("root");
    for step in path.steps() {
        match *step {
            Step::Field(name) => text.push_str(&format!(".{}", String::from_utf8_lossy(sheet.name(name)))),
            Step::Index(number) => text.push_str(&format!("[{number}]")),
        }
    }
    text.into_bytes()
}

/// A path as it is printed, but most often of no piece.
fn other_path(random: &mut Random, mut path: Vec<u8>) -> Vec<u8> {
    match random.below(4) {
        0 => path.extend(format!(".{}", random.pick(&NAMES)).bytes()),
        1 => path.extend(format!("[{}]", random.pick(&[0, 1, 9, 10, 65_534])).bytes()),
        2 => {
            let end = path.iter().rposition(|&b| b == b'.' || b == b'[').unwrap_or(4);
            path.truncate(end);
        }
        _ => path = format!("root.{}[{}]", random.pick(&NAMES), random.below(12)).into_bytes(),
    }
    path
}

fn damage_path(random: &mut Random, path: &mut Vec<u8>) {
    match random.below(9) {
        0 => path.clear(),
        1 => path.truncate(random.below(path.len())),
        2 => path.extend(b"."),
        3 => path.extend(b"[65535]"),
        4 => path.extend(b"[]"),
        5 => path.insert(0, b' '),
        6 => match path.iter().position(|&b| b == b'[') {
            Some(k) => path.insert(k + 1, b'0'),
            None => path.extend(b"[01]"),
        },
        7 => path.extend(b".a.b.a.b.a.b.a.b.a"),
        _ => {
            let k = random.below(path.len());
            path[k] = random.pick(b".[]_0aR\x80");
        }
    }
}
