use std::hash::{Hash, Hasher};

use crate::sheet::{is_name, parse_number, NameId, Sheet};

/// A path has no more steps than this.
pub const MAX_STEPS: usize = 8;

/// The largest number of an array's element.
const MAX_INDEX: u64 = 65_534;

#[derive(Clone, Copy, Debug, PartialEq, Eq)]
pub enum Step {
    Field(NameId),
    Index(u16),
}

impl Step {
    /// The step into an element, where an array can have one of that number.
    #[inline]
    pub fn index(number: u64) -> Option<Step> {
        (number <= MAX_INDEX).then_some(Step::Index(number as u16))
    }
}

/// The steps from the root of a message down to a piece or record.
#[derive(Clone, Copy)]
pub struct Path {
    steps: [Step; MAX_STEPS],
    len: u8,
}

impl Path {
    pub const ROOT: Path = Path { steps: [Step::Index(0); MAX_STEPS], len: 0 };

    #[inline]
    pub fn steps(&self) -> &[Step] {
        &self.steps[..usize::from(self.len)]
    }

    #[inline]
    pub(crate) fn len(&self) -> usize {
        usize::from(self.len)
    }

    /// The path of the first `len` steps.
    #[inline]
    pub(crate) fn prefix(mut self, len: usize) -> Path {
        debug_assert!(len <= self.len());
        self.len = len as u8;
        self
    }

    /// Goes one step down. There must be room.
    #[inline]
    pub(crate) fn push(&mut self, step: Step) {
        self.steps[usize::from(self.len)] = step;
        self.len += 1;
    }

    /// Goes one step down, if there is room.
    #[inline]
    pub(crate) fn try_push(&mut self, step: Step) -> bool {
        let has_room = self.len() < MAX_STEPS;
        if has_room {
            self.push(step);
        }
        has_room
    }

    /// Goes back up.
    #[inline]
    pub(crate) fn pop(&mut self) {
        self.len -= 1;
    }

    /// Reads a path as it is printed. None for any other text, and where a name does not occur in the sheet.
    pub fn parse(sheet: &Sheet, text: &[u8]) -> Option<Path> {
        let mut path = Path::ROOT;
        let mut rest = text.strip_prefix(b"root")?;
        while let Some((&first, tail)) = rest.split_first() {
            let step;
            match first {
                b'.' => {
                    let end = tail.iter().position(|&b| b == b'.' || b == b'[').unwrap_or(tail.len());
                    let (name, behind) = tail.split_at(end);
                    step = Step::Field(is_name(name).then(|| sheet.name_id(name))??);
                    rest = behind;
                }
                b'[' => {
                    let end = tail.iter().position(|&b| b == b']')?;
                    step = Step::index(parse_number(&tail[..end])?)?;
                    rest = &tail[end + 1..];
                }
                _ => return None,
            }
            if !path.try_push(step) {
                return None;
            }
        }
        Some(path)
    }
}

impl PartialEq for Path {
    fn eq(&self, other: &Path) -> bool {
        self.steps() == other.steps()
    }
}

impl Eq for Path {}

impl Hash for Path {
    fn hash<H: Hasher>(&self, state: &mut H) {
        for step in self.steps() {
            state.write_u32(match *step {
                Step::Field(name) => 0x1_0000 | u32::from(name),
                Step::Index(number) => u32::from(number),
            });
        }
    }
}

impl std::fmt::Debug for Path {
    fn fmt(&self, f: &mut std::fmt::Formatter<'_>) -> std::fmt::Result {
        f.debug_list().entries(self.steps()).finish()
    }
}

/// A quick hasher for the small numbers that steps are: a turn and a product for each.
#[derive(Default)]
pub(crate) struct StepHasher(u64);

impl Hasher for StepHasher {
    fn write(&mut self, bytes: &[u8]) {
        for &byte in bytes {
            self.write_u32(byte.into());
        }
    }

    fn write_u32(&mut self, number: u32) {
        self.0 = (self.0.rotate_left(5) ^ u64::from(number)).wrapping_mul(0x9e37_79b9_7f4a_7c15);
    }

    fn finish(&self) -> u64 {
        self.0.rotate_left(26)
    }
}
