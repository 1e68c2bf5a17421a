//! The three formats, their messages, and their readers in C.

pub mod messages;

/// A value of a message, as the readers in C tell it.
#[repr(C)]
#[derive(Clone, Copy, Default)]
pub struct CPiece {
    pub kind: u32,
    pub i: u16,
    pub j: u16,
    pub place: u16,
    pub width: u8,
}

type CLay = unsafe extern "C" fn(*const u8, usize, *mut CPiece, usize) -> usize;
type CList = unsafe extern "C" fn(*const u8, usize, *mut u8, usize) -> usize;

extern "C" {
    fn trace_lay(m: *const u8, n: usize, out: *mut CPiece, room: usize) -> usize;
    fn trace_list(m: *const u8, n: usize, out: *mut u8, room: usize) -> usize;
    fn records_lay(m: *const u8, n: usize, out: *mut CPiece, room: usize) -> usize;
    fn records_list(m: *const u8, n: usize, out: *mut u8, room: usize) -> usize;
    fn lookups_lay(m: *const u8, n: usize, out: *mut CPiece, room: usize) -> usize;
    fn lookups_list(m: *const u8, n: usize, out: *mut u8, room: usize) -> usize;
}

/// The readers in C ask for so many places more than the text has.
pub const C_SPARE: usize = 64;

#[derive(Clone, Copy)]
pub struct Format {
    pub name: &'static str,
    pub sheet: &'static [u8],
    pub message: fn(u16) -> Vec<u8>,
    lay: CLay,
    list: CList,
}

pub const TRACE: Format = Format {
    name: "trace",
    sheet: include_bytes!("../trace.sheet"),
    message: messages::trace,
    lay: trace_lay,
    list: trace_list,
};

pub const RECORDS: Format = Format {
    name: "records",
    sheet: include_bytes!("../records.sheet"),
    message: messages::records,
    lay: records_lay,
    list: records_list,
};

pub const LOOKUPS: Format = Format {
    name: "lookups",
    sheet: include_bytes!("../lookups.sheet"),
    message: messages::lookups,
    lay: lookups_lay,
    list: lookups_list,
};

pub const FORMATS: [Format; 3] = [TRACE, RECORDS, LOOKUPS];

impl Format {
    /// Lays a message in C; answers the number of pieces.
    pub fn c_lay(&self, message: &[u8], out: &mut [CPiece]) -> usize {
        // SAFETY: the function reads the message and writes no further than the length of `out`.
        unsafe { (self.lay)(message.as_ptr(), message.len(), out.as_mut_ptr(), out.len()) }
    }

    /// Lists a message in C; answers the length of the text.
    pub fn c_list(&self, message: &[u8], out: &mut [u8]) -> usize {
        // SAFETY: as above.
        unsafe { (self.list)(message.as_ptr(), message.len(), out.as_mut_ptr(), out.len()) }
    }
}
