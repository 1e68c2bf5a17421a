//! Reads binary messages by format sheets.
//!
//! [`check`] turns the text of a sheet into a [`Sheet`], [`lay`] finds the pieces of a message by it, [`list`] prints
//! them, and [`put`] changes the bytes of one piece where the reading stays the same.

mod editing;
mod fault;
mod laying;
mod listing;
mod message;
mod path;
mod sheet;

pub use editing::{find, put, BROKEN_READING, NO_SUCH_PIECE, WRONG_WIDTH};
pub use fault::{Fault, LayingFault, Mark, SheetFault};
pub use laying::{lay, lay_bytes, lay_into, Piece};
pub use listing::{list, list_message, write_listing, LISTER_PLACES};
pub use message::{open_capture, Cell, Message, MAX_CELLS};
pub use path::{Path, Step, MAX_STEPS};
pub use sheet::{check, Base, Field, NameId, Row, RowId, Sheet, MAX_ROWS};
