//! Blotheath for Rust programs: load, examine and follow `.mrb` pattern files, and look up what they hold.
//!
//! The answers are those of the proved archive libblotheath.a; [`PROVED`] says whether this build has it.
//!
//! [`load`], [`examine`], [`examine_record`] and [`follow`] go by the desktop's allowance, and all but the first permit every opcode. [`load_within`],
//! [`examine_within`], [`examine_record_within`] and [`follow_within`] take an [`Allowance`] behind the file, and all but the first [`Permitted`] opcodes
//! behind it.
//!
//! [`examine_record`] examines one record by itself. A file passes exactly where its records are one whole tree and each of them passes by itself. Where
//! a file passed and [`changed_alone`] finds one record changed, the examination of that record answers what an examination of the whole file would.

#![deny(unsafe_code)]

mod allowance;
pub mod answer;
mod changed;
#[cfg(not(feature = "model"))]
pub mod ffi;
#[cfg(feature = "model")]
#[path = "by_model.rs"]
pub mod ffi;
mod follow;
mod groups;
mod hint;
mod identity;
mod locate;
mod opcode;
mod opcodes;
mod pattern;
mod permitted;
mod refusal;
mod registers;
mod run;
mod step;
pub mod tables;
mod tree;
mod walk;

pub use allowance::{Allowance, Desktop, Excess, Limit};
pub use changed::{Changed, changed_alone};
pub use follow::{Choice, Frame, Standing, bytes_of, follow, follow_within};
pub use groups::{Group, opcodes_named};
pub use hint::looks_like;
pub use identity::{DOUBT, IDENTITY, Identity, PROVED};
pub use locate::{Place, locate, locate_record, locate_record_within, locate_within};
pub use opcode::{Flow, PREFIXES, Role, flow, name as opcode_name, roles};
pub use opcodes::Opcode;
pub use pattern::{
    Constant, Counts, DebugFile, Entry, Handler, Pattern, Record, Sources, Span, Text, examine,
    examine_record, examine_record_within, examine_within, line_at, load, load_within,
};
pub use permitted::{Permitted, UnknownName};
pub use refusal::Refusal;
pub use registers::Registers;
pub use run::{Before, Run};
pub use step::{BadStep, Kind, Step, Steps};
pub use tree::Tree;
pub use walk::NameWalk;

/// The longest file, in bytes, under any allowance.
pub const FILE_LIMIT: usize = 65_536;

/// The bytes that a pattern file begins with.
const IDENT: &[u8] = b"RITE";

/// The stack, in bytes, that a load needs at most.
pub const LOAD_STACK: usize = 448 << 10;

/// The stack, in bytes, that any call of this library needs at most: that of an examination or a run.
pub const STACK: usize = 512 << 10;
