//! The structs that cross the C boundary, as include/blotheath.h declares them.

use crate::tables::RECORD_WORDS;

/// The rows used of the nine tables and the visits of the LVAR walk, or a refusal.
#[repr(C)]
#[derive(Debug, Clone, Copy, PartialEq, Default)]
pub struct BlotheathLoaded {
    pub refusal: u32,
    pub rows: [u32; 9],
    pub visits: u32,
}

/// A record's row, its words in their order.
///
/// A kind's name is the first of the record's rows of that kind, and n before the name their number.
#[repr(C)]
#[derive(Debug, Clone, Copy, PartialEq, Default)]
pub struct BlotheathRecord {
    pub size: u32,
    pub nlocals: u32,
    pub nregs: u32,
    pub rlen: u32,
    pub clen: u32,
    pub ilen: u32,
    pub place: u32,
    pub handlers: u32,
    pub nhandlers: u32,
    pub pool: u32,
    pub npool: u32,
    pub symbols: u32,
    pub nsymbols: u32,
    pub names: u32,
    pub nnames: u32,
    pub files: u32,
    pub nfiles: u32,
    pub lines: u32,
    pub nlines: u32,
    pub depth: u32,
    /// Another record's number, or [`NO_PARENT`].
    pub parent: u32,
}

const _: () = assert!(size_of::<BlotheathRecord>() == RECORD_WORDS * size_of::<u32>());

/// The parent of record 0, and of a record that the walk over the numbers of children never reaches.
pub const NO_PARENT: u32 = 65_535;

/// Where a run stands.
#[repr(C)]
#[derive(Debug, Clone, Copy, PartialEq, Default)]
pub struct BlotheathFollowed {
    pub refusal: u32,
    pub finished: u32,
    pub record: u32,
    pub offset: u32,
    pub found: u32,
    pub line: u32,
    pub frames: u32,
}

/// Bytes of the file.
#[repr(C)]
#[derive(Debug, Clone, Copy, PartialEq, Default)]
pub struct BlotheathText {
    pub refusal: u32,
    pub place: u32,
    pub length: u32,
}

/// A handler's fields.
#[repr(C)]
#[derive(Debug, Clone, Copy, PartialEq, Default)]
pub struct BlotheathHandler {
    pub refusal: u32,
    pub kind: u32,
    pub begin: u32,
    pub end: u32,
    pub target: u32,
}

/// A constant; kind 0 is text, 1 a whole number, 2 a float, 3 a big integer.
#[repr(C)]
#[derive(Debug, Clone, Copy, PartialEq, Default)]
pub struct BlotheathConstant {
    pub refusal: u32,
    pub kind: u32,
    pub place: u32,
    pub length: u32,
    pub int: i64,
    pub float: f64,
}

/// A local's name, where `named` is 1.
#[repr(C)]
#[derive(Debug, Clone, Copy, PartialEq, Default)]
pub struct BlotheathName {
    pub refusal: u32,
    pub named: u32,
    pub place: u32,
    pub length: u32,
}

/// A debug file with its name's place.
#[repr(C)]
#[derive(Debug, Clone, Copy, PartialEq, Default)]
pub struct BlotheathDebugFile {
    pub refusal: u32,
    pub start: u32,
    pub place: u32,
    pub length: u32,
    pub first: u32,
    pub number: u32,
}

/// The line of an offset in a record, where `found` is 1.
#[repr(C)]
#[derive(Debug, Clone, Copy, PartialEq, Default)]
pub struct BlotheathLookedLine {
    pub refusal: u32,
    pub found: u32,
    pub line: u32,
}

/// An instruction; kind 0 is Z, 1 B, 2 BB, 3 S, 4 BBB, 5 BS, 6 W, 7 BSS.
#[repr(C)]
#[derive(Debug, Clone, Copy, PartialEq, Default)]
pub struct BlotheathFetched {
    pub refusal: u32,
    pub kind: u32,
    pub a: u32,
    pub b: u32,
    pub c: u32,
}

/// The line of a position in a map, where `found` is 1.
#[repr(C)]
#[derive(Debug, Clone, Copy, PartialEq, Default)]
pub struct BlotheathLine {
    pub found: u32,
    pub line: u32,
}
