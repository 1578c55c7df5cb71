//! The nine kinds of row, their words, and the tables that are lent for them.

use crate::{RECORD_LIMIT, Refusal};

/// The nine tables, in the order that every list of nine has.
pub const NAMES: [&str; 9] = [
    "records",
    "handlers",
    "pool",
    "symbols",
    "strings",
    "names",
    "file_names",
    "files",
    "lines",
];

/// The words of a record's row, and how many of them, the last, say its place in the tree: its depth and its parent.
pub const RECORD_WORDS: usize = 21;
pub const TREE_WORDS: usize = 2;

/// The words of one row of each table.
pub const ROW_WORDS: [usize; 9] = [RECORD_WORDS, 4, 3, 2, 2, 1, 2, 4, 2];

/// The words of the nine tables.
pub type Tables = [Vec<u32>; 9];

/// How many words are lent for each table.
#[derive(Debug, Clone, Copy, PartialEq, Eq, Default)]
pub struct Sizes(pub [usize; 9]);

impl Sizes {
    /// The words of so many rows of each table.
    pub fn of_rows(rows: [usize; 9]) -> Sizes {
        Sizes(std::array::from_fn(|t| rows[t] * ROW_WORDS[t]))
    }

    /// The whole rows that fit; a rest that is no row holds none.
    pub fn rows(&self) -> [usize; 9] {
        std::array::from_fn(|t| self.0[t] / ROW_WORDS[t])
    }

    /// Tables of these sizes, zero throughout.
    pub fn zeros(&self) -> Tables {
        self.0.map(|words| vec![0; words])
    }
}

/// What a load or an examination answers, with the entire contents of the lent tables.
#[derive(Debug, Clone, PartialEq, Eq)]
pub struct Loaded {
    /// The refusal's number, or 0.
    pub refusal: Refusal,
    /// "Load answers how many rows each table uses"; zero after a refusal.
    pub rows: [u32; 9],
    /// "the number of visits that the LVAR walk made": 0 without an LVAR section and after a refusal.
    pub visits: u32,
    /// Rows and then zeros; zero throughout after a refusal.
    pub tables: Tables,
}

impl Loaded {
    /// "A refusal answers its number alone."
    pub fn refused(number: Refusal, lent: &Sizes) -> Loaded {
        Loaded {
            refusal: number,
            rows: [0; 9],
            visits: 0,
            tables: lent.zeros(),
        }
    }
}

/// The first row and the number of rows that belong to a record or a debug file.
#[derive(Debug, Clone, Copy, PartialEq, Eq, Default)]
pub struct Span {
    pub first: u32,
    pub number: u32,
}

impl Span {
    /// The rows from `first` up to `end`; "A first row is 0 where its number is 0".
    pub fn between(first: usize, end: usize) -> Span {
        if first == end {
            return Span::default();
        }
        Span {
            first: first as u32,
            number: (end - first) as u32,
        }
    }

    /// The rows of this span among all rows of the table.
    pub fn of<T>(self, rows: &[T]) -> &[T] {
        let first = self.first as usize;
        &rows[first..first + self.number as usize]
    }
}

/// A row has a fixed number of words.
pub trait Words {
    fn words(&self) -> Vec<u32>;
}

/// "Record: its six header fields, instruction place, first row and number of its" six lists, and "its depth and its parent's index".
#[derive(Debug, Clone, Copy, PartialEq, Eq)]
pub struct Record {
    pub size: u32,
    pub nlocals: u32,
    pub nregs: u32,
    pub rlen: u32,
    pub clen: u32,
    pub ilen: u32,
    pub place: u32,
    pub handlers: Span,
    pub pool: Span,
    pub symbols: Span,
    pub names: Span,
    pub files: Span,
    pub lines: Span,
    pub depth: u32,
    /// Another record's number, or [`NO_PARENT`](crate::NO_PARENT).
    pub parent: u32,
}

impl Words for Record {
    fn words(&self) -> Vec<u32> {
        let mut words = vec![
            self.size,
            self.nlocals,
            self.nregs,
            self.rlen,
            self.clen,
            self.ilen,
            self.place,
        ];
        for span in [
            self.handlers,
            self.pool,
            self.symbols,
            self.names,
            self.files,
            self.lines,
        ] {
            words.extend([span.first, span.number]);
        }
        words.extend([self.depth, self.parent]);
        words
    }
}

/// "Handler: four fields."
#[derive(Debug, Clone, Copy, PartialEq, Eq)]
pub struct Handler {
    pub kind: u32,
    pub begin: u32,
    pub end: u32,
    pub target: u32,
}

impl Words for Handler {
    fn words(&self) -> Vec<u32> {
        vec![self.kind, self.begin, self.end, self.target]
    }
}

/// "Pool: kind, place and length of the value's bytes (7: all n + 1)."
#[derive(Debug, Clone, Copy, PartialEq, Eq)]
pub struct PoolRow {
    pub kind: u32,
    pub place: u32,
    pub length: u32,
}

impl Words for PoolRow {
    fn words(&self) -> Vec<u32> {
        vec![self.kind, self.place, self.length]
    }
}

/// "Symbol, LVAR string, file name: place, length. Text goes without its zero."
#[derive(Debug, Clone, Copy, PartialEq, Eq)]
pub struct Text {
    pub place: u32,
    pub length: u32,
}

impl Words for Text {
    fn words(&self) -> Vec<u32> {
        vec![self.place, self.length]
    }
}

/// "Name: index."
#[derive(Debug, Clone, Copy, PartialEq, Eq)]
pub struct Name {
    pub index: u32,
}

impl Words for Name {
    fn words(&self) -> Vec<u32> {
        vec![self.index]
    }
}

/// "Debug file: start, name index, first line, number."
#[derive(Debug, Clone, Copy, PartialEq, Eq)]
pub struct DebugFile {
    pub start: u32,
    pub name: u32,
    pub lines: Span,
}

impl Words for DebugFile {
    fn words(&self) -> Vec<u32> {
        vec![self.start, self.name, self.lines.first, self.lines.number]
    }
}

/// "Line: position, line."
#[derive(Debug, Clone, Copy, PartialEq, Eq)]
pub struct Entry {
    pub position: u32,
    pub line: u32,
}

impl Words for Entry {
    fn words(&self) -> Vec<u32> {
        vec![self.position, self.line]
    }
}

/// The rows read for one table, and how many are lent.
#[derive(Debug, Clone, PartialEq, Eq)]
pub struct Table<Row> {
    pub rows: Vec<Row>,
    lent: usize,
}

impl<Row: Words> Table<Row> {
    fn lent(lent: usize) -> Table<Row> {
        Table {
            rows: Vec::new(),
            lent,
        }
    }

    /// "14: a needed row is beyond its lent table".
    pub fn has_place(&self) -> Result<(), Refusal> {
        if self.rows.len() == self.lent {
            return Err(14);
        }
        Ok(())
    }

    /// Takes the next row, or meets 14.
    pub fn need(&mut self, row: Row) -> Result<(), Refusal> {
        self.has_place()?;
        self.rows.push(row);
        Ok(())
    }

    /// The words of the rows, then zeros.
    fn laid_out(&self, words: usize) -> Vec<u32> {
        let mut table: Vec<u32> = self.rows.iter().flat_map(Words::words).collect();
        table.resize(words, 0);
        table
    }
}

/// The rows of the nine tables, and the visits of the LVAR walk.
#[derive(Debug, Clone, PartialEq, Eq)]
pub struct Rows {
    pub records: Table<Record>,
    pub handlers: Table<Handler>,
    pub pool: Table<PoolRow>,
    pub symbols: Table<Text>,
    pub strings: Table<Text>,
    pub names: Table<Name>,
    pub file_names: Table<Text>,
    pub files: Table<DebugFile>,
    pub lines: Table<Entry>,
    pub visits: u64,
}

impl Rows {
    /// Empty tables with so many rows lent, of records 1,024 at most.
    pub fn lent(rows: [usize; 9]) -> Rows {
        Rows {
            records: Table::lent(rows[0].min(RECORD_LIMIT)),
            handlers: Table::lent(rows[1]),
            pool: Table::lent(rows[2]),
            symbols: Table::lent(rows[3]),
            strings: Table::lent(rows[4]),
            names: Table::lent(rows[5]),
            file_names: Table::lent(rows[6]),
            files: Table::lent(rows[7]),
            lines: Table::lent(rows[8]),
            visits: 0,
        }
    }

    /// How many rows each table uses.
    pub fn used(&self) -> [usize; 9] {
        [
            self.records.rows.len(),
            self.handlers.rows.len(),
            self.pool.rows.len(),
            self.symbols.rows.len(),
            self.strings.rows.len(),
            self.names.rows.len(),
            self.file_names.rows.len(),
            self.files.rows.len(),
            self.lines.rows.len(),
        ]
    }

    /// The answer of a file that loads.
    pub fn loaded(&self, lent: &Sizes) -> Loaded {
        let words = lent.0;
        Loaded {
            refusal: 0,
            rows: self.used().map(|rows| rows as u32),
            visits: u32::try_from(self.visits).expect("at most 1 + 1,024 * 65,535 visits"),
            tables: [
                self.records.laid_out(words[0]),
                self.handlers.laid_out(words[1]),
                self.pool.laid_out(words[2]),
                self.symbols.laid_out(words[3]),
                self.strings.laid_out(words[4]),
                self.names.laid_out(words[5]),
                self.file_names.laid_out(words[6]),
                self.files.laid_out(words[7]),
                self.lines.laid_out(words[8]),
            ],
        }
    }
}
