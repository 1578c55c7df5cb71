//! What is held against the original: the papers' model and, where it is linked, the port.

use model::{Allowance, Constant, Entry, FoundText, Loaded, NAMES, Refusal, Sizes, Tables};

/// The answer of a load: the refusal's number or 0, the rows used and the visits of the LVAR walk.
#[derive(Debug, Clone, Copy, PartialEq, Eq)]
pub struct Answer {
    pub refusal: Refusal,
    pub rows: [u32; 9],
    pub visits: u32,
}

impl Answer {
    pub fn of(loaded: &Loaded) -> Answer {
        Answer {
            refusal: loaded.refusal,
            rows: loaded.rows,
            visits: loaded.visits,
        }
    }
}

/// The answer of a fetch: the refusal's number or 0, the kind's number, the operands.
#[derive(Debug, Clone, Copy, PartialEq, Eq)]
pub struct Fetch {
    pub refusal: Refusal,
    pub kind: u32,
    pub operands: [u32; 3],
}

/// The answer of a follow: the refusal's number or 0, then finished, record, offset, found, line and frames.
#[derive(Debug, Clone, Copy, PartialEq, Eq)]
pub struct Follow {
    pub refusal: Refusal,
    pub numbers: [u32; 6],
}

/// The seven lookups, in the order of their numbers in stored answers.
#[derive(Debug, Clone, Copy, PartialEq, Eq)]
pub enum Lookup {
    Instructions,
    Handler,
    Pool,
    Symbol,
    Name,
    DebugFile,
    Line,
}

pub const LOOKUPS: [Lookup; 7] = [
    Lookup::Instructions,
    Lookup::Handler,
    Lookup::Pool,
    Lookup::Symbol,
    Lookup::Name,
    Lookup::DebugFile,
    Lookup::Line,
];

/// The answer of a lookup: the refusal's number or 0, then the fields of its struct at the C boundary, zeros behind them.
/// A whole number stands as its 64 bits, a float as `float_bits` has it.
#[derive(Debug, Clone, Copy, PartialEq, Eq, Default)]
pub struct Found {
    pub refusal: Refusal,
    pub numbers: [u64; 5],
}

impl Found {
    pub fn of<const N: usize>(fields: [u32; N]) -> Found {
        let mut found = Found::default();
        for (number, field) in found.numbers.iter_mut().zip(fields) {
            *number = field.into();
        }
        found
    }
}

/// The bits of a float, of one NaN for all.
pub fn float_bits(float: f64) -> u64 {
    if float.is_nan() {
        return f64::NAN.to_bits();
    }
    float.to_bits()
}

/// A loader under test.
pub trait Subject {
    fn name(&self) -> &'static str;

    /// Loads under an allowance over lent tables, whose words hold anything before the call.
    fn load(&self, file: &[u8], allowance: Allowance, tables: &mut Tables) -> Answer;

    /// Examines for a list of permitted opcodes over lent tables, as a load does.
    fn examine(
        &self,
        file: &[u8],
        allowance: Allowance,
        permitted: &[u8],
        tables: &mut Tables,
    ) -> Answer;

    /// Examines a single record in the same way.
    fn examine_record(
        &self,
        file: &[u8],
        allowance: Allowance,
        permitted: &[u8],
        tables: &mut Tables,
        record: u32,
    ) -> Answer;

    /// Follows choices over lent tables and a frame table.
    fn follow(
        &self,
        file: &[u8],
        allowance: Allowance,
        permitted: &[u8],
        tables: &mut Tables,
        frames: &mut Vec<u32>,
        choices: &[u8],
    ) -> Follow;

    /// Looks up a record's row by an index or offset, which instructions have none of.
    fn lookup(
        &self,
        lookup: Lookup,
        file: &[u8],
        tables: &Tables,
        record: u32,
        index: u32,
    ) -> Found;

    /// The instruction at the first byte.
    fn fetch(&self, code: &[u8]) -> Fetch;

    /// The line of a position in a map of positions and lines, one after the other.
    fn line_at(&self, map: &[u32], position: u32) -> Option<u32>;
}

/// The papers' model.
pub struct Model;

impl Subject for Model {
    fn name(&self) -> &'static str {
        "model"
    }

    fn load(&self, file: &[u8], allowance: Allowance, tables: &mut Tables) -> Answer {
        give(model::load(file, allowance, &lent(tables)), tables)
    }

    fn examine(
        &self,
        file: &[u8],
        allowance: Allowance,
        permitted: &[u8],
        tables: &mut Tables,
    ) -> Answer {
        let loaded = model::examine(file, allowance, permitted, &lent(tables));
        give(loaded, tables)
    }

    fn examine_record(
        &self,
        file: &[u8],
        allowance: Allowance,
        permitted: &[u8],
        tables: &mut Tables,
        record: u32,
    ) -> Answer {
        let loaded = model::examine_single(file, allowance, permitted, &lent(tables), record);
        give(loaded, tables)
    }

    fn follow(
        &self,
        file: &[u8],
        allowance: Allowance,
        permitted: &[u8],
        tables: &mut Tables,
        frames: &mut Vec<u32>,
        choices: &[u8],
    ) -> Follow {
        let lent = lent(tables);
        let followed = model::follow(file, allowance, permitted, &lent, frames.len(), choices);
        *tables = followed.loaded.tables;
        *frames = followed.frame_table;
        let (record, offset) = followed.top.unwrap_or_default();
        Follow {
            refusal: followed.loaded.refusal,
            numbers: [
                followed.finished.into(),
                record,
                offset,
                followed.line.is_some().into(),
                followed.line.unwrap_or(0),
                followed.frames,
            ],
        }
    }

    fn lookup(
        &self,
        lookup: Lookup,
        file: &[u8],
        tables: &Tables,
        record: u32,
        index: u32,
    ) -> Found {
        let text = |found: FoundText| [found.place, found.length];
        let found = match lookup {
            Lookup::Instructions => {
                model::instructions(file, tables, record).map(|found| Found::of(text(found)))
            }
            Lookup::Handler => model::handler(tables, record, index)
                .map(|found| Found::of([found.kind, found.begin, found.end, found.target])),
            Lookup::Pool => model::pool(file, tables, record, index).map(constant),
            Lookup::Symbol => {
                model::symbol(file, tables, record, index).map(|found| Found::of(text(found)))
            }
            Lookup::Name => {
                model::name(file, tables, record, index).map(|found| match found.map(text) {
                    Some([place, length]) => Found::of([1, place, length]),
                    None => Found::default(),
                })
            }
            Lookup::DebugFile => model::debug_file(file, tables, record, index).map(|found| {
                let [place, length] = text(found.name);
                Found::of([found.start, place, length, found.first, found.number])
            }),
            Lookup::Line => model::line(tables, record, index)
                .map(|found| Found::of([found.is_some().into(), found.unwrap_or(0)])),
        };
        found.unwrap_or_else(|refusal| Found {
            refusal,
            numbers: [0; 5],
        })
    }

    fn fetch(&self, code: &[u8]) -> Fetch {
        match model::fetch(code) {
            Ok(fetched) => Fetch {
                refusal: 0,
                kind: fetched.kind() as u32,
                operands: fetched.operands(),
            },
            Err(refusal) => Fetch {
                refusal,
                kind: 0,
                operands: [0; 3],
            },
        }
    }

    fn line_at(&self, map: &[u32], position: u32) -> Option<u32> {
        let map: Vec<Entry> = map
            .chunks_exact(2)
            .map(|pair| Entry {
                position: pair[0],
                line: pair[1],
            })
            .collect();
        model::line_at(&map, position)
    }
}

/// Leaves the words of a model's answer in lent tables.
pub fn give(loaded: Loaded, tables: &mut Tables) -> Answer {
    let answer = Answer::of(&loaded);
    *tables = loaded.tables;
    answer
}

/// How many words each table has.
pub fn lent(tables: &Tables) -> Sizes {
    Sizes(std::array::from_fn(|t| tables[t].len()))
}

/// The fields of a constant: kind, place, length, whole number, float.
fn constant(constant: Constant) -> Found {
    let text = |kind, text: FoundText| Found::of([kind, text.place, text.length]);
    match constant {
        Constant::Text(found) => text(0, found),
        Constant::Int(integer) => Found {
            refusal: 0,
            numbers: [1, 0, 0, integer as u64, 0],
        },
        Constant::Float(float) => Found {
            refusal: 0,
            numbers: [2, 0, 0, 0, float_bits(float)],
        },
        Constant::Big(found) => text(3, found),
    }
}

/// Every subject of this build, the model first.
pub fn subjects() -> Vec<Box<dyn Subject>> {
    vec![
        Box::new(Model),
        #[cfg(feature = "port")]
        Box::new(crate::port::Port),
    ]
}

/// Holds an answer of a load or an examination, and all words of its tables, against the model's.
pub fn answers_as(
    name: &str,
    answer: Answer,
    tables: &Tables,
    right: &Loaded,
) -> Result<(), String> {
    let by_model = Answer::of(right);
    if answer != by_model {
        return Err(format!("{name} answers {answer:?}, the model {by_model:?}"));
    }
    match first_difference(tables, &right.tables) {
        Some(difference) => Err(format!("{name} and the model: {difference}")),
        None => Ok(()),
    }
}

/// Where two lists of tables differ first.
pub fn first_difference(one: &Tables, other: &Tables) -> Option<String> {
    for t in 0..9 {
        if one[t].len() != other[t].len() {
            return Some(format!(
                "{}: {} words and {} words",
                NAMES[t],
                one[t].len(),
                other[t].len()
            ));
        }
        for i in 0..one[t].len() {
            if one[t][i] != other[t][i] {
                return Some(format!(
                    "{}: word {i} is {} and {}",
                    NAMES[t], one[t][i], other[t][i]
                ));
            }
        }
    }
    None
}
