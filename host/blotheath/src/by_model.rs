//! The functions of ffi.rs answered by host/model, for work without the archive.

use crate::Allowance;
use crate::answer::*;
use crate::tables::{RECORD_WORDS, RECORDS, Words};
use model::{Constant, Sizes};

/// The sizes of lent tables, which are given back empty so that the model's own take their place.
fn take(words: &mut Words) -> Sizes {
    let sizes = Sizes(std::array::from_fn(|t| words[t].len()));
    words.iter_mut().for_each(|table| *table = Vec::new());
    sizes
}

/// The model's allowance of the same numbers.
fn of(allowance: Allowance) -> model::Allowance {
    model::Allowance {
        bytes: allowance.bytes,
        records: allowance.records,
    }
}

fn give(loaded: model::Loaded, words: &mut Words) -> BlotheathLoaded {
    *words = loaded.tables;
    BlotheathLoaded {
        refusal: loaded.refusal,
        rows: loaded.rows,
        visits: loaded.visits,
    }
}

pub fn load(file: &[u8], allowance: Allowance, words: &mut Words) -> BlotheathLoaded {
    give(model::load(file, of(allowance), &take(words)), words)
}

pub fn load_records(
    file: &[u8],
    allowance: Allowance,
    words: &mut Words,
    rows: &mut [BlotheathRecord],
) -> BlotheathLoaded {
    let loaded = load(file, allowance, words);
    rows.fill(BlotheathRecord::default());
    let whole = words[RECORDS].chunks_exact(RECORD_WORDS);
    for (row, w) in rows.iter_mut().zip(whole) {
        *row = BlotheathRecord {
            size: w[0],
            nlocals: w[1],
            nregs: w[2],
            rlen: w[3],
            clen: w[4],
            ilen: w[5],
            place: w[6],
            handlers: w[7],
            nhandlers: w[8],
            pool: w[9],
            npool: w[10],
            symbols: w[11],
            nsymbols: w[12],
            names: w[13],
            nnames: w[14],
            files: w[15],
            nfiles: w[16],
            lines: w[17],
            nlines: w[18],
            depth: w[19],
            parent: w[20],
        };
    }
    loaded
}

pub fn examine(
    file: &[u8],
    allowance: Allowance,
    permitted: &[u8],
    words: &mut Words,
) -> BlotheathLoaded {
    let loaded = model::examine(file, of(allowance), permitted, &take(words));
    give(loaded, words)
}

pub fn examine_record(
    file: &[u8],
    allowance: Allowance,
    permitted: &[u8],
    words: &mut Words,
    record: u32,
) -> BlotheathLoaded {
    let loaded = model::examine_single(file, of(allowance), permitted, &take(words), record);
    give(loaded, words)
}

pub fn follow(
    file: &[u8],
    allowance: Allowance,
    permitted: &[u8],
    words: &mut Words,
    frames: &mut [u32],
    choices: &[u8],
) -> BlotheathFollowed {
    let (lent, frame_words) = (take(words), frames.len());
    let followed = model::follow(file, of(allowance), permitted, &lent, frame_words, choices);
    frames.copy_from_slice(&followed.frame_table);
    let (record, offset) = followed.top.unwrap_or_default();
    let loaded = give(followed.loaded, words);
    BlotheathFollowed {
        refusal: loaded.refusal,
        finished: followed.finished.into(),
        record,
        offset,
        found: followed.line.is_some().into(),
        line: followed.line.unwrap_or_default(),
        frames: followed.frames,
    }
}

fn text(answer: Result<model::FoundText, u32>) -> BlotheathText {
    match answer {
        Ok(text) => BlotheathText {
            refusal: 0,
            place: text.place,
            length: text.length,
        },
        Err(refusal) => BlotheathText {
            refusal,
            ..Default::default()
        },
    }
}

pub fn instructions(file: &[u8], words: &Words, record: u32) -> BlotheathText {
    text(model::instructions(file, words, record))
}

pub fn handler(words: &Words, record: u32, index: u32) -> BlotheathHandler {
    match model::handler(words, record, index) {
        Ok(handler) => BlotheathHandler {
            refusal: 0,
            kind: handler.kind,
            begin: handler.begin,
            end: handler.end,
            target: handler.target,
        },
        Err(refusal) => BlotheathHandler {
            refusal,
            ..Default::default()
        },
    }
}

pub fn pool(file: &[u8], words: &Words, record: u32, index: u32) -> BlotheathConstant {
    let mut constant = BlotheathConstant::default();
    match model::pool(file, words, record, index) {
        Ok(Constant::Text(text)) => (constant.place, constant.length) = (text.place, text.length),
        Ok(Constant::Int(int)) => (constant.kind, constant.int) = (1, int),
        Ok(Constant::Float(float)) => (constant.kind, constant.float) = (2, float),
        Ok(Constant::Big(text)) => {
            (constant.kind, constant.place, constant.length) = (3, text.place, text.length);
        }
        Err(refusal) => constant.refusal = refusal,
    }
    constant
}

pub fn symbol(file: &[u8], words: &Words, record: u32, index: u32) -> BlotheathText {
    text(model::symbol(file, words, record, index))
}

pub fn name(file: &[u8], words: &Words, record: u32, index: u32) -> BlotheathName {
    match model::name(file, words, record, index) {
        Ok(Some(text)) => BlotheathName {
            refusal: 0,
            named: 1,
            place: text.place,
            length: text.length,
        },
        Ok(None) => BlotheathName::default(),
        Err(refusal) => BlotheathName {
            refusal,
            ..Default::default()
        },
    }
}

pub fn debug_file(file: &[u8], words: &Words, record: u32, index: u32) -> BlotheathDebugFile {
    match model::debug_file(file, words, record, index) {
        Ok(found) => BlotheathDebugFile {
            refusal: 0,
            start: found.start,
            place: found.name.place,
            length: found.name.length,
            first: found.first,
            number: found.number,
        },
        Err(refusal) => BlotheathDebugFile {
            refusal,
            ..Default::default()
        },
    }
}

pub fn line(words: &Words, record: u32, offset: u32) -> BlotheathLookedLine {
    match model::line(words, record, offset) {
        Ok(line) => BlotheathLookedLine {
            refusal: 0,
            found: line.is_some().into(),
            line: line.unwrap_or_default(),
        },
        Err(refusal) => BlotheathLookedLine {
            refusal,
            ..Default::default()
        },
    }
}

pub fn fetch(code: &[u8]) -> BlotheathFetched {
    match model::fetch(code) {
        Ok(fetched) => {
            let [a, b, c] = fetched.operands();
            BlotheathFetched {
                refusal: 0,
                kind: fetched.kind() as u32,
                a,
                b,
                c,
            }
        }
        Err(refusal) => BlotheathFetched {
            refusal,
            ..Default::default()
        },
    }
}

pub fn line_at(map: &[u32], pos: u32) -> BlotheathLine {
    let entries: Vec<model::Entry> = map
        .chunks_exact(2)
        .map(|pair| model::Entry {
            position: pair[0],
            line: pair[1],
        })
        .collect();
    let line = model::line_at(&entries, pos);
    BlotheathLine {
        found: line.is_some().into(),
        line: line.unwrap_or_default(),
    }
}
