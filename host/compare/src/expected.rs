//! The nine tables that follow from the original's answer, but for the depths and parents that it does not know, and every value that a lookup gives.

use crate::oracle::{self, Outcome};
use crate::subject::{Answer, Subject, first_difference};
use model::{Constant, RECORD_WORDS, ROW_WORDS, TREE_WORDS, Tables};
use original::rite::rite::{PoolValue, Rite, line_at};

/// Holds a subject's load against the original's.
pub fn compare(
    subject: &dyn Subject,
    file: &[u8],
    rite: &Rite,
    answer: &Answer,
    tables: &Tables,
) -> Result<(), String> {
    let mut expected = rows(file, rite, tables)?;
    let used: [u32; 9] = std::array::from_fn(|t| (expected[t].len() / ROW_WORDS[t]) as u32);
    if answer.rows != used {
        return Err(format!("rows are {:?} and {used:?}", answer.rows));
    }
    for t in 0..9 {
        expected[t].resize(tables[t].len(), 0);
    }
    if let Some(difference) = first_difference(tables, &expected) {
        return Err(difference);
    }
    values(subject, file, rite, tables)
}

fn high_first(bytes: &[u8]) -> u32 {
    bytes.iter().fold(0, |n, b| n << 8 | u32::from(*b))
}

/// Where the section with a mark begins in a file that the original loads.
pub fn section(file: &[u8], mark: &[u8; 4]) -> Option<usize> {
    let mut start = 20;
    while start + 8 <= file.len() {
        if file[start..start + 4] == *mark {
            return Some(start);
        }
        start += high_first(&file[start + 4..start + 8]) as usize;
    }
    None
}

/// Adds the first row and the number of a list that now ends at the table's end.
fn list(record: &mut Vec<u32>, table: &[u32], words: usize, before: usize) {
    let number = (table.len() - before) / words;
    let first = if number == 0 { 0 } else { before / words };
    record.extend([first as u32, number as u32]);
}

/// The word of a record's row that has the first of its lines.
const FIRST_LINE: usize = 17;

/// The used rows of the nine tables; depths and parents are the subject's, and a debug file's name index where its text is right.
fn rows(file: &[u8], rite: &Rite, answered: &Tables) -> Result<Tables, String> {
    let mut t: Tables = Default::default();
    let mut records: Vec<Vec<u32>> = Vec::new();
    for irep in &rite.irep {
        let place = irep.insn.as_ptr() as usize - file.as_ptr() as usize;
        let mut record = vec![
            high_first(&irep.header.size),
            high_first(&irep.header.nlocals),
            high_first(&irep.header.nregs),
            high_first(&irep.header.rlen),
            high_first(&irep.header.clen),
            irep.insn.len() as u32,
            place as u32,
        ];
        let before = t[1].len();
        for handler in &irep.catch_handlers {
            let words = [handler.start, handler.end, handler.target];
            t[1].push(handler.type_.into());
            t[1].extend(words.map(|w| w as u32));
        }
        list(&mut record, &t[1], 4, before);

        // The pool's and the symbols' places follow from the lengths of what stands before them.
        let mut at = place + irep.insn.len() + 13 * irep.catch_handlers.len() + 2;
        let before = t[2].len();
        for value in &irep.pool {
            let (kind, head, length, tail) = match value {
                PoolValue::Str(text) => (0, 3, text.as_bytes().len(), 1),
                PoolValue::Int32(_) => (1, 1, 4, 0),
                PoolValue::SStr(text) => (2, 3, text.as_bytes().len(), 1),
                PoolValue::Int64(_) => (3, 1, 8, 0),
                PoolValue::Float(_) => (5, 1, 8, 0),
                PoolValue::BigInt(bytes) => (7, 2, bytes.len(), 0),
            };
            t[2].extend([kind, (at + head) as u32, length as u32]);
            at += head + length + tail;
        }
        list(&mut record, &t[2], 3, before);

        at += 2;
        let before = t[3].len();
        for symbol in &irep.syms {
            let length = symbol.as_bytes().len();
            t[3].extend([at as u32 + 2, length as u32]);
            at += 2 + length + 1;
        }
        list(&mut record, &t[3], 2, before);
        records.push(record);
    }
    names(file, rite, &mut t, &mut records)?;
    debug(file, rite, answered, &mut t, &mut records)?;
    // "Loading is compared without these two fields."
    for (record, row) in records
        .iter_mut()
        .zip(answered[0].chunks_exact(RECORD_WORDS))
    {
        record.extend(&row[RECORD_WORDS - TREE_WORDS..]);
    }
    t[0] = records.concat();
    Ok(t)
}

/// The rows of LVAR: strings, and the name indices that stand behind them record by record.
fn names(file: &[u8], rite: &Rite, t: &mut Tables, records: &mut [Vec<u32>]) -> Result<(), String> {
    let start = section(file, b"LVAR");
    if start.is_some() != rite.lvar.is_some() {
        return Err("LVAR is there on one side only".to_owned());
    }
    let mut at = start.unwrap_or(0) + 12;
    let strings = rite.lvar.as_ref().map_or(&[][..], |lvar| &lvar.syms);
    for string in strings {
        let length = string.as_bytes().len();
        t[4].extend([at as u32 + 2, length as u32]);
        at += 2 + length;
    }
    for (irep, record) in rite.irep.iter().zip(records) {
        let before = t[5].len();
        for name in &irep.lv {
            let index = high_first(&file[at..at + 2]);
            at += 2;
            t[5].push(index);
            if *name != strings.get(index as usize).cloned() {
                return Err(format!("the original names {name:?} where {index} stands"));
            }
        }
        list(record, &t[5], 1, before);
    }
    Ok(())
}

/// The rows of DBG: file names, debug files and lines.
fn debug(
    file: &[u8],
    rite: &Rite,
    answered: &Tables,
    t: &mut Tables,
    records: &mut [Vec<u32>],
) -> Result<(), String> {
    let mut file_names = Vec::new();
    if let Some(start) = section(file, b"DBG\0") {
        file_names = names_alone(file, start)?;
        let mut at = start + 10;
        for name in &file_names {
            t[6].extend([at as u32 + 2, name.len() as u32]);
            at += 2 + name.len();
        }
    }
    for (irep, record) in rite.irep.iter().zip(records) {
        let first_file = t[7].len();
        let first_line = t[8].len();
        for debug_file in &irep.debug_files {
            let name = debug_file.filename.as_bytes();
            // Two file names may have the same text.
            let right = |index: u32| file_names.get(index as usize).is_some_and(|n| n == name);
            let answered = answered[7].get(t[7].len() + 1).copied();
            let index = match answered.filter(|index| right(*index)) {
                Some(index) => index,
                None => match file_names.iter().position(|n| n == name) {
                    Some(index) => index as u32,
                    None => return Err(format!("{name:?} is no file name")),
                },
            };
            let mut row = vec![debug_file.start_pos, index];
            let before = t[8].len();
            t[8].extend(debug_file.lines.iter().flat_map(|(p, l)| [*p, *l]));
            list(&mut row, &t[8], 2, before);
            t[7].extend(row);
        }
        list(record, &t[7], 4, first_file);
        list(record, &t[8], 2, first_line);
        let joined: Vec<u32> = irep.lines.iter().flat_map(|(p, l)| [*p, *l]).collect();
        if joined != t[8][first_line..] {
            return Err("the record's map does not join its files' maps".to_owned());
        }
    }
    Ok(())
}

/// The file names as the original reads them, by a file whose one debug record uses each of them.
fn names_alone(file: &[u8], start: usize) -> Result<Vec<Vec<u8>>, String> {
    let count = high_first(&file[start + 8..start + 10]);
    let mut end = start + 10;
    for _ in 0..count {
        end += 2 + high_first(&file[end..end + 2]) as usize;
    }
    let mut content = file[start + 8..end].to_vec();
    content.extend((6 + 11 * count).to_be_bytes());
    content.extend((count as u16).to_be_bytes());
    for i in 0..count {
        content.extend(i.to_be_bytes());
        content.extend((i as u16).to_be_bytes());
        content.extend([0; 5]);
    }
    let mut alone = oracle::plain_file(&[[0, 0]]);
    alone.extend(b"DBG\0");
    alone.extend((8 + content.len() as u32).to_be_bytes());
    alone.extend(content);
    match oracle::load(&alone) {
        Outcome::Loaded(rite) => Ok(rite.irep[0]
            .debug_files
            .iter()
            .map(|file| file.filename.as_bytes().to_vec())
            .collect()),
        other => Err(format!(
            "the file names alone: the original {}",
            other.words()
        )),
    }
}

/// The whole number of eight bytes by paper 02, "read high byte first", from the original's, which is low byte first.
fn high_byte_first(original: i64) -> i64 {
    original.swap_bytes()
}

/// Holds every lookup's answer against the original's value, but for eight-byte integers, which have paper 02's rule.
fn values(subject: &dyn Subject, file: &[u8], rite: &Rite, tables: &Tables) -> Result<(), String> {
    for (r, irep) in rite.irep.iter().enumerate() {
        let r = r as u32;
        let wrong = |what: &str, i: usize| Err(format!("record {r}: {what} {i} differs"));
        if model::instructions(file, tables, r).map(|code| code.of(file)) != Ok(irep.insn) {
            return wrong("instructions", 0);
        }
        for (i, handler) in irep.catch_handlers.iter().enumerate() {
            let found = model::handler(tables, r, i as u32).map(|h| {
                let fields = [h.kind, h.begin, h.end, h.target];
                fields.map(|field| field as usize)
            });
            let fields = [
                handler.type_.into(),
                handler.start,
                handler.end,
                handler.target,
            ];
            if found != Ok(fields) {
                return wrong("handler", i);
            }
        }
        for (i, value) in irep.pool.iter().enumerate() {
            let found = model::pool(file, tables, r, i as u32);
            let equal = match (found, value) {
                (Ok(Constant::Text(text)), PoolValue::Str(s) | PoolValue::SStr(s)) => {
                    text.of(file) == s.as_bytes()
                }
                (Ok(Constant::Int(n)), PoolValue::Int32(m)) => n == i64::from(*m),
                (Ok(Constant::Int(n)), PoolValue::Int64(m)) => n == high_byte_first(*m),
                (Ok(Constant::Float(x)), PoolValue::Float(y)) => x.to_bits() == y.to_bits(),
                (Ok(Constant::Big(big)), PoolValue::BigInt(bytes)) => big.of(file) == bytes,
                _ => false,
            };
            if !equal {
                return wrong("constant", i);
            }
        }
        for (i, symbol) in irep.syms.iter().enumerate() {
            let found = model::symbol(file, tables, r, i as u32);
            if found.map(|text| text.of(file)) != Ok(symbol.as_bytes()) {
                return wrong("symbol", i);
            }
        }
        for (i, name) in irep.lv.iter().enumerate() {
            let found = model::name(file, tables, r, i as u32);
            let text = name.as_ref().map(|name| name.as_bytes());
            if found.map(|name| name.map(|name| name.of(file))) != Ok(text) {
                return wrong("name", i);
            }
        }
        for (i, debug_file) in irep.debug_files.iter().enumerate() {
            let found = model::debug_file(file, tables, r, i as u32);
            let Ok(found) = found else {
                return wrong("debug file", i);
            };
            let map = &tables[8][found.first as usize * 2..][..found.number as usize * 2];
            let lines = debug_file.lines.iter().flat_map(|(p, l)| [p, l]);
            if found.start != debug_file.start_pos
                || found.name.of(file) != debug_file.filename.as_bytes()
                || !map.iter().eq(lines)
            {
                return wrong("debug file", i);
            }
        }
        let first = tables[0][r as usize * RECORD_WORDS + FIRST_LINE] as usize * 2;
        let map = &tables[8][first..][..irep.lines.len() * 2];
        let step = irep.lines.len() / 6 + 1;
        let near = irep
            .lines
            .iter()
            .step_by(step)
            .map(|(position, _)| *position);
        let around = near.flat_map(|p| [p.wrapping_sub(1), p, p.wrapping_add(1)]);
        for position in around.chain([0, u32::MAX]) {
            let line = line_at(&irep.lines, position);
            if subject.line_at(map, position) != line
                || model::line(tables, r, position) != Ok(line)
            {
                return wrong("line at", position as usize);
            }
        }
        let ends = [
            model::handler(tables, r, irep.catch_handlers.len() as u32).err(),
            model::pool(file, tables, r, irep.plen as u32).err(),
            model::symbol(file, tables, r, irep.slen as u32).err(),
            model::name(file, tables, r, irep.lv.len() as u32).err(),
            model::debug_file(file, tables, r, irep.debug_files.len() as u32).err(),
        ];
        if ends != [Some(22); 5] {
            return wrong("end of a list", 0);
        }
    }
    Ok(())
}
