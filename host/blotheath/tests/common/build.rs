//! Files built for tests, hostile ones among them.

use std::ops::Range;

/// A file header and these sections; the header states the file's length.
pub fn file(sections: &[Vec<u8>]) -> Vec<u8> {
    let mut file = [b"RITE0400".to_vec(), vec![0; 12], sections.concat()].concat();
    state_length(&mut file);
    file
}

/// Where a file's header states its size.
pub const SIZE: Range<usize> = 8..12;

/// Makes the header state the file's length, where the file reaches so far.
pub fn state_length(file: &mut [u8]) {
    let length = file.len() as u32;
    if let Some(size) = file.get_mut(SIZE) {
        size.copy_from_slice(&length.to_be_bytes());
    }
}

/// A file cut, or filled with zeros, to a length that its header states.
pub fn resized(file: &[u8], length: usize) -> Vec<u8> {
    let mut file = file.to_vec();
    file.resize(length, 0);
    state_length(&mut file);
    file
}

/// A drawing that somebody took for a pattern: the start of a PNG picture, so many bytes long.
pub fn drawing(length: usize) -> Vec<u8> {
    let mut drawing = b"\x89PNG\r\n\x1a\n\0\0\0\rIHDR\0\0\0\x40\0\0\0\x40\x08\x02\0\0\0".to_vec();
    drawing.resize(length, 0);
    drawing
}

pub fn section(mark: &[u8; 4], content: &[u8]) -> Vec<u8> {
    let size = 8 + content.len() as u32;
    [&mark[..], &size.to_be_bytes(), content].concat()
}

pub fn irep(content: &[u8]) -> Vec<u8> {
    section(b"IREP", &[&[0; 4], content].concat())
}

/// The header of a record without handlers.
pub fn head(size: u32, nlocals: u16, nregs: u16, rlen: u16, ilen: u32) -> Vec<u8> {
    let mut head = size.to_be_bytes().to_vec();
    for field in [nlocals, nregs, rlen, 0] {
        head.extend(field.to_be_bytes());
    }
    head.extend(ilen.to_be_bytes());
    head
}

/// Where a record's header has its number of locals, and its number of registers.
pub const NLOCALS: Range<usize> = 4..6;
pub const NREGS: Range<usize> = 6..8;

/// A record of this code, with constants and symbols as bytes behind their counts.
pub fn record(rlen: u16, code: &[u8], constants: &[&[u8]], symbols: &[&[u8]]) -> Vec<u8> {
    let mut rest = code.to_vec();
    rest.extend((constants.len() as u16).to_be_bytes());
    rest.extend(constants.concat());
    rest.extend((symbols.len() as u16).to_be_bytes());
    for symbol in symbols {
        rest.extend((symbol.len() as u16).to_be_bytes());
        rest.extend(*symbol);
        rest.push(0);
    }
    let size = 16 + rest.len() as u32;
    [head(size, 1, 8, rlen, code.len() as u32), rest].concat()
}

/// A text as a constant.
pub fn text(bytes: &[u8]) -> Vec<u8> {
    let length = (bytes.len() as u16).to_be_bytes();
    [&[0], &length[..], bytes, &[0]].concat()
}

/// A file of one record.
pub fn one(code: &[u8], constants: &[&[u8]], symbols: &[&[u8]]) -> Vec<u8> {
    file(&[irep(&record(0, code, constants, symbols))])
}

/// A file of one record of this code, with so many registers.
pub fn with_registers(registers: u16, code: &[u8], symbols: &[&[u8]]) -> Vec<u8> {
    let mut record = record(0, code, &[], symbols);
    record[NREGS].copy_from_slice(&registers.to_be_bytes());
    file(&[irep(&record)])
}

/// A file of one record of this code, with handlers that go to these targets.
pub fn with_handlers(code: &[u8], targets: &[u32]) -> Vec<u8> {
    let mut content = head(0, 1, 8, 0, code.len() as u32);
    content[11] = targets.len() as u8;
    content.extend(code);
    for target in targets {
        content.extend([0, 0, 0, 0, 0, 0, 0, 0, 1]);
        content.extend(target.to_be_bytes());
    }
    content.extend([0; 4]);
    let size = content.len() as u32;
    content[..4].copy_from_slice(&size.to_be_bytes());
    file(&[irep(&content)])
}

/// The distance between records that share code: a size that is also the opcode LOADNIL.
const STRIDE: usize = 17;

/// A size past every file's end, which ends the records; its bytes are LOADNIL and two NOPs.
const LAST_SIZE: u32 = 0x1100_0000;

const RECORDS: usize = 1_024;

/// Opcodes, by their names.
pub const NOP: u8 = 0;
pub const MOVE: u8 = 1;
pub const LOADL: u8 = 2;
pub const LOADSYM: u8 = 16;
pub const LOADNIL: u8 = 17;
pub const GETIDX0: u8 = 36;
pub const SETIDX: u8 = 37;
pub const JMP: u8 = 38;
pub const JMPNOT: u8 = 40;
pub const SSEND: u8 = 47;
pub const SSEND0: u8 = 48;
pub const SSENDB: u8 = 49;
pub const SEND: u8 = 50;
pub const SEND0: u8 = 51;
pub const SENDB: u8 = 52;
pub const SUPER: u8 = 55;
pub const RETURN: u8 = 61;
pub const ADD: u8 = 69;
pub const ARRAY: u8 = 82;
pub const ARRAY2: u8 = 83;
pub const ARYPUSH: u8 = 85;
pub const HASH: u8 = 94;
pub const HASHADD: u8 = 95;
pub const LAMBDA: u8 = 97;
pub const BLOCK: u8 = 98;
pub const METHOD: u8 = 99;
pub const CLASS: u8 = 103;
pub const EXEC: u8 = 105;
pub const DEF: u8 = 106;
pub const TDEF: u8 = 107;
pub const SDEF: u8 = 108;
pub const TCLASS: u8 = 112;
pub const EXT1: u8 = 115;
pub const EXT2: u8 = 116;
pub const EXT3: u8 = 117;
pub const STOP: u8 = 118;

/// How many records share their code, and the bytes of it: fewer for the model, which is slow.
///
/// The high byte of the length is also the opcode LOADNIL or TCLASS.
pub const CODE: (usize, usize) = if cfg!(feature = "model") {
    (200, 0x1100)
} else {
    (RECORDS, 0x7000)
};

/// A file of records in a chain that share their code. It passes where the register is below 17.
///
/// The code of each record begins with the headers of those behind it, whose bytes are harmless instructions.
pub fn shared_code(last_register: u8) -> Vec<u8> {
    let (records, length) = CODE;
    let mut content = Vec::new();
    let mut end = 0;
    for number in 0..records {
        let start = number * STRIDE + 16;
        // The code ends behind a STOP of the tail, where four zeros are no constants and no symbols.
        end = start + length;
        while (end - records * STRIDE) % 5 != 1 {
            end += 1;
        }
        let is_last = number + 1 == records;
        let size = if is_last { LAST_SIZE } else { STRIDE as u32 };
        let rlen = if is_last { 0 } else { 1 };
        content.extend(head(size, 0, 17, rlen, (end - start) as u32));
        content.push(0);
    }
    content.extend([118, 0, 0, 0, 0].repeat(length / 5 + 4));
    // An instruction that the last record alone has.
    content[end - 3..end - 1].copy_from_slice(&[17, last_register]);
    file(&[irep(&content)])
}

/// A file whose 1,024 records share so many constants of three bytes.
pub fn shared_constants(constants: usize) -> Vec<u8> {
    let mut pool = (constants as u16).to_be_bytes().to_vec();
    pool.extend([7, 0, 10].repeat(constants));
    shared_pool(&pool)
}

/// A file whose 1,024 records share a text.
pub fn shared_text(length: u16) -> Vec<u8> {
    let text = text(&vec![b'x'; length.into()]);
    shared_pool(&[&[0, 1], &text[..]].concat())
}

/// Records whose code ends where one pool begins.
fn shared_pool(pool: &[u8]) -> Vec<u8> {
    let mut content = Vec::new();
    for number in 1..=RECORDS {
        let size = if number == RECORDS { LAST_SIZE } else { 16 };
        let code = (RECORDS - number) * 16;
        content.extend(head(size, 1, 1, 0, code as u32));
    }
    content.extend(pool);
    content.extend([0, 0]);
    file(&[irep(&content)])
}

/// A file of one record with as many jumps as it holds, all over each other.
pub fn many_jumps() -> Vec<u8> {
    let jumps = 10_000;
    let mut code = Vec::new();
    for number in 0..jumps {
        // Forward from the first half into the second, and back.
        let target = 3 * ((number * 7_919) % jumps);
        let distance = target - (3 * number + 3);
        code.push(38);
        code.extend((distance as i16).to_be_bytes());
    }
    code.push(118);
    one(&code, &[], &[])
}

/// A file of one record where every step names a constant of nearly the whole file.
pub fn long_constant() -> Vec<u8> {
    let text = text(&[b'<'; 0xb000]);
    let mut code = [92, 0, 0].repeat(6_000);
    code.push(118);
    one(&code, &[&text], &[])
}

/// A file of one record where every step touches all of 65,535 registers.
pub fn all_registers() -> Vec<u8> {
    let mut code = [EXT3, HASHADD, 0, 0, 0x7f, 0xff].repeat(10_000);
    code.push(STOP);
    with_registers(u16::MAX, &code, &[])
}

/// A record of 1,024 children, or a chain of 1,024 records.
pub fn tree(wide: bool) -> Vec<u8> {
    let mut content = Vec::new();
    for number in 0..RECORDS {
        let rlen = match (wide, number) {
            (true, 0) => RECORDS as u16 - 1,
            (true, _) => 0,
            (false, number) => u16::from(number + 1 < RECORDS),
        };
        content.extend(record(rlen, &[118], &[], &[]));
    }
    file(&[irep(&content)])
}

/// The steps that enter the next record of a chain: the child stands second, or third behind a symbol.
const ENTERING: [&[u8]; 3] = [&[LAMBDA, 0, 0], &[TDEF, 0, 0, 0], &[SDEF, 0, 0, 0]];

/// A chain of 1,024 records, each with a step that enters the next one; with names, with lines.
pub fn chain(names: bool, lines: bool) -> Vec<u8> {
    let mut records = Vec::new();
    for number in 1..=RECORDS {
        let is_last = number == RECORDS;
        let enters = match is_last {
            true => &[],
            false => ENTERING[number % ENTERING.len()],
        };
        let mut record = record(
            u16::from(!is_last),
            &[enters, &[STOP]].concat(),
            &[],
            &[b""],
        );
        record[NLOCALS].copy_from_slice(&2u16.to_be_bytes());
        records.extend(record);
    }
    let mut sections = vec![irep(&records)];
    if names {
        sections.push(lvar(RECORDS));
    }
    if lines {
        sections.push(dbg(RECORDS));
    }
    file(&sections)
}

/// Where the code of a file's first record begins.
pub const FIRST_CODE: usize = 20 + 12 + 16;

/// The symbols of a record with the newer opcodes.
pub const NEWER_SYMBOLS: [&[u8]; 3] = [b"count", b"rim", b"round"];

/// The newer opcodes in a record of these symbols and two children, then STOP.
#[rustfmt::skip]
pub const NEWER: [u8; 18] = [
    GETIDX0, 3, 1,
    SSEND0, 4, 2,
    SEND0, 3, 0,
    TDEF, 4, 1, 0,
    SDEF, 3, 2, 1,
    STOP,
];

/// A file with the newer opcodes: record 0 defines a method by record 1, which has a block, record 2, and a method by record 3.
pub fn newer() -> Vec<u8> {
    let mut main = record(2, &NEWER, &[], &NEWER_SYMBOLS);
    main[NLOCALS].copy_from_slice(&3u16.to_be_bytes());
    let leaf = record(0, &[LOADNIL, 1, RETURN, 1], &[], &[]);
    let parent = record(1, &[BLOCK, 1, 0, RETURN, 1], &[], &[]);
    let mut names = vec![0, 0, 0, 2, 0, 4];
    names.extend(b"rods\0\x05pitch");
    names.extend([0, 0, 0, 1]);
    let records = [main, parent, leaf.clone(), leaf].concat();
    file(&[irep(&records), section(b"LVAR", &names)])
}

/// Steps that touch registers by their operands, in a record of one symbol, and some that touch no more than their operands name.
#[rustfmt::skip]
pub const TOUCHING: [u8; 43] = [
    LOADNIL, 1,
    MOVE, 2, 1,
    ADD, 1,
    SETIDX, 3,
    SEND, 2, 0, 0,
    SSEND, 2, 0, 2,
    SENDB, 2, 0, 0x11,
    SUPER, 4, 15,
    ARRAY, 2, 1,
    ARRAY2, 1, 4, 3,
    HASH, 2, 0,
    EXT2, HASHADD, 2, 0, 2,
    JMP, 0, 0,
    STOP,
];

/// A file of these steps, whose register 1 holds a named local.
pub fn touching() -> Vec<u8> {
    let mut main = record(0, &TOUCHING, &[], &[b"round"]);
    main[NLOCALS].copy_from_slice(&2u16.to_be_bytes());
    let mut names = vec![0, 0, 0, 1, 0, 4];
    names.extend(b"rods\0\0");
    file(&[irep(&main), section(b"LVAR", &names)])
}

/// How many registers, constants, symbols and children the record with wide operands has.
pub const WIDE_NUMBER: u16 = 300;

/// Steps behind prefixes in a record of that many things, with operands at and past 255.
#[rustfmt::skip]
pub const WIDE: [u8; 50] = [
    EXT1, LOADNIL, 1, 43,
    EXT2, LOADL, 1, 1, 0,
    EXT3, MOVE, 0, 255, 1, 0,
    EXT2, LOADSYM, 1, 1, 43,
    EXT3, SEND, 1, 0, 1, 1, 1,
    EXT2, BLOCK, 1, 1, 0,
    EXT3, METHOD, 1, 0, 1, 43,
    EXT1, JMPNOT, 1, 0, 0, 4,
    EXT3, JMP, 255, 246,
    EXT2, STOP,
];

/// A file with wide operands: constant n is n + 1,000, symbol n is `s` and n, and the registers 256 and 299 hold named locals.
pub fn wide() -> Vec<u8> {
    let constants: Vec<Vec<u8>> = (0..u32::from(WIDE_NUMBER))
        .map(|number| [&[1], &(1_000 + number).to_be_bytes()[..]].concat())
        .collect();
    let symbols: Vec<String> = (0..WIDE_NUMBER)
        .map(|number| format!("s{number}"))
        .collect();
    let constants: Vec<&[u8]> = constants.iter().map(Vec::as_slice).collect();
    let symbols: Vec<&[u8]> = symbols.iter().map(String::as_bytes).collect();
    let mut main = record(WIDE_NUMBER, &WIDE, &constants, &symbols);
    for field in [NLOCALS, NREGS] {
        main[field].copy_from_slice(&WIDE_NUMBER.to_be_bytes());
    }
    let child = record(0, &[LOADNIL, 1, RETURN, 1], &[], &[]);
    let records = [main, child.repeat(WIDE_NUMBER.into())].concat();
    file(&[irep(&records), section(b"LVAR", &wide_names())])
}

/// Two strings, and the locals in registers 1 to 299, all but two of them without a name.
fn wide_names() -> Vec<u8> {
    let mut names = vec![0, 0, 0, 2, 0, 4];
    names.extend(b"rods\0\x05pitch");
    for register in 1..WIDE_NUMBER {
        let name: u16 = match register {
            256 => 0,
            299 => 1,
            _ => 65_535,
        };
        names.extend(name.to_be_bytes());
    }
    names
}

/// One string, and a record's one local variable named by it, so many times.
fn lvar(records: usize) -> Vec<u8> {
    let mut content = 1u32.to_be_bytes().to_vec();
    content.extend([0, 1, b'x']);
    content.extend([0, 0].repeat(records));
    section(b"LVAR", &content)
}

/// One file name, and so many debug records of one file whose packed map has one line, in numbers of five bytes, the longest.
fn dbg(records: usize) -> Vec<u8> {
    let map = [128, 128, 128, 128, 0, 129, 128, 128, 128, 0];
    let mut record = vec![0, 0, 0, 0, 0, 1];
    // The file's start, its name, the bytes of its map, their kind.
    record.extend([0, 0, 0, 0, 0, 0, 0, 0, 0, map.len() as u8, 2]);
    record.extend(map);
    let size = record.len() as u32;
    record[..4].copy_from_slice(&size.to_be_bytes());
    let mut content = vec![0, 1, 0, 1, b'x'];
    content.extend(record.repeat(records));
    section(b"DBG\0", &content)
}

/// Where CLASS stands in a pattern that defines a class, and EXEC.
pub const AT_CLASS: u32 = 4;
pub const AT_EXEC: u32 = 7;

/// A pattern that defines a class whose body is its second record.
#[rustfmt::skip]
pub fn class() -> Vec<u8> {
    let code = [
        LOADNIL, 1,
        LOADNIL, 2,
        CLASS, 1, 0,
        EXEC, 1, 0,
        RETURN, 1,
        STOP,
    ];
    let main = record(1, &code, &[], &[b"Oval"]);
    let body = record(0, &[LOADNIL, 1, RETURN, 1], &[], &[]);
    file(&[irep(&[main, body].concat())])
}
