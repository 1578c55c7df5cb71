//! Patterns of any size that pass: a record with children that are alike.

use crate::parts::{file, section};

/// The code of a child: calls, constants, a loop and a return.
const CODE: [u8; 43] = [
    57, 4, 0, 0, // ENTER
    2, 3, 0, // LOADL R3 K0
    92, 4, 1, // STRING R4 K1
    47, 3, 0, 1, // SSEND R3 :a 1
    1, 5, 3, // MOVE
    3, 6, 40, // LOADI
    80, 5, // GT
    40, 5, 0, 6, // JMPNOT to behind the next two
    70, 5, 1, // ADDI
    38, 255, 241, // JMP back
    50, 4, 1, 1, // SEND R4 :b 1
    69, 4, // ADD
    61, 4, // RETURN R4
    118, 118, 118, // never reached
];

fn text(bytes: &[u8]) -> Vec<u8> {
    let mut text = (bytes.len() as u16).to_be_bytes().to_vec();
    text.extend(bytes);
    text
}

fn ended(bytes: &[u8]) -> Vec<u8> {
    [text(bytes), vec![0]].concat()
}

fn head(size: usize, nlocals: u16, nregs: u16, rlen: u16, ilen: usize) -> Vec<u8> {
    let mut head = (size as u32).to_be_bytes().to_vec();
    for field in [nlocals, nregs, rlen, 0] {
        head.extend(field.to_be_bytes());
    }
    head.extend((ilen as u32).to_be_bytes());
    head
}

/// A child: its number makes its constant.
fn child(number: usize) -> Vec<u8> {
    let mut rest = CODE.to_vec();
    rest.extend([0, 2, 5]);
    rest.extend((number as f64).to_le_bytes());
    rest.push(0);
    rest.extend(ended(b"a row of weaving"));
    rest.extend([0, 2]);
    rest.extend(ended(b"puts"));
    rest.extend(ended(b"round"));
    [head(16 + rest.len(), 3, 8, 0, CODE.len()), rest].concat()
}

/// The first record: a block of each child, as far as one byte numbers them.
fn first(children: usize) -> Vec<u8> {
    let mut code = Vec::new();
    for number in 0..children.min(256) {
        code.extend([98, 1, number as u8]);
    }
    code.push(118);
    let rest = [&code[..], &[0, 0, 0, 0]].concat();
    [
        head(16 + rest.len(), 1, 4, children as u16, code.len()),
        rest,
    ]
    .concat()
}

fn names(children: usize) -> Vec<u8> {
    let mut content = vec![0, 0, 0, 2];
    content.extend(text(b"stakes"));
    content.extend(text(b"pitch"));
    for _ in 0..children {
        content.extend([0, 0, 0, 1]);
    }
    section(b"LVAR", &content)
}

fn lines(children: usize) -> Vec<u8> {
    let mut content = vec![0, 1];
    content.extend(text(b"ladder.rb"));
    for number in 0..=children {
        // Packed pairs: a position and a line, then five positions on and one line on.
        let mut map = vec![0, 1 + (number % 100) as u8];
        for _ in 0..6 {
            map.extend([5, 1]);
        }
        let mut file = vec![0, 0, 0, 0, 0, 0];
        file.extend((map.len() as u32).to_be_bytes());
        file.push(2);
        file.extend(map);
        content.extend((6 + file.len() as u32).to_be_bytes());
        content.extend([0, 1]);
        content.extend(file);
    }
    section(b"DBG\0", &content)
}

fn of_children(children: usize) -> Vec<u8> {
    let mut records = vec![0; 4];
    records.extend(first(children));
    (0..children).for_each(|number| records.extend(child(number)));
    file(&[
        section(b"IREP", &records),
        lines(children),
        names(children),
        section(b"END\0", &[]),
    ])
}

/// The largest pattern of at most so many bytes.
pub fn pattern(most: usize) -> Vec<u8> {
    let mut children = 1;
    while of_children(children + 1).len() <= most {
        children += 1;
    }
    of_children(children)
}
