//! What the original does where the papers leave it: refusals 1, 6, 13, 14, 27 and 28, two kinds of constants, prefixes, and fetch above 118.

use original::Error;
use original::rite::insn::{FETCH_TABLE, Fetched};
use original::rite::rite::{PoolValue, Rite, load};
use std::panic::catch_unwind;

/// One record of 20 bytes with so many locals and no code.
fn record(nlocals: u8) -> Vec<u8> {
    let mut record = vec![0, 0, 0, 20, 0, nlocals];
    record.extend([0; 14]);
    record
}

fn section(mark: &[u8; 4], content: &[u8]) -> Vec<u8> {
    let size = 8 + content.len() as u32;
    [&mark[..], &size.to_be_bytes(), content].concat()
}

fn irep(records: &[Vec<u8>]) -> Vec<u8> {
    section(b"IREP", &[vec![0; 4], records.concat()].concat())
}

/// One record with one constant and no code.
fn with_constant(constant: &[u8]) -> Vec<u8> {
    let size = 20 + constant.len() as u8;
    let head = [0, 0, 0, size, 0, 1, 0, 0, 0, 0, 0, 0, 0, 0, 0, 0, 0, 1];
    [&head[..], constant, &[0, 0]].concat()
}

/// An LVAR section with one string that one local has.
fn lvar(name: u8) -> Vec<u8> {
    section(b"LVAR", &[0, 0, 0, 1, 0, 1, name, 0, 0])
}

/// A DBG section with one entry of kind 0.
fn dbg(start: [u8; 4], lines: &[u8]) -> Vec<u8> {
    let mut content = vec![0, 1, 0, 1, b'f', 0, 0, 0];
    content.extend([17 + lines.len() as u8, 0, 1]);
    content.extend(start);
    content.extend([0, 0, 0, 0, 0, lines.len() as u8 / 2, 0]);
    content.extend(lines);
    section(b"DBG\0", &content)
}

fn file(sections: &[Vec<u8>]) -> Vec<u8> {
    [b"RITE0400".to_vec(), vec![0; 12], sections.concat()].concat()
}

fn loaded(file: &[u8]) -> Rite<'_> {
    load(file).expect("the original loads this file")
}

#[test]
fn ident_and_size_are_not_looked_at() {
    let mut other = file(&[irep(&[record(1)])]);
    other[..4].copy_from_slice(b"\x89PNG");
    other[8..12].copy_from_slice(&[255; 4]);
    assert_eq!(loaded(&other).irep.len(), 1);
}

#[test]
fn eight_byte_integers_are_read_low_byte_first() {
    let file = file(&[irep(&[with_constant(&[3, 1, 2, 3, 4, 5, 6, 7, 8])])]);
    let PoolValue::Int64(number) = loaded(&file).irep[0].pool[0] else {
        panic!("no whole number of eight bytes");
    };
    assert_eq!(number, 0x0807_0605_0403_0201);
}

#[test]
fn a_zero_inside_a_pool_string_is_refused() {
    for kind in [0, 2] {
        let with_text = |text: [u8; 3]| {
            let constant = [&[kind, 0, 3][..], &text, &[0]].concat();
            file(&[irep(&[with_constant(&constant)])])
        };
        assert_eq!(loaded(&with_text(*b"abc")).irep[0].pool.len(), 1);
        for text in [*b"a\0c", *b"\0bc", *b"ab\0", [0; 3]] {
            assert_eq!(load(&with_text(text)).err(), Some(Error::InvalidFormat));
        }
    }
}

#[test]
fn a_second_irep_replaces_the_first() {
    let file = file(&[
        irep(&[record(2)]),
        lvar(b'a'),
        irep(&[record(1), record(1)]),
    ]);
    let rite = loaded(&file);
    assert_eq!(rite.irep.len(), 2);
    assert!(rite.irep.iter().all(|irep| irep.lv.is_empty()));
    assert!(rite.lvar.is_some());
}

#[test]
fn a_second_lvar_replaces_the_first() {
    let file = file(&[irep(&[record(2)]), lvar(b'a'), lvar(b'b')]);
    let rite = loaded(&file);
    assert_eq!(rite.irep[0].lv, [Some(c"b".to_owned())]);
}

#[test]
fn a_second_dbg_replaces_the_first() {
    let file = file(&[
        irep(&[record(1)]),
        dbg([0; 4], &[0, 7]),
        dbg([0; 4], &[0, 8]),
    ]);
    assert_eq!(loaded(&file).irep[0].lines, [(0, 8)]);
}

#[test]
fn names_and_lines_before_irep_are_read_for_no_record() {
    let early = file(&[lvar(b'a'), dbg([0; 4], &[0, 7]), irep(&[record(2)])]);
    let rite = loaded(&early);
    assert_eq!(rite.lvar.unwrap().syms, [c"a".to_owned()]);
    assert!(rite.irep[0].lv.is_empty());
    assert!(rite.irep[0].lines.is_empty());
}

#[test]
fn no_limits() {
    let long = file(&[section(b"END\0", &[0; 70_000])]);
    assert!(loaded(&long).irep.is_empty());
    let many = file(&[irep(&vec![record(1); 1_025])]);
    assert_eq!(loaded(&many).irep.len(), 1_025);
}

#[test]
fn a_position_past_the_last_panics() {
    let good = file(&[irep(&[record(1)]), dbg([255; 4], &[0, 7])]);
    assert_eq!(loaded(&good).irep[0].lines, [(u32::MAX, 7)]);
    let past = file(&[irep(&[record(1)]), dbg([255; 4], &[0, 7, 0, 7])]);
    assert!(catch_unwind(|| load(&past).is_ok()).is_err());
}

#[test]
fn reads_past_the_end_panic_or_are_errors() {
    let ends = |file: Vec<u8>| catch_unwind(|| format!("{:?}", load(&file).err().unwrap()));
    let bare = irep(&[]);
    assert!(ends(file(&[bare.clone(), b"LVAR".to_vec()])).is_err());
    let end = file(&[bare.clone(), b"END\0".to_vec()]);
    assert_eq!(ends(end).unwrap(), "General");
    let dbg = file(&[bare, b"DBG\0\0\0\0\x0b\0\0".to_vec()]);
    assert_eq!(ends(dbg).unwrap(), "TooShort");
}

#[test]
fn a_prefix_is_fetched_by_itself() {
    for prefix in 115..=117 {
        let code = [prefix, 1, 0, 0, 0, 0];
        let mut rest = &code[..];
        let fetched = FETCH_TABLE[usize::from(prefix)](&mut rest);
        assert!(matches!(fetched, Ok(Fetched::Z)));
        assert_eq!(rest, &code[1..]);
    }
}

#[test]
fn fetch_has_119_rows() {
    assert_eq!(FETCH_TABLE.len(), 119);
}
