//! The papers' samples, and the boundaries between their refusals.

use model::*;

/// Rows enough for every sample.
fn enough() -> Sizes {
    Sizes::of_rows([64; 9])
}

fn be2(n: usize) -> [u8; 2] {
    (n as u16).to_be_bytes()
}

fn be4(n: usize) -> [u8; 4] {
    (n as u32).to_be_bytes()
}

fn header(size: usize) -> Vec<u8> {
    [&b"RITE0400"[..], &be4(size), &[0; 8]].concat()
}

/// The file with other bytes at a place.
fn changed(file: &[u8], at: usize, bytes: &[u8]) -> Vec<u8> {
    let mut file = file.to_vec();
    file[at..at + bytes.len()].copy_from_slice(bytes);
    file
}

/// The file with another size in its header.
fn sized(file: &[u8], size: usize) -> Vec<u8> {
    changed(file, 8, &be4(size))
}

/// A record with exact size: nlocals, nregs, rlen, code, handlers, pool, symbols.
fn record(
    locals: [usize; 3],
    code: &[u8],
    handlers: &[[usize; 4]],
    pool: &[&[u8]],
    symbols: &[&[u8]],
) -> Vec<u8> {
    let mut body = [be2(locals[0]), be2(locals[1]), be2(locals[2])].concat();
    body.extend(be2(handlers.len()));
    body.extend(be4(code.len()));
    body.extend(code);
    for [kind, begin, end, target] in handlers {
        body.push(*kind as u8);
        body.extend([be4(*begin), be4(*end), be4(*target)].concat());
    }
    body.extend(be2(pool.len()));
    for entry in pool {
        body.extend(*entry);
    }
    body.extend(be2(symbols.len()));
    for symbol in symbols {
        body.extend(be2(symbol.len()));
        body.extend(*symbol);
        body.push(0);
    }
    [&be4(body.len() + 4)[..], &body].concat()
}

fn section(mark: &[u8; 4], content: &[u8]) -> Vec<u8> {
    [&mark[..], &be4(content.len() + 8), content].concat()
}

fn irep(records: &[Vec<u8>]) -> Vec<u8> {
    section(b"IREP", &[vec![0; 4], records.concat()].concat())
}

fn file(sections: &[Vec<u8>]) -> Vec<u8> {
    let content = sections.concat();
    let end = section(b"END\0", &[]);
    [header(20 + content.len() + end.len()), content, end].concat()
}

fn file_a() -> Vec<u8> {
    file(&[irep(&[record([1, 2, 0], &[17, 1, 61, 1], &[], &[], &[])])])
}

fn refusal(file: &[u8]) -> Refusal {
    load(file, Allowance::DESKTOP, &enough()).refusal
}

fn examined(file: &[u8]) -> Refusal {
    examined_over(file, &enough())
}

fn examined_over(file: &[u8], lent: &Sizes) -> Refusal {
    examine(file, Allowance::DESKTOP, &EVERYTHING, lent).refusal
}

/// The run of a file on the desktop, with every opcode permitted.
fn run(file: &[u8], lent: &Sizes, frame_words: usize, choices: &[u8]) -> Followed {
    let allowance = Allowance::DESKTOP;
    follow(file, allowance, &EVERYTHING, lent, frame_words, choices)
}

/// A file with one record of this code, two registers, two constants, one symbol and no child.
fn coded(code: &[u8]) -> Vec<u8> {
    file(&[irep(&[record(
        [1, 2, 0],
        code,
        &[],
        &[&[1, 0, 0, 0, 1], &[1, 0, 0, 0, 2]],
        &[b"s"],
    )])])
}

#[test]
fn file_a_is_the_papers() {
    let a = file_a();
    let mut said = b"RITE0400\0\0\0\x40\0\0\0\0\0\0\0\0".to_vec();
    said.extend(b"IREP\0\0\0\x24\0\0\0\0");
    said.extend([0, 0, 0, 24, 0, 1, 0, 2, 0, 0, 0, 0, 0, 0, 0, 4]);
    said.extend([17, 1, 61, 1, 0, 0, 0, 0]);
    said.extend(b"END\0\0\0\0\x08");
    assert_eq!(a, said);
    assert_eq!(a.len(), 64);
}

#[test]
fn file_a_loads() {
    let loaded = load(&file_a(), Allowance::DESKTOP, &enough());
    assert_eq!(loaded.refusal, 0);
    assert_eq!(loaded.rows, [1, 0, 0, 0, 0, 0, 0, 0, 0]);
    let lists = [0; 12];
    let row = [&[24, 1, 2, 0, 0, 4, 48], &lists[..], &[0, NO_PARENT]].concat();
    let (first, others) = loaded.tables[0].split_at(RECORD_WORDS);
    assert_eq!(first, row);
    assert!(others.iter().all(|w| *w == 0));
    assert!(loaded.tables[1..].iter().flatten().all(|w| *w == 0));
    assert_eq!(examined(&file_a()), 0);
}

#[test]
fn file_a_is_followed() {
    let go = |n: usize| run(&file_a(), &enough(), 2, &vec![0; n]);
    let one = go(1);
    assert_eq!(one.loaded.refusal, 0);
    assert_eq!(
        (one.finished, one.top, one.frames),
        (false, Some((0, 2)), 1)
    );
    assert_eq!(one.frame_table, [0, 2]);
    assert_eq!(one.line, None);
    for n in 2..5 {
        let more = go(n);
        assert_eq!((more.finished, more.top, more.frames), (true, None, 0));
        assert_eq!(more.frame_table, [0, 0]);
    }
}

#[test]
fn bytes_behind_the_sections() {
    for extra in 0..4 {
        assert_eq!(refusal(&[file_a(), vec![0; extra]].concat()), 0);
    }
    assert_eq!(refusal(&[file_a(), vec![0; 4]].concat()), 5);
}

#[test]
fn no_record() {
    let mut short = sized(&file_a()[..20], 31);
    short.extend(b"END\0\0\0\0\x0c\0\0\0\0");
    assert_eq!(short.len(), 32);
    assert_eq!(refusal(&short), 0);
    assert_eq!(load(&short, Allowance::DESKTOP, &enough()).rows, [0; 9]);
    assert_eq!(examined(&short), 15);
    assert_eq!(run(&short, &enough(), 0, &[]).loaded.refusal, 15);
    assert_eq!(refusal(&short[..31]), 4);
    assert_eq!(refusal(&sized(&short[..31], 32)), 28);
    short[27] = 0;
    assert_eq!(refusal(&short), 8);
}

#[test]
fn packed_numbers() {
    let value = |bytes: &[u8]| packed(bytes).map(|p| (p.value, p.bytes));
    assert_eq!(value(&[129, 1]), Ok((129, 2)));
    assert_eq!(value(&[255, 255, 255, 255, 15]), Ok((u32::MAX, 5)));
    assert_eq!(value(&[255, 255, 255, 255, 127]), Ok((u32::MAX, 5)));
    assert_eq!(value(&[255, 255, 255, 255, 143]), Err(12));
    assert_eq!(value(&[255, 255, 255, 255]), Err(7));
    assert_eq!(value(&[128, 0, 9]), Ok((0, 2)));
    assert_eq!(value(&[]), Err(7));
}

fn map(pairs: &[(u32, u32)]) -> Vec<Entry> {
    pairs
        .iter()
        .map(|(position, line)| Entry {
            position: *position,
            line: *line,
        })
        .collect()
}

#[test]
fn lines_of_positions() {
    let rising = map(&[(0, 10), (4, 12), (9, 11)]);
    assert_eq!(line_at(&rising, 3), Some(10));
    assert_eq!(line_at(&rising, 4), Some(12));
    assert_eq!(line_at(&rising, u32::MAX), Some(11));
    assert_eq!(line_at(&map(&[(0, 1), (0, 2)]), 0), Some(2));
    assert_eq!(line_at(&map(&[(4, 12)]), 3), None);
    assert_eq!(line_at(&[], 0), None);
}

#[test]
fn fetched() {
    assert_eq!(fetch(&[57, 1, 2, 3]), Ok(Fetched::W(66051)));
    assert_eq!(fetch(&[]), Err(24));
    assert_eq!(fetch(&[119]), Err(23));
    assert_eq!(fetch(&[57, 1, 2]), Err(24));
    assert_eq!(fetch(&[115]), Ok(Fetched::Z));
    assert_eq!(
        fetch(&[15, 1, 2, 3, 4, 5, 6]),
        Ok(Fetched::BSS(1, 515, 1029))
    );
}

#[test]
fn jumps() {
    assert_eq!(examined(&coded(&[38, 255, 253])), 0);
    assert_eq!(examined(&coded(&[38, 255, 252])), 18);
    assert_eq!(examined(&coded(&[38, 0, 0])), 18);
    assert_eq!(examined(&coded(&[38, 0, 0, 118])), 0);
    assert_eq!(examined(&coded(&[39, 0, 0, 0])), 18);
    assert_eq!(examined(&coded(&[39, 0, 0, 1, 1, 0, 1, 118])), 18);
    assert_eq!(examined(&coded(&[39, 0, 0, 3, 1, 0, 1, 118])), 0);
    assert_eq!(examined(&coded(&[42, 255, 253])), 0);
}

#[test]
fn instructions_that_do_not_pass() {
    for (code, number) in [
        (&[][..], 16),
        (&[119], 16),
        (&[1, 0], 16),
        (&[118, 1, 0], 16),
        (&[1, 0, 2, 118], 17),
        (&[1, 2, 0, 118], 17),
        (&[1, 1, 1, 118], 0),
        (&[2, 0, 2, 118], 17),
        (&[2, 0, 1, 118], 0),
        (&[16, 0, 1, 118], 17),
        (&[16, 0, 0, 118], 0),
        (&[97, 0, 0, 118], 17),
        (&[0], 18),
        (&[114, 1], 0),
        (&[114, 2], 17),
        (&[110, 0, 118], 0),
        (&[110, 1, 118], 17),
        (&[109, 0, 0, 118], 0),
        (&[109, 1, 0, 118], 17),
        (&[113, 9, 9, 9, 118], 0),
        (&[38, 0, 9, 1, 9, 9], 18),
        (&[1, 9, 9, 38, 0, 9], 17),
        (&[118, 1, 9, 9], 17),
        (&[3, 0, 255, 118], 0),
    ] {
        assert_eq!(examined(&coded(code)), number, "{code:?}");
    }
}

/// The instruction at the first byte.
fn step(code: &[u8]) -> Result<Step, Refusal> {
    step_at(code, 0)
}

#[test]
fn an_instruction_without_a_prefix_is_what_is_fetched() {
    for first in (0..=255).filter(|first| !is_prefix(*first)) {
        for length in 1..9 {
            let code = [&[first][..], &[1, 2, 3, 4, 5, 6, 7, 8][..length - 1]].concat();
            let fetched = fetch(&code).map(|fetched| Step {
                offset: 0,
                prefix: None,
                opcode: usize::from(first),
                operands: fetched.operands(),
                next: fetched.kind().size(),
            });
            assert_eq!(step(&code), fetched.map_err(|_| 16), "{code:?}");
        }
    }
}

#[test]
fn prefixes_widen_operands() {
    // An opcode of each kind, and the operands behind 115, 116 and 117 from the bytes 1, 2, 3 and so on.
    for (opcode, operands, sizes) in [
        (118, [[0; 3]; 3], [2, 2, 2]),
        (6, [[0x0102, 0, 0], [1, 0, 0], [0x0102, 0, 0]], [4, 3, 4]),
        (
            1,
            [[0x0102, 3, 0], [1, 0x0203, 0], [0x0102, 0x0304, 0]],
            [5, 5, 6],
        ),
        (38, [[0x0102, 0, 0]; 3], [4, 4, 4]),
        (
            50,
            [[0x0102, 3, 4], [1, 0x0203, 4], [0x0102, 0x0304, 5]],
            [6, 6, 7],
        ),
        (
            39,
            [[0x0102, 0x0304, 0], [1, 0x0203, 0], [0x0102, 0x0304, 0]],
            [6, 5, 6],
        ),
        (57, [[0x0001_0203, 0, 0]; 3], [5, 5, 5]),
        (
            15,
            [
                [0x0102, 0x0304, 0x0506],
                [1, 0x0203, 0x0405],
                [0x0102, 0x0304, 0x0506],
            ],
            [8, 7, 8],
        ),
    ] {
        for ((prefix, operands), size) in (115..).zip(operands).zip(sizes) {
            let code = [prefix, opcode, 1, 2, 3, 4, 5, 6];
            let right = Step {
                offset: 0,
                prefix: Some(prefix),
                opcode: usize::from(opcode),
                operands,
                next: size,
            };
            assert_eq!(step(&code), Ok(right));
            assert_eq!(step(&code[..size]), Ok(right));
            let cut = if size == 2 { 25 } else { 16 };
            assert_eq!(step(&code[..size - 1]), Err(cut));
        }
    }
}

#[test]
fn prefixes_that_do_not_pass() {
    for prefix in 115..=117 {
        for (code, number) in [
            (&[prefix][..], 25),
            (&[118, prefix], 25),
            (&[prefix, 115, 118], 25),
            (&[prefix, 116, 118], 25),
            (&[prefix, 117, 118], 25),
            (&[prefix, 119], 16),
            (&[prefix, 255], 16),
            (&[prefix, 1, 0, 0], 16),
            (&[prefix, 118], 0),
            (&[prefix, 0], 18),
            // An operand is no prefix.
            (&[3, 1, prefix, 118], 0),
            // "in 16's place": whichever is met first.
            (&[119, prefix], 16),
            (&[118, prefix, 119], 16),
            (&[118, prefix, prefix, 119], 25),
            // It is met before 17 and 18 of the same record.
            (&[1, 9, 9, 118, prefix], 25),
            (&[38, 0, 9, prefix], 25),
        ] {
            assert_eq!(examined(&coded(code)), number, "{code:?}");
        }
    }
}

#[test]
fn wide_operands_have_roles() {
    for (code, number) in [
        (&[115, 1, 0, 1, 1, 118][..], 0),
        (&[115, 1, 0, 2, 1, 118], 17),
        (&[115, 1, 1, 0, 1, 118], 17),
        (&[116, 1, 1, 0, 1, 118], 0),
        (&[116, 1, 1, 1, 0, 118], 17),
        (&[117, 1, 0, 1, 0, 1, 118], 0),
        (&[117, 1, 0, 1, 1, 1, 118], 17),
        (&[116, 2, 0, 0, 1, 118], 0),
        (&[116, 2, 0, 0, 2, 118], 17),
        (&[117, 16, 0, 0, 0, 0, 118], 0),
        (&[117, 16, 0, 0, 1, 0, 118], 17),
        (&[115, 114, 0, 1], 0),
        (&[115, 114, 1, 0], 17),
        (&[117, 113, 255, 255, 255, 255, 255, 118], 0),
        (&[116, 3, 0, 255, 255, 118], 0),
    ] {
        assert_eq!(examined(&coded(code)), number, "{code:?}");
    }
}

#[test]
fn jumps_behind_prefixes() {
    for (code, number) in [
        // "a jump to the opcode behind it meets 18"
        (&[38, 0, 0, 115, 118][..], 0),
        (&[38, 0, 1, 115, 118], 18),
        // The next offset is behind prefix and operands.
        (&[115, 38, 255, 252], 0),
        (&[115, 38, 255, 253], 18),
        (&[116, 38, 0, 0, 118], 0),
        (&[116, 39, 1, 255, 251, 118], 0),
        (&[115, 39, 0, 1, 255, 250, 118], 0),
        (&[117, 39, 0, 1, 255, 250, 118], 0),
        (&[117, 39, 0, 1, 255, 251, 118], 18),
        (&[115, 39, 0, 1, 0, 0], 18),
    ] {
        assert_eq!(examined(&coded(code)), number, "{code:?}");
    }
}

/// A file whose first record has this code, five registers, three constants, four symbols and two children.
fn with_children(code: &[u8]) -> Vec<u8> {
    let constant: &[u8] = &[1, 0, 0, 0, 1];
    let first = record([1, 5, 2], code, &[], &[constant; 3], &[&b"s"[..]; 4]);
    let child = record([1, 1, 0], &[118], &[], &[], &[]);
    file(&[irep(&[first, child.clone(), child])])
}

#[test]
fn newer_opcodes_have_roles() {
    for (code, number) in [
        // "GETIDX0's second operand is a register."
        (&[36, 4, 4, 118][..], 0),
        (&[36, 5, 0, 118], 17),
        (&[36, 0, 5, 118], 17),
        (&[36, 0, 255, 118], 17),
        // "In SSEND0 and SEND0 the second is a symbol."
        (&[48, 4, 3, 118], 0),
        (&[48, 5, 0, 118], 17),
        (&[48, 0, 4, 118], 17),
        (&[51, 4, 3, 118], 0),
        (&[51, 5, 0, 118], 17),
        (&[51, 0, 4, 118], 17),
        // "In TDEF and SDEF the second is a symbol and the third a child."
        (&[107, 4, 3, 1, 118], 0),
        (&[107, 5, 0, 0, 118], 17),
        (&[107, 0, 4, 0, 118], 17),
        (&[107, 0, 0, 2, 118], 17),
        (&[108, 4, 3, 1, 118], 0),
        (&[108, 5, 0, 0, 118], 17),
        (&[108, 0, 4, 0, 118], 17),
        (&[108, 0, 0, 2, 118], 17),
        // They do not end: 18 comes behind 17.
        (&[107, 0, 0, 1], 18),
        (&[107, 0, 0, 2], 17),
        (&[108, 0, 0, 1], 18),
        (&[108, 0, 0, 2], 17),
    ] {
        assert_eq!(examined(&with_children(code)), number, "{code:?}");
    }
}

#[test]
fn other_opcodes_without_a_comment_keep_their_roles() {
    for (code, number) in [
        (&[46, 4, 118][..], 0),
        (&[46, 5, 118], 17),
        (&[54, 4, 255, 118], 0),
        (&[54, 5, 0, 118], 17),
        (&[73, 4, 255, 255, 118], 0),
        (&[73, 5, 0, 0, 118], 17),
        (&[74, 4, 255, 255, 118], 0),
        (&[74, 5, 0, 0, 118], 17),
        (&[63], 0),
        (&[64], 0),
        (&[65], 0),
        (&[66], 0),
    ] {
        assert_eq!(examined(&with_children(code)), number, "{code:?}");
    }
}

#[test]
fn registers_beside_operands() {
    // There are five registers.
    for (code, number) in [
        (&[69, 3, 118][..], 0),
        (&[69, 4, 118], 17),
        (&[37, 2, 118], 0),
        (&[37, 3, 118], 17),
        (&[47, 4, 0, 0, 118], 0),
        (&[47, 2, 0, 0x02, 118], 0),
        (&[50, 2, 0, 0x03, 118], 17),
        (&[50, 2, 0, 0x10, 118], 0),
        (&[50, 3, 0, 0x10, 118], 17),
        (&[50, 3, 0, 0x0f, 118], 0),
        (&[47, 4, 0, 0xf0, 118], 17),
        (&[49, 3, 0, 0, 118], 0),
        (&[49, 4, 0, 0, 118], 17),
        (&[52, 1, 0, 0xff, 118], 0),
        (&[52, 2, 0, 0xff, 118], 17),
        (&[55, 3, 0, 118], 0),
        (&[55, 4, 0, 118], 17),
        (&[116, 55, 3, 255, 0, 118], 0),
        (&[116, 55, 3, 0, 1, 118], 17),
        (&[82, 0, 5, 118], 0),
        (&[82, 0, 6, 118], 17),
        (&[82, 4, 0, 118], 0),
        (&[82, 5, 0, 118], 17),
        (&[83, 4, 2, 3, 118], 0),
        (&[83, 4, 2, 4, 118], 17),
        (&[83, 4, 4, 0, 118], 0),
        (&[83, 4, 5, 0, 118], 17),
        (&[85, 0, 4, 118], 0),
        (&[85, 0, 5, 118], 17),
        (&[89, 0, 255, 4, 118], 0),
        (&[89, 0, 255, 5, 118], 17),
        (&[94, 0, 0, 118], 0),
        (&[94, 1, 2, 118], 0),
        (&[94, 2, 2, 118], 17),
        (&[95, 0, 2, 118], 0),
        (&[95, 1, 2, 118], 17),
        // Sums of 65,536 and more.
        (&[117, 85, 0, 1, 255, 255, 118], 17),
        (&[116, 94, 1, 128, 0, 118], 17),
        (&[116, 95, 0, 128, 0, 118], 17),
        (&[116, 95, 0, 255, 255, 118], 17),
        // "17 before 18 at each instruction in turn", and 16 and 25 before both.
        (&[69, 3], 18),
        (&[69, 4], 17),
        (&[38, 0, 9, 69, 4, 118], 18),
        (&[69, 4, 38, 0, 9], 17),
        (&[69, 4, 118, 119], 16),
        (&[69, 4, 118, 115], 25),
    ] {
        assert_eq!(examined(&with_children(code)), number, "{code:?}");
    }
}

#[test]
fn children_stand_second_or_third() {
    let with_child = |operand: usize| {
        let opcodes = OPCODES.iter();
        let such = opcodes.filter(|opcode| roles(opcode)[operand] == Role::Child);
        such.map(|opcode| opcode.name).collect::<Vec<_>>()
    };
    assert!(with_child(0).is_empty());
    assert_eq!(with_child(1), ["LAMBDA", "BLOCK", "METHOD", "EXEC"]);
    assert_eq!(with_child(2), ["TDEF", "SDEF"]);
}

#[test]
fn whole_trees() {
    assert!(is_whole(&[2, 0, 0]));
    assert!(!is_whole(&[0, 1]));
    assert!(is_whole(&[0]));
    assert!(!is_whole(&[]));
    assert!(!is_whole(&[1]));
    assert!(is_whole(&[2, 1, 0, 0]));
    assert_eq!(child(&[2, 1, 0, 0], 0, 0), 1);
    assert_eq!(child(&[2, 1, 0, 0], 0, 1), 3);
}

#[test]
fn handlers_at_prefixes() {
    let code = [115, 6, 0, 1, 118];
    for target in 0..6 {
        let handler = [0, 0, 0, target];
        let file = file(&[irep(&[record([1, 2, 0], &code, &[handler], &[], &[])])]);
        let number = if [0, 4].contains(&target) { 0 } else { 19 };
        assert_eq!(examined(&file), number, "{target}");
    }
}

#[test]
fn handlers_and_maps_that_do_not_pass() {
    let caught = |target: usize| {
        let code = [1, 0, 0, 118];
        file(&[irep(&[record(
            [1, 1, 0],
            &code,
            &[[0, 9, 9, target]],
            &[],
            &[],
        )])])
    };
    for (target, number) in [(0, 0), (3, 0), (1, 19), (4, 19), (1 << 31, 19)] {
        assert_eq!(examined(&caught(target)), number, "{target}");
    }
    let mapped = |pairs: [[usize; 2]; 2]| {
        let mut debug = vec![0, 1, 0, 1, b'f', 0, 0, 0, 29, 0, 1];
        debug.extend([0, 0, 0, 0, 0, 0, 0, 0, 0, 2, 1]);
        for [position, line] in pairs {
            debug.extend(be4(position));
            debug.extend(be2(line));
        }
        let code = record([1, 0, 0], &[118], &[], &[], &[]);
        file(&[irep(&[code]), section(b"DBG\0", &debug)])
    };
    assert_eq!(examined(&mapped([[3, 1], [3, 2]])), 0);
    assert_eq!(examined(&mapped([[3, 1], [2, 2]])), 20);
    assert_eq!(examined(&mapped([[3, 1], [2, 1]])), 0);
}

#[test]
fn idents() {
    let a = file_a();
    for (at, letter) in b"RITE".iter().enumerate() {
        for other in [letter ^ 32, letter + 1, letter + 128, 0] {
            assert_eq!(refusal(&changed(&a, at, &[other])), 27, "{other} at {at}");
        }
    }
    for other in [b"ETIR", b"\x89PNG", b"%PDF", b"04RI"] {
        let drawing = changed(&a, 0, other);
        assert_eq!(refusal(&drawing), 27, "{other:?}");
        assert_eq!(examined(&drawing), 27, "{other:?}");
        assert_eq!(run(&drawing, &enough(), 0, &[5]).loaded.refusal, 27);
    }
}

#[test]
fn sizes_in_the_file_header() {
    let a = file_a();
    for size in [0, 1, 63, 64] {
        assert_eq!(refusal(&sized(&a, size)), 0, "{size}");
    }
    let low_first = 64 << 24;
    for size in [65, 66, 64 + 256, 64 + 65_536, low_first, 1 << 31] {
        assert_eq!(refusal(&sized(&a, size)), 28, "{size}");
    }
    assert_eq!(refusal(&changed(&a, 8, &[255; 4])), 28);
    let longer = [a, vec![0; 3]].concat();
    assert_eq!(refusal(&sized(&longer, 67)), 0);
    assert_eq!(refusal(&sized(&longer, 68)), 28);
}

#[test]
fn order_of_the_first_refusals() {
    let ident = (0, &b"RITF"[..]);
    let size = (8, &[255; 4][..]);
    let major = (4, &b"03"[..]);
    for (length, changes, number) in [
        (65_537, &[ident, size, major][..], 1),
        (65_537, &[], 1),
        (65_536, &[ident, size, major], 27),
        (65_536, &[size, major], 28),
        (65_536, &[], 5),
        (19, &[ident, size, major], 2),
        (19, &[], 2),
        (20, &[ident, size, major], 27),
        (20, &[ident, size], 27),
        (20, &[ident, major], 27),
        (20, &[ident], 27),
        (31, &[ident], 27),
        (20, &[size, major], 28),
        (20, &[size], 28),
        (31, &[size], 28),
        (32, &[size, major], 28),
        (20, &[major], 3),
        (31, &[major], 3),
        (32, &[major], 3),
        (20, &[], 4),
        (31, &[], 4),
        (32, &[], 5),
    ] {
        let mut file = header(0);
        for (at, bytes) in changes {
            file = changed(&file, *at, bytes);
        }
        file.resize(length, 1);
        assert_eq!(refusal(&file), number, "{length} {changes:?}");
    }
    assert_eq!(refusal(&[]), 2);
    assert_eq!(refusal(&sized(&header(0), 20)), 4);
    assert_eq!(refusal(&sized(&header(0), 21)), 28);
}

#[test]
fn marks_and_sizes() {
    let start = header(0);
    let with = |sections: &[&[u8]]| refusal(&[&start[..], &sections.concat()].concat());
    let bare = b"IREP\0\0\0\x0c\0\0\0\0";
    assert_eq!(with(&[bare]), 0);
    assert_eq!(with(&[bare, bare]), 6);
    assert_eq!(with(&[bare, b"IREP"]), 6);
    assert_eq!(with(&[bare, b"LVAR"]), 7);
    assert_eq!(with(&[bare, b"DBG\0\0\0\0"]), 7);
    assert_eq!(with(&[bare, b"END\0"]), 7);
    assert_eq!(with(&[bare, b"END\x01"]), 5);
    assert_eq!(with(&[bare, b"END"]), 0);
    assert_eq!(with(&[b"LVAR\0\0\0\x0c\0\0\0\0"]), 6);
    assert_eq!(with(&[b"DBG\0\0\0\0\x0a\0\0", bare]), 6);
    assert_eq!(with(&[b"END\0\0\0\0\x08", bare]), 0);
    assert_eq!(with(&[bare, b"DBG\0\0\0\0\x09\0\0"]), 7);
    assert_eq!(with(&[bare, b"DBG\0\0\0\0\0\0\0"]), 7);
    assert_eq!(with(&[bare, b"DBG\0\0\0\0\x0a\0\0"]), 0);
    assert_eq!(with(&[bare, b"DBG\0\0\0\0\x0b\0\0"]), 7);
    assert_eq!(with(&[bare, b"LVAR\0\0\0\0\0\0\0\0"]), 8);
    assert_eq!(with(&[bare, b"LVAR\0\0\0\x0d\0\0\0\0"]), 7);
    assert_eq!(with(&[bare, b"LVAR\0\0\0\x0a\0\0\0\0"]), 0);
    assert_eq!(with(&[b"IREP\0\0\0\0\0\0\0\0"]), 8);
    assert_eq!(with(&[b"IREP\0\0\0\x08END\0\0\0\0\x08"]), 0);
    assert_eq!(with(&[bare, b"END\0\0\0\0\x05"]), 0);
    assert_eq!(with(&[bare, b"END\0\0\0\0\x04"]), 5);
}

/// A file with one record of these constants and symbols, and sections behind it.
fn with_texts(pool: &[&[u8]], symbols: &[&[u8]], sections: &[Vec<u8>]) -> Vec<u8> {
    let record = record([1, 1, 0], &[118], &[], pool, symbols);
    file(&[&[irep(&[record])][..], sections].concat())
}

#[test]
fn pool_strings_may_have_zeros_inside() {
    for (text, last, number) in [
        (&b""[..], 0, 0),
        (b"\0", 0, 0),
        (b"\0\0\0", 0, 0),
        (b"a\0b", 0, 0),
        (b"a\0", 0, 0),
        (b"\0b", 0, 0),
        (b"", 1, 9),
        (b"ab", b'c', 9),
        (b"\0", 255, 9),
        (b"a\0b", 1, 9),
        (b"a\0", 128, 9),
    ] {
        for kind in [0, 2] {
            let entry = [&[kind][..], &be2(text.len()), text, &[last]].concat();
            let file = with_texts(&[&entry], &[], &[]);
            let loaded = load(&file, Allowance::DESKTOP, &enough());
            assert_eq!(loaded.refusal, number, "{kind} {text:?}");
            assert_eq!(examined(&file), number, "{kind} {text:?}");
            if number == 0 {
                let Ok(Constant::Text(found)) = pool(&file, &loaded.tables, 0, 0) else {
                    panic!("no text");
                };
                assert_eq!(found.of(&file), text);
            }
        }
    }
}

#[test]
fn other_texts_have_no_zero_inside() {
    for (text, number) in [
        (&b"a"[..], 0),
        (b"ab", 0),
        (b"\0", 9),
        (b"a\0b", 9),
        (b"a\0", 9),
        (b"\0b", 9),
    ] {
        let counted = [&be2(text.len())[..], text].concat();
        let names = section(b"LVAR", &[&be4(1)[..], &counted].concat());
        let debug = section(b"DBG\0", &[&be2(1)[..], &counted].concat());
        for file in [
            with_texts(&[], &[text], &[]),
            with_texts(&[], &[], &[names]),
            with_texts(&[], &[], &[debug]),
        ] {
            assert_eq!(refusal(&file), number, "{text:?}");
            assert_eq!(examined(&file), number, "{text:?}");
        }
    }
}

#[test]
fn what_follows_a_zero_inside_a_pool_string_is_read() {
    let zero = &[0, 0, 1, 0, 0][..];
    let other = section(b"END\x01", &[]);
    for (pool, symbols, sections, number) in [
        (&[zero, zero][..], &[][..], &[][..], 0),
        (&[zero, &[4]], &[], &[], 10),
        (&[zero, &[2, 0, 0, 1]], &[], &[], 9),
        (&[zero], &[&b"\0"[..]], &[], 9),
        (&[zero], &[], &[other], 5),
    ] {
        assert_eq!(refusal(&with_texts(pool, symbols, sections)), number);
    }
}

#[test]
fn eight_byte_integers_are_high_byte_first() {
    for (bytes, number) in [
        ([0, 0, 0, 0, 0, 0, 0, 1], 1),
        ([1, 0, 0, 0, 0, 0, 0, 0], 1 << 56),
        ([255; 8], -1),
        ([255, 255, 255, 255, 255, 255, 255, 0], -256),
        ([128, 0, 0, 0, 0, 0, 0, 0], i64::MIN),
        ([127, 255, 255, 255, 255, 255, 255, 255], i64::MAX),
        ([1, 2, 3, 4, 5, 6, 7, 8], 0x0102_0304_0506_0708),
    ] {
        let integer = [&[3][..], &bytes].concat();
        let float = [&[5][..], &bytes].concat();
        let file = with_texts(&[&integer, &float], &[], &[]);
        let tables = load(&file, Allowance::DESKTOP, &enough()).tables;
        assert_eq!(pool(&file, &tables, 0, 0), Ok(Constant::Int(number)));
        let Ok(Constant::Float(found)) = pool(&file, &tables, 0, 1) else {
            panic!("no float");
        };
        // Floats are low byte first.
        assert_eq!(found.to_bits(), number.swap_bytes() as u64);
    }
}

/// A record with a part of each kind, LVAR and DBG behind it.
fn full() -> Vec<u8> {
    let first = record(
        [3, 4, 1],
        &[118],
        &[[1, 2, 3, 0], [4, 5, 6, 0]],
        &[
            &[0, 0, 2, b'a', b'b', 0],
            &[1, 255, 255, 255, 254],
            &[2, 0, 0, 0],
            &[3, 0, 0, 0, 0, 0, 0, 0, 1],
            &[5, 0, 0, 0, 0, 0, 0, 240, 63],
            &[7, 2, 10, b'1', b'2'],
        ],
        &[b"sym", b""],
    );
    let second = record([2, 1, 0], &[17, 0, 118], &[], &[], &[b"x"]);
    let mut names = be4(2).to_vec();
    names.extend(b"\0\x01p\0\x01q");
    names.extend([0, 1, 255, 255, 0, 0]);
    let mut debug = b"\0\x02\0\x01f\0\x01g".to_vec();
    debug.extend([0, 0, 0, 42, 0, 2]);
    debug.extend([0, 0, 0, 7, 0, 1, 0, 0, 0, 3, 0, 0, 5, 0, 5, 0, 6]);
    debug.extend([0, 0, 0, 9, 0, 0, 0, 0, 0, 7, 2]);
    debug.extend([1, 6, 2, 255, 255, 255, 255, 15]);
    debug.extend([0, 0, 0, 29, 0, 1]);
    debug.extend([0, 0, 0, 0, 0, 0, 0, 0, 0, 2, 1]);
    debug.extend([0, 0, 0, 8, 0, 3, 0, 0, 0, 4, 0, 2]);
    file(&[
        irep(&[first, second]),
        section(b"LVAR", &names),
        section(b"DBG\0", &debug),
    ])
}

#[test]
fn every_table() {
    let file = full();
    let loaded = load(&file, Allowance::DESKTOP, &enough());
    assert_eq!(loaded.refusal, 0);
    assert_eq!(loaded.rows, [2, 2, 6, 3, 2, 3, 2, 3, 6]);
    let t = &loaded.tables;
    assert_eq!(t[0][1..6], [3, 4, 1, 2, 1]);
    assert_eq!(t[0][6], 48);
    let mut rows = t[0].chunks(RECORD_WORDS).map(|row| &row[7..]);
    let first = [0, 2, 0, 6, 0, 2, 0, 2, 0, 2, 0, 4, 0, NO_PARENT];
    assert_eq!(rows.next(), Some(&first[..]));
    let second = [0, 0, 0, 0, 2, 1, 2, 1, 2, 1, 4, 2, 1, 0];
    assert_eq!(rows.next(), Some(&second[..]));
    assert_eq!(t[1][..8], [1, 2, 3, 0, 4, 5, 6, 0]);
    let kinds: Vec<u32> = t[2][..18].chunks(3).map(|row| row[0]).collect();
    assert_eq!(kinds, [0, 1, 2, 3, 5, 7]);
    let lengths: Vec<u32> = t[2][..18].chunks(3).map(|row| row[2]).collect();
    assert_eq!(lengths, [2, 4, 0, 8, 8, 3]);
    assert_eq!(t[5][..3], [1, 65_535, 0]);
    assert_eq!(t[7][..12], [7, 1, 0, 2, 9, 0, 2, 2, 0, 0, 4, 2]);
    assert_eq!(t[8][..12], [7, 5, 9, 6, 1, 6, 3, 5, 8, 3, 4, 2]);
}

#[test]
fn lookups() {
    let file = full();
    let t = load(&file, Allowance::DESKTOP, &enough()).tables;
    let text = |found: FoundText| found.of(&file).to_vec();
    assert_eq!(text(instructions(&file, &t, 1).unwrap()), [17, 0, 118]);
    assert_eq!(instructions(&file, &t, 2), Err(22));
    assert_eq!(handler(&t, 0, 1).unwrap().end, 6);
    assert_eq!(handler(&t, 0, 2), Err(22));
    assert_eq!(handler(&t, 1, 0), Err(22));
    let Ok(Constant::Text(ab)) = pool(&file, &t, 0, 0) else {
        panic!("no text");
    };
    assert_eq!(text(ab), b"ab");
    assert_eq!(pool(&file, &t, 0, 1), Ok(Constant::Int(-2)));
    assert_eq!(pool(&file, &t, 0, 3), Ok(Constant::Int(1)));
    assert_eq!(pool(&file, &t, 0, 4), Ok(Constant::Float(1.0)));
    let Ok(Constant::Big(big)) = pool(&file, &t, 0, 5) else {
        panic!("no big integer");
    };
    assert_eq!(text(big), [10, b'1', b'2']);
    assert_eq!(pool(&file, &t, 0, 6), Err(22));
    assert_eq!(text(symbol(&file, &t, 0, 0).unwrap()), b"sym");
    assert_eq!(text(symbol(&file, &t, 0, 1).unwrap()), b"");
    assert_eq!(text(symbol(&file, &t, 1, 0).unwrap()), b"x");
    assert_eq!(text(name(&file, &t, 0, 0).unwrap().unwrap()), b"q");
    assert_eq!(name(&file, &t, 0, 1), Ok(None));
    assert_eq!(text(name(&file, &t, 1, 0).unwrap().unwrap()), b"p");
    assert_eq!(name(&file, &t, 1, 1), Err(22));
    let found = debug_file(&file, &t, 0, 1).unwrap();
    assert_eq!((found.start, found.first, found.number), (9, 2, 2));
    assert_eq!(text(found.name), b"f");
    assert_eq!(line(&t, 0, 6), Ok(Some(5)));
    assert_eq!(line(&t, 1, 3), Ok(None));
    assert_eq!(line(&t, 1, 8), Ok(Some(2)));
    assert_eq!(line(&t, 2, 0), Err(22));
}

#[test]
fn lookups_over_hostile_tables() {
    let file = full();
    let good = load(&file, Allowance::DESKTOP, &enough()).tables;
    let with = |table: usize, word: usize, value: u32| {
        let mut t = good.clone();
        t[table][word] = value;
        t
    };
    assert_eq!(instructions(&file, &with(0, 0, 0), 0), Err(22));
    assert_eq!(instructions(&file, &with(0, 6, u32::MAX), 0), Err(22));
    assert_eq!(instructions(&file, &with(0, 5, u32::MAX), 0), Err(22));
    let left = file.len() as u32 - 48;
    assert!(instructions(&file, &with(0, 5, left), 0).is_ok());
    assert_eq!(instructions(&file, &with(0, 5, left + 1), 0), Err(22));
    assert!(handler(&with(0, 7, 62), 0, 1).is_ok());
    assert_eq!(handler(&with(0, 7, 63), 0, 1), Err(22));
    assert_eq!(handler(&with(0, 7, u32::MAX), 0, 1), Err(22));
    assert_eq!(pool(&file, &with(2, 0, 4), 0, 0), Err(22));
    assert_eq!(pool(&file, &with(2, 0, 1), 0, 0), Err(22));
    assert_eq!(pool(&file, &with(2, 5, 8), 0, 1), Err(22));
    assert_eq!(name(&file, &with(5, 0, 64), 0, 0), Err(22));
    assert_eq!(name(&file, &with(5, 0, 65_536), 0, 0), Err(22));
    let unused = Ok(Some(FoundText {
        place: 0,
        length: 0,
    }));
    assert_eq!(name(&file, &with(5, 0, 63), 0, 0), unused);
    assert_eq!(debug_file(&file, &with(7, 1, 65_535), 0, 0), Err(22));
    assert_eq!(debug_file(&file, &with(7, 3, 65), 0, 0), Err(22));
    assert_eq!(line(&with(0, 17, 60), 0, 0).unwrap(), Some(0));
    assert_eq!(line(&with(0, 17, 61), 0, 0), Err(22));
    let mut nowhere = with(0, 17, u32::MAX);
    nowhere[0][18] = 0;
    assert_eq!(line(&nowhere, 0, 0), Ok(None));
}

#[test]
fn lent_tables() {
    let file = full();
    let used = load(&file, Allowance::DESKTOP, &enough())
        .rows
        .map(|rows| rows as usize);
    let exact = Sizes::of_rows(used);
    assert_eq!(load(&file, Allowance::DESKTOP, &exact).refusal, 0);
    for t in 0..9 {
        let mut short = exact;
        short.0[t] -= 1;
        let refused = load(&file, Allowance::DESKTOP, &short);
        assert_eq!(refused, Loaded::refused(14, &short), "{}", NAMES[t]);
        let mut long = exact;
        long.0[t] += ROW_WORDS[t] - 1;
        let loaded = load(&file, Allowance::DESKTOP, &long);
        assert_eq!(loaded.refusal, 0);
        assert!(loaded.tables[t][exact.0[t]..].iter().all(|w| *w == 0));
    }
    assert_eq!(
        load(&file, Allowance::DESKTOP, &Sizes::default()).refusal,
        14
    );
}

#[test]
fn cuts_are_refused() {
    let file = full();
    for length in 0..20 {
        assert_eq!(refusal(&file[..length]), 2);
    }
    for length in 20..file.len() - 8 {
        let cut = &file[..length];
        assert_eq!(refusal(cut), 28);
        let number = refusal(&sized(cut, length));
        let expected = if length < 32 { 4 } else { 7 };
        // A cut up to three bytes behind a section loads.
        assert!(number == expected || number == 0, "{length}: {number}");
    }
}

/// The frames that choices leave, of five at most.
fn frames_after(file: &[u8], choices: &[u8]) -> Vec<u32> {
    let followed = run(file, &enough(), 10, choices);
    assert_eq!(followed.loaded.refusal, 0);
    let mut table = followed.frame_table;
    assert!(
        table[followed.frames as usize * 2..]
            .iter()
            .all(|w| *w == 0)
    );
    table.truncate(followed.frames as usize * 2);
    table
}

#[test]
fn frames_of_children() {
    let outer = record(
        [1, 2, 2],
        &[98, 0, 1, 39, 0, 255, 249, 118],
        &[[0, 0, 0, 7]],
        &[],
        &[],
    );
    let middle = record([1, 2, 1], &[99, 0, 0, 118], &[], &[], &[]);
    let inner = record([1, 2, 0], &[118], &[], &[], &[]);
    let last = record([1, 2, 0], &[0, 118], &[[0, 0, 0, 1]], &[], &[]);
    let file = file(&[irep(&[outer, middle, inner, last])]);
    let frames = |choices: &[u8]| frames_after(&file, choices);
    assert_eq!(frames(&[]), [0, 0]);
    assert_eq!(frames(&[2]), [0, 3, 3, 0]);
    assert_eq!(frames(&[2, 0]), [0, 3, 3, 1]);
    assert_eq!(frames(&[2, 0, 0]), [0, 3]);
    assert_eq!(frames(&[2, 4]), [0, 3]);
    assert_eq!(frames(&[2, 4, 1]), [0, 0]);
    assert_eq!(frames(&[2, 3, 0, 0]), [0, 3, 3, 1]);
    assert_eq!(frames(&[2, 3, 0, 1]), [0, 3, 3, 1]);
    assert_eq!(frames(&[3, 0, 0]), [0, 7]);
    assert_eq!(frames(&[3, 0, 0, 2]), []);
    assert_eq!(frames(&[3, 0, 1]), [0, 3]);
    assert_eq!(frames(&[1]), [0, 3]);
    assert_eq!(frames(&[4, 2, 0]), []);
    assert_eq!(frames(&[2, 2, 2, 1, 2]), [0, 3, 3, 0]);
    let refused = |words: usize, choices: &[u8]| {
        let followed = run(&file, &enough(), words, choices);
        assert!(followed.frame_table.iter().all(|w| *w == 0));
        followed.loaded.refusal
    };
    assert_eq!(refused(8, &[4, 5]), 21);
    assert_eq!(refused(8, &[4, 3, 0]), 21);
    assert_eq!(refused(7, &[5]), 14);
}

#[test]
fn frames_of_tdef_and_sdef() {
    let symbols = [&b"s"[..]; 3];
    // TDEF with symbol 0 and child 1, SDEF with symbol 2 and child 0.
    let outer = record(
        [1, 2, 2],
        &[107, 0, 0, 1, 108, 0, 2, 0, 118],
        &[],
        &[],
        &symbols,
    );
    let middle = record([1, 2, 1], &[108, 0, 2, 0, 118], &[], &[], &symbols);
    let inner = record([1, 2, 0], &[118], &[], &[], &[]);
    let last = record([1, 2, 0], &[0, 118], &[], &[], &[]);
    let file = file(&[irep(&[outer, middle, inner, last])]);
    let frames = |choices: &[u8]| frames_after(&file, choices);
    assert_eq!(frames(&[2]), [0, 4, 3, 0]);
    assert_eq!(frames(&[2, 2]), [0, 4, 3, 1]);
    assert_eq!(frames(&[2, 2, 0]), [0, 4]);
    assert_eq!(frames(&[0]), [0, 4]);
    assert_eq!(frames(&[1]), [0, 4]);
    assert_eq!(frames(&[0, 2]), [0, 8, 1, 0]);
    assert_eq!(frames(&[0, 2, 2]), [0, 8, 1, 4, 2, 0]);
    assert_eq!(frames(&[0, 2, 2, 4]), [0, 8, 1, 4]);
    assert_eq!(frames(&[2, 4, 2, 0]), [0, 8, 1, 4]);
    assert_eq!(frames(&[0, 0, 2]), []);
}

#[test]
fn frames_behind_prefixes() {
    let outer = record(
        [1, 2, 2],
        // BLOCK with child 1, JMPNOT back to it, LOADI_0, STOP.
        &[
            116, 98, 0, 0, 1, 115, 40, 0, 1, 255, 245, 117, 6, 0, 1, 115, 118,
        ],
        &[[0, 0, 0, 11]],
        &[],
        &[],
    );
    let middle = record([1, 2, 1], &[117, 99, 0, 0, 0, 0, 118], &[], &[], &[]);
    let inner = record([1, 2, 0], &[117, 118], &[], &[], &[]);
    let last = record([1, 2, 0], &[116, 0, 116, 118], &[], &[], &[]);
    let file = file(&[irep(&[outer, middle, inner, last])]);
    let frames = |choices: &[u8]| frames_after(&file, choices);
    assert_eq!(frames(&[0]), [0, 5]);
    assert_eq!(frames(&[1]), [0, 5]);
    assert_eq!(frames(&[2]), [0, 5, 3, 0]);
    assert_eq!(frames(&[2, 0]), [0, 5, 3, 2]);
    assert_eq!(frames(&[2, 2, 0]), [0, 5]);
    assert_eq!(frames(&[2, 4]), [0, 5]);
    assert_eq!(frames(&[0, 0]), [0, 11]);
    assert_eq!(frames(&[0, 1]), [0, 0]);
    assert_eq!(frames(&[0, 2]), [0, 11]);
    assert_eq!(frames(&[0, 3, 0, 0]), [0, 11]);
    assert_eq!(frames(&[0, 3, 0, 1]), [0, 11]);
    assert_eq!(frames(&[0, 0, 0]), [0, 15]);
    assert_eq!(frames(&[0, 0, 0, 0]), []);
    assert_eq!(frames(&[0, 0, 4]), []);
}

/// A file whose first record has 300 children, the second of them with a child of its own.
fn with_300_children(code: &[u8]) -> Vec<u8> {
    let stop = record([1, 1, 0], &[118], &[], &[], &[]);
    let mut records = vec![stop; 302];
    records[0] = record([1, 1, 300], code, &[], &[], &[]);
    records[2] = record([1, 1, 1], &[118], &[], &[], &[]);
    file(&[irep(&records)])
}

#[test]
fn children_above_255() {
    let lent = Sizes::of_rows([302; 9]);
    for (child, record) in [(1, 2), (2, 4), (255, 257), (256, 258), (299, 301)] {
        let [high, low] = be2(child);
        for code in [
            [116, 97, 0, high, low, 118].to_vec(),
            [117, 105, 0, 0, high, low, 118].to_vec(),
        ] {
            let followed = run(&with_300_children(&code), &lent, 604, &[2]);
            assert_eq!(followed.loaded.refusal, 0);
            assert_eq!(followed.top, Some((record, 0)), "{code:?}");
        }
    }
    let past = with_300_children(&[116, 97, 0, 1, 44, 118]);
    assert_eq!(examined_over(&past, &lent), 17);
}

/// The refusal of a file over enough rows, but for one table without any.
fn without(table: usize, file: &[u8]) -> Refusal {
    let mut rows = [64; 9];
    rows[table] = 0;
    let lent = Sizes::of_rows(rows);
    let loaded = load(file, Allowance::DESKTOP, &lent);
    assert!(loaded.refusal == 0 || loaded.tables == lent.zeros());
    loaded.refusal
}

/// A header, an IREP section of this content with any size that fits, and what follows.
fn with_records(content: &[u8], rest: &[u8]) -> Vec<u8> {
    [header(0), irep(&[content.to_vec()]), rest.to_vec()].concat()
}

#[test]
fn a_records_row_is_needed_once_its_16_bytes_are_read() {
    let short = with_records(&[0, 0, 0, 20, 0, 1, 0, 0, 0, 0, 0, 0, 0, 0, 0], &[]);
    assert_eq!(without(0, &short), 7);
    let head = [0, 0, 0, 20, 0, 1, 0, 0, 0, 0, 0, 0, 0, 0, 0, 9];
    assert_eq!(refusal(&with_records(&head, &[])), 7);
    assert_eq!(without(0, &with_records(&head, &[])), 14);
    let zero = [&[0; 16][..], &[0; 4]].concat();
    assert_eq!(refusal(&with_records(&zero, &[])), 8);
    assert_eq!(without(0, &with_records(&zero, &[])), 14);
}

#[test]
fn other_rows_of_a_record_are_needed_once_their_bytes_are_good() {
    let head = |clen: u8| vec![0, 0, 0, 99, 0, 1, 0, 0, 0, 0, 0, clen, 0, 0, 0, 0];
    let with = |clen: u8, rest: &[u8]| with_records(&[head(clen), rest.to_vec()].concat(), &[]);
    assert_eq!(without(1, &with(1, &[0; 12])), 7);
    assert_eq!(without(1, &with(1, &[0; 13])), 14);
    assert_eq!(refusal(&with(1, &[0; 13])), 7);
    for (entry, number, missing) in [
        (&[0, 1, 0, 0][..], 7, 7),
        (&[0, 1, 4], 10, 10),
        (&[0, 1, 0, 0, 1, b'a', b'b'], 9, 9),
        (&[0, 1, 2, 0, 1, 0, b'b'], 9, 9),
        (&[0, 1, 0, 0, 1, 0, 0], 7, 14),
        (&[0, 1, 2, 0, 2, 0, 0, 0], 7, 14),
        (&[0, 1, 0, 0, 1, 0], 7, 7),
        (&[0, 1, 2, 0, 2, 0, 0], 7, 7),
        (&[0, 1, 1, 0, 0, 0], 7, 7),
        (&[0, 1, 1, 0, 0, 0, 0], 7, 14),
        (&[0, 1, 7, 1, 0], 7, 7),
        (&[0, 1, 7, 1, 0, 0], 7, 14),
    ] {
        assert_eq!(refusal(&with(0, entry)), number, "{entry:?}");
        assert_eq!(without(2, &with(0, entry)), missing, "{entry:?}");
    }
    for (symbol, number, missing) in [
        (&[0, 0, 0, 1, 0][..], 7, 7),
        (&[0, 0, 0, 1, 0, 1, 0, 0], 9, 9),
        (&[0, 0, 0, 1, 0, 1, b'a', 0], 0, 14),
        (&[0, 0, 0, 2, 0, 1, b'a', 0], 7, 14),
    ] {
        assert_eq!(refusal(&with(0, symbol)), number, "{symbol:?}");
        assert_eq!(without(3, &with(0, symbol)), missing, "{symbol:?}");
    }
}

#[test]
fn rows_of_names_are_needed_once_their_bytes_are_good() {
    let code = record([3, 0, 0], &[], &[], &[], &[]);
    let with = |content: &[u8]| with_records(&code, &[b"LVAR\0\0\0\x0c", content].concat());
    for (content, number, table, missing) in [
        (&[0, 0, 0, 1, 0, 1][..], 7, 4, 7),
        (&[0, 0, 0, 1, 0, 1, 0], 9, 4, 9),
        (&[0, 0, 0, 1, 0, 1, b'a'], 7, 4, 14),
        (&[0, 0, 0, 1, 0, 1, b'a', 0], 7, 5, 7),
        (&[0, 0, 0, 1, 0, 1, b'a', 0, 1], 11, 5, 11),
        (&[0, 0, 0, 1, 0, 1, b'a', 0, 0], 7, 5, 14),
        (&[0, 0, 0, 0, 255, 255], 7, 5, 14),
    ] {
        assert_eq!(refusal(&with(content)), number, "{content:?}");
        assert_eq!(without(table, &with(content)), missing, "{content:?}");
    }
}

#[test]
fn rows_of_debug_files_are_needed_once_their_kind_is_accepted() {
    let code = record([0, 0, 0], &[], &[], &[], &[]);
    let with = |content: &[u8]| {
        let section = section(b"DBG\0", &[b"\0\x01\0\x01f", content].concat());
        with_records(&code, &section)
    };
    let bare = with_records(&code, &section(b"DBG\0", &[0, 1, 0, 1, 0]));
    assert_eq!(without(6, &bare), 9);
    assert_eq!(without(6, &with(&[])), 14);
    assert_eq!(refusal(&with(&[])), 0);
    let file = |start: [u8; 4], name: u8, count: u8, kind: u8, lines: &[u8]| {
        let mut content = start.to_vec();
        content.extend([0, name, 0, 0, 0, count, kind]);
        content.extend(lines);
        content
    };
    let debug = |count: u8, files: &[Vec<u8>]| {
        let files = files.concat();
        [&be4(files.len() + 6)[..], &[0, count], &files].concat()
    };
    let zero = [0; 4];
    let last = [255; 4];
    for (content, number, table, missing) in [
        (debug(1, &[vec![0, 0, 0]]), 7, 7, 7),
        (debug(1, &[vec![0, 0, 0, 0, 0, 1]]), 12, 7, 12),
        (debug(1, &[vec![0, 0, 0, 0, 0, 0, 0]]), 7, 7, 7),
        (debug(1, &[file(zero, 0, 0, 3, &[])]), 12, 7, 12),
        (debug(1, &[file(zero, 0, 1, 0, &[])]), 7, 7, 14),
        (debug(1, &[file(zero, 0, 1, 0, &[0])]), 7, 8, 7),
        (debug(1, &[file(zero, 0, 1, 0, &[0, 1])]), 0, 8, 14),
        (debug(1, &[file(zero, 0, 0, 0, &[])]), 0, 8, 0),
        (debug(1, &[file(last, 0, 2, 0, &[0, 1, 0])]), 7, 8, 14),
        (debug(1, &[file(last, 0, 2, 0, &[0, 1, 0, 1])]), 13, 8, 14),
        (debug(1, &[file(zero, 0, 1, 1, &[0; 5])]), 7, 8, 7),
        (debug(1, &[file(zero, 0, 1, 1, &[0; 6])]), 0, 8, 14),
        (debug(1, &[file(zero, 0, 1, 2, &[0])]), 7, 8, 7),
        (
            debug(1, &[file(zero, 0, 1, 2, &[0, 255, 255, 255, 255, 255])]),
            12,
            8,
            12,
        ),
        (debug(1, &[file(zero, 0, 1, 2, &[0, 0])]), 0, 8, 14),
        (
            debug(2, &[file(zero, 0, 0, 0, &[]), zero.to_vec()]),
            12,
            7,
            14,
        ),
    ] {
        assert_eq!(refusal(&with(&content)), number, "{content:?}");
        assert_eq!(without(table, &with(&content)), missing, "{content:?}");
    }
    // One row of lines holds two entries of one line.
    let same = with(&debug(1, &[file(zero, 0, 2, 0, &[0, 1, 0, 1])]));
    let mut rows = [64; 9];
    rows[8] = 1;
    assert_eq!(
        load(&same, Allowance::DESKTOP, &Sizes::of_rows(rows)).refusal,
        0
    );
    let other = with(&debug(1, &[file(zero, 0, 2, 0, &[0, 1, 0, 2])]));
    assert_eq!(
        load(&other, Allowance::DESKTOP, &Sizes::of_rows(rows)).refusal,
        14
    );
    let wrong = with(&[0, 0, 0, 7, 0, 0]);
    assert_eq!(refusal(&wrong), 12);
}

#[test]
fn the_1025th_record_has_no_row() {
    let record = record([1, 0, 0], &[], &[], &[], &[]);
    let lent = Sizes::of_rows([2000; 9]);
    let with = |count: usize| file(&[irep(&vec![record.clone(); count])]);
    assert_eq!(load(&with(1024), Allowance::DESKTOP, &lent).refusal, 0);
    assert_eq!(load(&with(1025), Allowance::DESKTOP, &lent).refusal, 14);
    let section = 12 + 1024 * 20 + 15;
    let cut = sized(&with(1025)[..20 + section], 20 + section);
    let cut = changed(&cut, 24, &be4(section));
    assert_eq!(load(&cut, Allowance::DESKTOP, &lent).refusal, 7);
}
