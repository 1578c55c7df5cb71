//! Constants: the numbers and texts that mruby itself reads, in every form that shows them.

mod common;

use blotheath::{Constant, Pattern, examine, load};
use common::json::{Value, parse};
use common::{Folder, Numbers, build, compiled, run, steers};
use std::collections::BTreeSet;
use std::fs;

/// The kinds of numbers in a file.
const INT32: u8 = 1;
const INT64: u8 = 3;
const FLOAT64: u8 = 5;

/// A number of this kind as a constant.
fn number(kind: u8, bytes: &[u8]) -> Vec<u8> {
    [&[kind], bytes].concat()
}

/// A file with these constants, each loaded by a step.
fn of_constants(constants: &[Vec<u8>]) -> Vec<u8> {
    let mut code = Vec::new();
    for number in 0..constants.len() {
        code.extend([2, 0, number as u8]);
    }
    code.push(118);
    let constants: Vec<&[u8]> = constants.iter().map(Vec::as_slice).collect();
    build::one(&code, &constants, &[])
}

/// The constants of record 0, as `load --json` has them and as the steps of `steps --json` name them.
fn read_back(path: &str) -> [Vec<Value>; 2] {
    let record = |command: &str| {
        let read = parse(&run(&[command, "--json", path]).out);
        read.get("records").items()[0].clone()
    };
    let steps = record("steps");
    let operands = steps.get("steps").items().iter();
    let operands = operands.flat_map(|step| step.get("operands").items());
    let named = operands.filter(|operand| operand.get("role").text() == "constant");
    let loaded = record("load").get("constants").items().to_vec();
    [loaded, named.cloned().collect()]
}

fn hex(bytes: &[u8]) -> String {
    bytes.iter().map(|byte| format!("{byte:02x}")).collect()
}

/// The values in the table of constants that `load` shows.
fn in_rows(path: &str) -> Vec<String> {
    let out = run(&["load", path]).out;
    let (_, table) = out.split_once("\nconstants (").unwrap();
    let (number, table) = table.split_once(")\n").unwrap();
    let (headings, rows) = table.split_once('\n').unwrap();
    let column = headings.find("value").unwrap();
    let rows = rows.lines().take(number.parse().unwrap());
    rows.map(|row| row[column..].to_owned()).collect()
}

/// The constants that the rows of `steps` load.
fn in_steps(path: &str) -> Vec<String> {
    let out = run(&["steps", path]).out;
    let rows = out
        .lines()
        .filter(|row| row.contains(" LOADL ") || row.contains(" STRING "));
    rows.map(|row| row.split_once(", ").unwrap().1.to_owned())
        .collect()
}

/// The values in the table of constants of a page, as HTML.
fn in_page(path: &str) -> Vec<String> {
    let page = run(&["report", path]).out;
    let values = page.split("<td class=\"value\">").skip(1);
    values
        .map(|value| value.split_once("</td>").unwrap().0.to_owned())
        .collect()
}

/// Whole numbers of eight bytes, as mruby's compiler writes them and as mruby prints them.
const COMPILED: [([u8; 8], i64); 5] = [
    ([0, 0, 0, 0x1c, 0xbe, 0x99, 0x1a, 0x14], 123_456_789_012),
    (
        [0xff, 0xff, 0xff, 0xe3, 0x41, 0x66, 0xe5, 0xec],
        -123_456_789_012,
    ),
    (
        [0x7f, 0xff, 0xff, 0xff, 0xff, 0xff, 0xff, 0xff],
        9_223_372_036_854_775_807,
    ),
    ([0x80, 0, 0, 0, 0, 0, 0, 1], -9_223_372_036_854_775_807),
    (
        [0, 0, 0xde, 0xad, 0xbe, 0xef, 0xca, 0xfe],
        244_837_814_094_590,
    ),
];

/// Texts with zero bytes, as mruby's compiler writes them.
const TEXTS: [&[u8]; 2] = [b"a\0b", b"\0"];

/// The files of a source in the corpus, and one with these constants.
fn compiled_and(folder: &Folder, name: &str, constants: &[Vec<u8>]) -> Vec<String> {
    let built = folder.file("built.mrb", &of_constants(constants));
    let files = compiled(name).into_iter();
    let mut paths: Vec<String> = files
        .map(|path| path.to_str().unwrap().to_owned())
        .collect();
    paths.push(built);
    paths
}

fn check_number(pattern: &Pattern, index: u32, bytes: [u8; 8], number: i64) {
    assert_eq!(pattern.constant(0, index), Ok(Constant::Int(number)));
    let (kind, found) = pattern.constant_bytes(0, index).unwrap();
    assert_eq!((kind, found.bytes), (INT64.into(), &bytes[..]));
}

/// The whole number of a constant in JSON.
fn whole(constant: &Value) -> i64 {
    match constant.has("exact") {
        true => constant.get("exact").text().parse().unwrap(),
        false => constant.get("value").number() as i64,
    }
}

#[test]
fn whole_numbers_are_those_that_mruby_prints() {
    let folder = Folder::new("compiled-numbers");
    let constants = COMPILED.map(|(bytes, _)| number(INT64, &bytes));
    let printed = COMPILED.map(|(_, number)| number.to_string());
    for path in compiled_and(&folder, "13_constants_big", &constants) {
        let file = fs::read(&path).unwrap();
        let pattern = examine(&file).unwrap();
        for (index, (bytes, number)) in (0..).zip(COMPILED) {
            check_number(&pattern, index, bytes, number);
        }
        assert_eq!(in_rows(&path), printed);
        assert_eq!(in_steps(&path), printed);
        assert_eq!(in_page(&path), printed);
        for read in read_back(&path) {
            let read: Vec<i64> = read.iter().map(whole).collect();
            assert_eq!(read, COMPILED.map(|(_, number)| number));
        }
    }
}

#[test]
fn texts_with_zero_bytes_are_whole() {
    let folder = Folder::new("compiled-texts");
    let shown = [r#""a\0b""#, r#""\0""#];
    for path in compiled_and(&folder, "25_zero_in_string", &TEXTS.map(build::text)) {
        let file = fs::read(&path).unwrap();
        let pattern = examine(&file).unwrap();
        for (index, bytes) in (0..).zip(TEXTS) {
            let Ok(Constant::Text(text)) = pattern.constant(0, index) else {
                panic!("constant {index} of {path} is no text");
            };
            assert_eq!(text.bytes, bytes);
        }
        let verdict = run(&["examine", &path]);
        assert!(verdict.out.contains(": passes: 1 record, 2 constants, "));
        assert_eq!(in_rows(&path), shown);
        assert_eq!(in_steps(&path), shown);
        assert_eq!(
            in_page(&path),
            shown.map(|text| text.replace('"', "&quot;"))
        );
        for read in read_back(&path) {
            let read = read.iter().map(|constant| constant.get("text").text());
            assert!(read.map(str::as_bytes).eq(TEXTS));
        }
    }
}

/// The same bytes as every kind of number: a float alone has its low byte first.
#[test]
fn the_order_of_bytes() {
    let bytes = [0x41, 2, 3, 4, 5, 6, 7, 0x42];
    let file = of_constants(&[
        number(INT32, &bytes[..4]),
        number(INT64, &bytes),
        number(FLOAT64, &bytes),
    ]);
    let pattern = load(&file).unwrap();
    let constants = [0, 1, 2].map(|index| pattern.constant(0, index));
    assert_eq!(
        constants,
        [
            Ok(Constant::Int(0x4102_0304)),
            Ok(Constant::Int(0x4102_0304_0506_0742)),
            Ok(Constant::Float(f64::from_bits(0x4207_0605_0403_0241))),
        ]
    );
}

/// Texts that differ by a zero byte, or would look alike if one were not seen.
fn alike() -> Vec<Vec<u8>> {
    let long = "willow".repeat(10).into_bytes();
    let mut zeroed = long.clone();
    zeroed[55] = 0;
    let short: [&[u8]; 14] = [
        b"",
        b"\0",
        b"\0\0",
        b"ab",
        b"\0ab",
        b"a\0b",
        b"ab\0",
        b"a\\0b",
        b"a\\u0000b",
        b"a1",
        b"a\x001",
        b"a\x01",
        b"a\x00\xff",
        b"a\xff",
    ];
    let mut texts = short.map(<[u8]>::to_vec).to_vec();
    texts.push([&long[..], b"\0"].concat());
    texts.push([&long[..], b"w"].concat());
    texts.extend([long, zeroed]);
    texts
}

/// The bytes of a text in JSON.
fn bytes_of(constant: &Value) -> String {
    match constant.has("hex") {
        true => constant.get("hex").text().to_owned(),
        false => hex(constant.get("text").text().as_bytes()),
    }
}

#[test]
fn texts_that_differ_by_a_zero_look_different() {
    let folder = Folder::new("alike");
    let texts = alike();
    let constants: Vec<Vec<u8>> = texts.iter().map(|text| build::text(text)).collect();
    let path = folder.file("alike.mrb", &of_constants(&constants));
    for shown in [in_rows(&path), in_steps(&path), in_page(&path)] {
        assert_eq!(shown.len(), texts.len());
        let different: BTreeSet<&String> = shown.iter().collect();
        assert_eq!(different.len(), texts.len(), "{shown:?}");
    }
    for read in read_back(&path) {
        let read: Vec<String> = read.iter().map(bytes_of).collect();
        let expected: Vec<String> = texts.iter().map(|text| hex(text)).collect();
        assert_eq!(read, expected);
    }
}

/// A zero behind what `steps --json` has of a text is counted there.
#[test]
fn zeros_behind_a_cut_are_counted() {
    let folder = Folder::new("behind");
    let plain = b"rod".repeat(100);
    let mut zeroed = plain.clone();
    zeroed[280] = 0;
    let texts = [plain, zeroed];
    let constants = texts.each_ref().map(|text| build::text(text));
    let path = folder.file("behind.mrb", &of_constants(&constants));
    let [whole, cut] = read_back(&path);
    assert!(
        whole
            .iter()
            .map(bytes_of)
            .eq(texts.iter().map(|text| hex(text)))
    );
    for (constant, zeros) in cut.iter().zip([0.0, 1.0]) {
        assert_eq!(constant.get("length").number(), 300.0);
        assert_eq!(constant.get("zeros").number(), zeros);
    }
    assert_eq!(bytes_of(&cut[0]), bytes_of(&cut[1]));
}

#[test]
fn a_zero_byte_is_seen_wherever_it_stands() {
    let folder = Folder::new("seen");
    let long = [&b"willow".repeat(10)[..], b"\0"].concat();
    let constants = [&b"a\x001"[..], b"a\08", b"\0<", &long].map(build::text);
    let path = folder.file("seen.mrb", &of_constants(&constants));
    let cut = format!("\"{}\"... (61 bytes, 1 of them zero)", "willow".repeat(8));
    let shown = [r#""a\x001""#, r#""a\08""#, r#""\0<""#, &cut];
    assert_eq!(in_rows(&path), shown);
    assert_eq!(in_steps(&path), shown);
    let page = in_page(&path);
    assert_eq!(page[0], r"&quot;a\x001&quot;");
    assert_eq!(page[2], r"&quot;\0&lt;&quot;");
    let whole = format!(">&quot;{}\\0&quot;</span>", "willow".repeat(10));
    assert!(page[3].contains("(61 bytes, 1 of them zero)</summary>"));
    assert!(page[3].contains(&whole), "{}", page[3]);
    let all = run(&["load", "--all", &path]).out;
    let whole = format!("\"{}\\0\"\n", "willow".repeat(10));
    assert!(all.contains(&whole), "{all}");
}

#[test]
fn no_command_writes_a_zero_byte() {
    let folder = Folder::new("raw");
    let constants: Vec<Vec<u8>> = alike().iter().map(|text| build::text(text)).collect();
    let path = folder.file("raw.mrb", &of_constants(&constants));
    for words in [
        &["examine", &path][..],
        &["examine", "--json", &path],
        &["load", &path],
        &["load", "--all", &path],
        &["load", "--json", &path],
        &["steps", &path],
        &["steps", "--all", &path],
        &["steps", "--json", &path],
        &["follow", "--each", &path, "9 go"],
        &["follow", "--json", "--each", &path, "9 go"],
        &["report", &path],
    ] {
        let ran = run(words);
        assert_eq!(ran.status, 0, "{words:?} {}", ran.err);
        assert!(!steers(&ran.out), "{words:?} {}", ran.out);
    }
}

#[test]
fn whole_numbers_are_exact() {
    let folder = Folder::new("whole");
    let numbers = [
        0,
        -1,
        (1 << 53) - 1,
        1 << 53,
        (1 << 53) + 1,
        -(1 << 53) - 1,
        i64::MAX,
        i64::MIN,
    ];
    let mut constants: Vec<Vec<u8>> = numbers
        .iter()
        .map(|whole: &i64| number(INT64, &whole.to_be_bytes()))
        .collect();
    constants.push(number(INT32, &(-7i32).to_be_bytes()));
    let path = folder.file("whole.mrb", &of_constants(&constants));
    for read in read_back(&path) {
        assert_eq!(read.len(), constants.len());
        for (number, constant) in numbers.iter().chain(&[-7]).zip(&read) {
            assert_eq!(constant.get("value").number(), *number as f64);
            let is_beyond = number.unsigned_abs() >= 1 << 53;
            assert_eq!(constant.has("exact"), is_beyond, "{number}");
            if is_beyond {
                assert_eq!(constant.get("exact").text(), number.to_string());
            }
        }
        for (bytes, constant) in constants.iter().zip(&read) {
            assert_eq!(constant.get("hex").text(), hex(&bytes[1..]));
        }
    }
    let load = run(&["load", "--json", &path]).out;
    let exact = "\"value\":9007199254740993,\"exact\":\"9007199254740993\"";
    assert!(load.contains(exact), "{load}");
    let rows = run(&["load", &path]).out;
    assert!(rows.contains("  9007199254740993\n"), "{rows}");
}

#[test]
fn floats_read_back() {
    let folder = Folder::new("floats");
    let mut numbers = Numbers(4);
    let mut bits = vec![
        0,
        1 << 63,
        1,
        0x3fb9_9999_9999_9998,
        0x7fef_ffff_ffff_ffff,
        0x4340_0000_0000_0001,
        f64::INFINITY.to_bits(),
        f64::NEG_INFINITY.to_bits(),
        f64::NAN.to_bits() + 1,
    ];
    bits.extend((0..200).map(|_| numbers.next()));
    let constants: Vec<Vec<u8>> = bits
        .iter()
        .map(|bits| number(FLOAT64, &bits.to_le_bytes()))
        .collect();
    let path = folder.file("floats.mrb", &of_constants(&constants));
    for read in read_back(&path) {
        assert_eq!(read.len(), bits.len());
        for (bits, constant) in bits.iter().zip(&read) {
            let number = f64::from_bits(*bits);
            assert_eq!(constant.get("hex").text(), hex(&bits.to_le_bytes()));
            match constant.get("value") {
                Value::Number(read) => assert_eq!(read.to_bits(), *bits),
                value if number.is_nan() => assert_eq!(value.text(), "NaN"),
                value => assert_eq!(value.text().parse(), Ok(number)),
            }
        }
    }
    // The rows for readers as well.
    let rows = run(&["load", &path]).out;
    let rows = rows.lines().filter(|line| line.contains("  float  "));
    for (bits, row) in bits.iter().zip(rows) {
        let read: f64 = row.split_whitespace().last().unwrap().parse().unwrap();
        assert!(read.to_bits() == *bits || read.is_nan(), "{row}");
    }
}
