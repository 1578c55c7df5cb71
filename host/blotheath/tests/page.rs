//! The page of `blotheath report`.

mod common;

use blotheath::Refusal;
use common::{Folder, Numbers, build, damaged, files, run, sample, sample_bytes};
use std::collections::BTreeSet;
use std::fs;
use std::path::Path;

/// The page of a file in a folder, without a source or with one.
fn page(folder: &Folder, name: &str, bytes: &[u8]) -> String {
    let path = folder.file(name, bytes);
    run(&["report", &path]).out
}

fn page_with(path: &str, source: &str) -> String {
    run(&["report", path, "--source", source]).out
}

/// What stands between quotation marks behind each of these starts.
fn values<'p>(page: &'p str, start: &str) -> Vec<&'p str> {
    let parts = page.split(start).skip(1);
    parts.map(|part| part.split('"').next().unwrap()).collect()
}

/// The part of a page from one text up to another.
fn between<'p>(page: &'p str, start: &str, end: &str) -> &'p str {
    let (_, rest) = page.split_once(start).expect(start);
    rest.split_once(end).expect(end).0
}

/// The sample with one byte of a record's code changed: record 3 begins at 493, 4 at 595, 5 at 683.
fn sample_with(place: usize, byte: u8) -> Vec<u8> {
    let mut bytes = sample_bytes();
    bytes[place] = byte;
    bytes
}

/// A record with a debug file of this name, whose lines hold from these positions on.
fn with_lines(name: &[u8], entries: &[(u32, u16)]) -> Vec<u8> {
    let mut debug = vec![0, 0, 0, 0, 0, 1, 0, 0, 0, 0, 0, 0];
    debug.extend((entries.len() as u32).to_be_bytes());
    debug.push(1);
    for (position, line) in entries {
        debug.extend(position.to_be_bytes());
        debug.extend(line.to_be_bytes());
    }
    let size = debug.len() as u32;
    debug[..4].copy_from_slice(&size.to_be_bytes());
    let mut content = vec![0, 1];
    content.extend((name.len() as u16).to_be_bytes());
    content.extend(name);
    content.extend(debug);
    let irep = build::irep(&build::record(0, &[17, 0, 118], &[], &[]));
    build::file(&[irep, build::section(b"DBG\0", &content)])
}

/// Files that are refused, each with its number.
fn refused() -> Vec<(u32, Vec<u8>)> {
    let stop: &[u8] = &[118];
    let two = [
        build::record(3, stop, &[], &[]),
        build::record(0, stop, &[], &[]),
    ];
    vec![
        (2, Vec::new()),
        (3, sample_with(5, b'3')),
        (5, sample_with(22, b'Q')),
        (7, build::resized(&sample_bytes(), 700)),
        (9, build::one(stop, &[], &[b"a\0b"])),
        (15, build::file(&[build::irep(&two.concat())])),
        (16, sample_with(683 + 56, 200)),
        (16, build::one(&[], &[], &[])),
        (16, build::one(&[build::EXT1, 200, 118], &[], &[])),
        (17, sample_with(493 + 9, 9)),
        (17, build::one(&build::NEWER, &[], &build::NEWER_SYMBOLS)),
        (17, build::with_registers(6, &build::TOUCHING, &[b"s"])),
        (18, sample_with(595 + 33, 1)),
        (19, build::with_handlers(&[118], &[0, 77])),
        (20, with_lines(b"a.rb", &[(2, 1), (0, 2)])),
        (25, build::one(&[build::NOP, build::EXT1], &[], &[])),
        (25, build::one(&[build::EXT2, build::EXT3, 118], &[], &[])),
        (27, build::drawing(700)),
        (28, sample_bytes()[..700].to_vec()),
    ]
}

fn assert_no_dead_link(page: &str, name: &str) {
    let ids = values(page, " id=\"");
    let known: BTreeSet<&str> = ids.iter().copied().collect();
    assert_eq!(known.len(), ids.len(), "an id of {name} comes twice");
    for link in values(page, "href=\"#") {
        assert!(known.contains(link), "{name}: {link}");
    }
    assert!(!page.contains("href=\"h"), "{name}");
}

#[test]
fn no_link_is_dead() {
    let folder = Folder::new("links");
    for path in files() {
        let page = run(&["report", path.to_str().unwrap()]).out;
        assert_no_dead_link(&page, &path.display().to_string());
    }
    for (number, bytes) in refused() {
        let page = page(&folder, "refused.mrb", &bytes);
        let verdict = format!("<strong>Refused by {number}</strong>");
        assert!(page.contains(&verdict), "{number}");
        assert_no_dead_link(&page, &format!("refused by {number}"));
    }
    let mut numbers = Numbers(13);
    let files: Vec<Vec<u8>> = files().iter().map(|path| fs::read(path).unwrap()).collect();
    for round in 0..150 {
        let bytes = damaged(&files[round % files.len()], &mut numbers);
        assert_no_dead_link(&page(&folder, "damaged.mrb", &bytes), &round.to_string());
    }
}

/// Links to constants and records that have no room on a page are dead links too.
#[test]
fn no_link_of_a_hostile_page_is_dead() {
    let folder = Folder::new("hostile-links");
    for (name, bytes) in [
        ("code", build::shared_code(17)),
        ("constants", build::shared_constants(200)),
        ("text", build::long_constant()),
        ("wide", build::tree(true)),
    ] {
        assert_no_dead_link(&page(&folder, name, &bytes), name);
    }
}

#[test]
fn the_bad_step_is_marked_and_linked() {
    let folder = Folder::new("bad");
    for (number, bytes) in refused() {
        let page = page(&folder, "bad.mrb", &bytes);
        let links = values(&page, "href=\"#bad").len();
        let is_of_a_record = Refusal(number).is_of_examination() && number != 15;
        assert_eq!(links, usize::from(is_of_a_record), "{number}");
        assert_eq!(page.matches(" id=\"bad\"").count(), links, "{number}");
    }
    let marked = |bytes: &[u8]| {
        let page = page(&folder, "bad.mrb", bytes);
        between(&page, "<tr class=\"bad\" id=\"bad\">", "</tr>").to_owned()
    };
    let row = marked(&sample_with(493 + 9, 9));
    assert!(row.contains("<td class=\"offset\">7</td><td class=\"name\">LOADL</td>"));
    assert!(
        row.contains("<strong>Refused by 17:</strong> the second operand of LOADL names constant 9, counted from 0, and the record has 2.")
    );
    let row = marked(&sample_with(595 + 33, 1));
    assert!(row.contains("<td class=\"offset\">30</td><td class=\"name\">JMPNOT</td>"));
    assert!(row.contains("<strong>Refused by 18:</strong> the jump goes to 35."));
    let row = marked(&sample_with(683 + 56, 200));
    assert!(row.contains("<td class=\"offset\">56</td>"));
    assert!(row.contains("the opcode 200 is unknown. Reading ends here."));
    let page = page(&folder, "bad.mrb", &build::with_handlers(&[118], &[0, 77]));
    let handler = between(&page, "<p class=\"warning\" id=\"bad\">", "</p>");
    assert!(handler.starts_with("Handler 1, ") && handler.contains("Refused by 19"));
}

/// A refusal of loading has a place too, with the bytes around it.
#[test]
fn a_refusal_of_loading_shows_its_bytes() {
    let folder = Folder::new("bytes");
    let refused = refused().into_iter();
    for (number, bytes) in refused.filter(|(number, _)| Refusal(*number).is_of_loading()) {
        let page = page(&folder, "bad.mrb", &bytes);
        let shown = between(&page, "<figure class=\"bytes\">", "</figure>");
        assert!(shown.contains("<mark>"), "{number}");
    }
    let page = page(&folder, "bad.mrb", &sample_with(22, b'Q'));
    assert!(page.contains("Byte 20: the mark is &quot;IRQP&quot;."));
    assert!(page.contains("Byte 20, 49, is marked"));
}

/// A record of one long text, one long symbol, and a big integer of many digits, all named by steps.
fn long_texts() -> (Vec<u8>, String, String, String) {
    let text = "The rods of <an> oval; ".repeat(40);
    let symbol = "a_long_name_".repeat(20);
    let digits = "1234567890".repeat(12);
    let constant = build::text(text.as_bytes());
    let mut big = vec![7, digits.len() as u8, 10];
    big.extend(digits.as_bytes());
    let code = [92, 0, 0, 2, 0, 1, 16, 0, 0, 118];
    let bytes = build::one(&code, &[&constant, &big], &[symbol.as_bytes()]);
    (bytes, text, symbol, digits)
}

#[test]
fn long_texts_stand_whole() {
    let folder = Folder::new("whole");
    let (bytes, text, symbol, digits) = long_texts();
    let page = page(&folder, "long.mrb", &bytes);
    let escaped = text.replace('<', "&lt;").replace('>', "&gt;");
    let hex: Vec<String> = text.bytes().map(|byte| format!("{byte:02x}")).collect();
    // In the table of constants, and beside the step that names it.
    assert_eq!(page.matches(&format!("&quot;{escaped}&quot;")).count(), 2);
    assert!(page.contains(&format!(">{}</span></details>", hex.join(" "))));
    assert_eq!(page.matches(&digits).count(), 2);
    assert!(page.contains(&format!(">:{symbol}</span></details>")));
    assert!(page.matches("<details><summary>").count() >= 5);
    // A style that cuts would cut what is whole here.
    let style = between(&page, "<style>", "</style>");
    assert!(!style.contains("text-overflow") && !style.contains("overflow: hidden"));
    assert!(style.contains("details::details-content { content-visibility: visible; }"));
}

#[test]
fn long_source_lines_and_names_stand_whole() {
    let folder = Folder::new("lines");
    let name = format!("{}.rb", "weaver".repeat(12));
    let path = folder.file("long.mrb", &with_lines(name.as_bytes(), &[(0, 1), (2, 2)]));
    let line = "puts :stake; ".repeat(60);
    let source = folder.file(&name, format!("{line}\nx = 1\n").as_bytes());
    let page = page_with(&path, &source);
    assert!(page.contains(&format!("<code>{line}</code></span></details>")));
    assert!(page.contains("<code>x = 1</code>"));
    // Without the source, the file's name.
    let page = run(&["report", &path]).out;
    assert!(page.contains(&format!("<span class=\"whole\">{name}</span></details>")));
}

#[test]
fn what_has_no_room_is_told() {
    let folder = Folder::new("room");
    let constants = page(&folder, "constants", &build::shared_constants(200));
    let shown = values(&constants, "<tr id=\"k").len();
    let more = "182,955 more constants; <code>blotheath load --all</code> shows them.";
    assert_eq!(shown, 65_536 / 3);
    assert!(constants.contains(more));
    assert!(constants.contains("182,955 are not on this page."));
    let text = page(&folder, "text", &build::long_constant());
    assert!(text.contains("not whole here; <code>blotheath load --all</code> shows it"));
    let code = page(&folder, "code", &build::shared_code(0));
    assert!(code.contains("are not on this page; <code>blotheath steps --all</code>"));
}

#[test]
fn cards_say_what_is_true_of_the_file() {
    let folder = Folder::new("cards");
    let sample = page(&folder, "a.mrb", &sample_bytes());
    assert!(sample.contains("<p>Those below are, each with the place of its bytes."));
    assert!(sample.contains("<p>Lines below are those of the file’s own line maps."));
    assert!(sample.contains("<p>No. Every run stays where instructions begin."));
    let bare = page(&folder, "a.mrb", &build::one(&[118], &[], &[]));
    assert!(bare.contains("<p>The file has no constants."));
    assert!(bare.contains("<p>The file has no line maps: no line is shown."));
    let refused = page(&folder, "a.mrb", &sample_with(493 + 9, 9));
    assert!(refused.contains("<p>It may: the file is refused."));
    let unloaded = page(&folder, "a.mrb", &sample_with(22, b'Q'));
    assert_eq!(unloaded.matches("<p>Nothing is said: ").count(), 3);
    assert!(!unloaded.contains("Those below") && !unloaded.contains("Lines below"));
}

#[test]
fn the_checklist_tells_how_far_examination_went() {
    let folder = Folder::new("checklist");
    let states = |bytes: &[u8]| {
        let page = page(&folder, "a.mrb", bytes);
        let list = between(&page, "<table class=\"checklist\">", "</table>").to_owned();
        let rows = list.split("<td class=\"state\">").skip(1);
        rows.map(|row| row.split('<').next().unwrap().to_owned())
            .collect::<Vec<String>>()
    };
    assert_eq!(states(&sample_bytes()), ["holds"; 8]);
    let up_to = |last: u32| format!("holds in records 0 to {last}; not looked at further on");
    let steps =
        "holds in records 0 to 3, and in record 4 up to offset 30; not looked at further on";
    assert_eq!(
        states(&sample_with(595 + 33, 1)),
        [
            "holds",
            "holds",
            &up_to(4),
            &up_to(4),
            steps,
            "does not hold",
            &up_to(3),
            &up_to(3)
        ]
    );
    for bytes in [
        sample_with(22, b'Q'),
        build::drawing(700),
        sample_bytes()[..700].to_vec(),
    ] {
        let unloaded = states(&bytes);
        assert_eq!(unloaded[0], "does not hold");
        assert_eq!(unloaded[1..], ["not looked at"; 7]);
    }
}

/// The page of a drawing: its refusal, what it looks like, its first bytes, and nothing of a pattern.
#[test]
fn a_drawing_is_told_as_one() {
    let folder = Folder::new("drawing");
    let page = page(&folder, "oval.png", &build::drawing(700));
    let verdict = "<strong>Refused by 27</strong> <span>The file is not a compiled pattern: it does not begin with RITE.</span>";
    assert!(page.contains(verdict), "{page}");
    let place =
        "Header, byte 0: the file begins with &quot;\\x89PNG&quot;; it looks like a PNG picture.";
    assert!(
        page.contains(&format!("<p class=\"place\">{place}</p>")),
        "{page}"
    );
    assert!(page.contains("<mark>89</mark> 50 4e 47 "));
    assert!(page.contains("Byte 0, 89, is marked"));
    assert!(page.contains("<td class=\"number\">1 to 14, 27 to 29</td>"));
    assert!(!page.contains("<h2>Steps</h2>") && !page.contains("href=\"#"));
    let style = between(&page, "<style>", "</style>");
    assert!(style.contains("@top-right { content: \"refused\\20 by\\20 27\"; }"));
}

/// What a text begins with is shown and steers no page.
#[test]
fn a_text_that_is_no_pattern_is_shown_safely() {
    let folder = Folder::new("markup");
    let page = page(
        &folder,
        "a.svg",
        b"<svg onload=\"alert(1)\"><script>alert(2)</script></svg>",
    );
    assert!(
        page.contains("the file begins with &quot;&lt;svg&quot;; it looks like an SVG drawing.")
    );
    assert!(!page.contains("<svg") && !page.contains("<script"));
}

#[test]
fn the_foot_says_what_the_page_was_made_from() {
    let source = sample().with_extension("rb");
    let page = page_with(sample().to_str().unwrap(), source.to_str().unwrap());
    let foot = between(&page, "<footer>", "</footer>");
    let digest = "7a20d987c7f5e68d2825c0cfbd64e9abee862bec6c09acb427175aae3b5c1c5a";
    assert!(foot.contains(&format!("<dd>oval.mrb, SHA-256 {digest}</dd>")));
    let digest = "f720a5b36343eb5c3576ff206d115a2ee62f881da05305fb3f6ea28ecf67eae7";
    assert!(
        foot.contains(&format!("<dd>oval.rb, SHA-256 {digest}</dd>")),
        "{foot}"
    );
    let identity = blotheath::IDENTITY;
    assert!(foot.contains(&format!("<dd>blotheath {}</dd>", identity.version)));
    for known in [identity.commit, identity.kit, identity.archive] {
        assert!(foot.contains(known.unwrap_or_default()));
    }
    assert!(foot.contains("<dt>archive</dt>"));
    let date = between(foot, "<dt>written</dt><dd>20", "</dd>");
    assert!(
        date.len() == "26-11-16 02:43 UTC".len() && date.ends_with(" UTC"),
        "{date}"
    );
    let folder = Folder::new("foot");
    let long = folder.file("long.mrb", &build::resized(&sample_bytes(), 65_537));
    let page = run(&["report", &long]).out;
    assert!(page.contains("<dd>long.mrb, longer than what is read, so without a digest</dd>"));
}

#[test]
fn a_source_of_another_name_is_told() {
    let folder = Folder::new("source");
    let text = fs::read(sample().with_extension("rb")).unwrap();
    let other = folder.file("oval2.rb", &text);
    let page = page_with(sample().to_str().unwrap(), &other);
    let told = "oval2.rb is not a file that the line maps name: oval.rb; its lines are not shown.";
    assert!(page.contains(told));
    assert!(!page.contains("<code>class Oval</code>"));
    let own = folder.file("oval.rb", &text);
    let page = page_with(sample().to_str().unwrap(), &own);
    assert!(!page.contains("are not shown.") && page.contains("<code>class Oval</code>"));
    let bare = folder.file("bare.mrb", &build::one(&[118], &[], &[]));
    let told = "The file has no line maps, so the lines of oval.rb are not shown.";
    assert!(page_with(&bare, &own).contains(told));
    let short = folder.file("short/oval.rb", b"NAMES = []\n");
    let page = page_with(sample().to_str().unwrap(), &short);
    assert!(page.contains("oval.rb has no such line"));
}

#[test]
fn the_heading_has_no_folder() {
    let folder = Folder::new("heading");
    let page = page(&folder, "deep/down/oval.mrb", &sample_bytes());
    assert!(page.contains("<h1>oval.mrb</h1>"));
    assert!(page.contains("<title>oval.mrb: Blotheath report</title>"));
    assert!(!page.contains("deep"));
}

#[test]
fn paper_has_heads_and_numbers_and_the_map() {
    let folder = Folder::new("paper");
    let page = page(&folder, "o\"<style>.mrb", &sample_bytes());
    let style = between(&page, "<style>", "</style>");
    assert!(style.contains("counter(page) \" of \" counter(pages)"));
    assert!(
        style
            .contains("@top-left { content: \"Blotheath\\20 report\\3a \\20 o\\5c \\22 \\3c style")
    );
    assert!(style.contains("@top-right { content: \"passes\"; }"));
    // What is printed in its colours keeps its sizes.
    let print = between(&page, "@media print {", "</style>");
    for rule in print.split('}').filter(|rule| rule.contains(".map rect")) {
        let (_, body) = rule.split_once('{').unwrap();
        assert!(
            !body.contains("width") && !body.contains("height"),
            "{rule}"
        );
    }
}

/// A record has a link to what contains it: among the steps, in the outline, and in the drawing by the line that leads to it.
#[test]
fn records_link_to_what_contains_them() {
    let folder = Folder::new("inside");
    let sample = page(&folder, "a.mrb", &sample_bytes());
    for (record, parent, depth) in [(1, 0, 1), (2, 1, 2), (3, 1, 2), (4, 1, 2), (5, 0, 1)] {
        let section = between(&sample, &format!("id=\"r{record}\">"), "</h3>");
        let link = format!("inside <a href=\"#r{parent}\">record {parent}</a>, depth {depth} · ");
        assert!(section.contains(&link), "{section}");
        let row = between(
            &sample,
            &format!("<span class=\"of\">{record}</span>"),
            "</li>",
        );
        assert!(row.contains(&format!("inside <a href=\"#r{parent}\">{parent}</a>, ")));
        let line = format!(
            "<a href=\"#r{parent}\"><title>record {record} is inside record {parent}</title><path "
        );
        assert!(sample.contains(&line), "{record}");
    }
    let main = between(&sample, "id=\"r0\">", "</h3>");
    assert!(main.contains(">outermost, depth 0 · ") && !main.contains("<a "));
    let apart = build::record(0, &[118], &[], &[]).repeat(2);
    let apart = page(&folder, "a.mrb", &build::file(&[build::irep(&apart)]));
    let section = between(&apart, "id=\"r1\">", "</h3>");
    assert!(section.contains(">never reached · ") && !section.contains("<a "));
    let row = between(&apart, "<span class=\"of\">1</span>", "</li>");
    assert!(row.contains(">never reached, ") && !apart.contains("is inside record"));
}

#[test]
fn records_are_an_outline() {
    let folder = Folder::new("outline");
    let rows = |page: &str| page.matches("<li class=\"d").count();
    let sample = page(&folder, "a.mrb", &sample_bytes());
    assert!(sample.contains("<svg class=\"tree\"") && rows(&sample) == 6);
    assert!(sample.contains("<div class=\"instead\">"));
    for wide in [true, false] {
        let page = page(&folder, "a.mrb", &build::tree(wide));
        assert_eq!(rows(&page), 1_024);
        // No drawing that leaves pages blank, and no indentation without end.
        assert!(!page.contains("<svg class=\"tree\"") && page.contains("<div class=\"alone\">"));
        let deepest = values(&page, "<li class=\"d").into_iter();
        let deepest = deepest.map(|depth| depth.parse::<u32>().unwrap()).max();
        assert_eq!(deepest, Some(if wide { 1 } else { 12 }));
        assert_eq!(page.contains("depth 1,023, "), !wide);
        assert!(page.contains("<summary>904 more records</summary>"));
    }
}

#[test]
fn a_phone_scrolls_no_page_sideways() {
    let style = Path::new(env!("CARGO_MANIFEST_DIR")).join("src/command/report/page.css");
    let style = fs::read_to_string(style).unwrap();
    assert!(!style.contains("min-width: 760px"));
    let phone = between(&style, "@media screen and (max-width: 760px) {", "@page");
    assert!(
        phone.contains(".tree { display: none; }")
            && phone.contains(".instead { display: block; }")
    );
}
