//! What is proved, and what that rests on.

use std::io::{self, Write};

/// What the proofs say, each with the question that it answers.
const CLAIMS: [(&str, &str); 4] = [
    (
        "Loading",
        "For every file whatever, under every allowance, the verdict of loading and every row that it fills are what the definition of the format says.",
    ),
    (
        "Constants, names and lines",
        "Each constant, symbol, name and line on this page is the one that the definition finds in the file for its record and index.",
    ),
    (
        "Examination",
        "For every list of permitted opcodes, a file passes exactly where it meets none of the conditions 15 to 20, 25 and 32 of the definition.",
    ),
    (
        "Runs",
        "No run of a file that passes, along any choices whatever, leaves the places where its instructions begin, or meets an opcode that is not permitted.",
    ),
];

/// What the proofs rest on.
const TRUSTED: [&str; 4] = [
    "The definitions in crates/format/specs say what the format is. They are short, and are to be read beside the format's papers.",
    "The logic and the compiler of the Rattle kit, and the call from this program into the proved archive.",
    "This program reads the file, asks the proved archive, and draws this page. It is tested, not proved. Names of opcodes, \
     operands that a prefix widens, words for arguments and parameters, labels of records, jumps, pictures, the place of a \
     refusal, with how far each condition was looked at, how far a file is beyond its allowance, which opcodes a \
     name stands for, and what a file that is no pattern looks like, are its own.",
    "Nothing proves that a source text shown here is the text that the pattern was made from.",
];

/// What a page says of which nothing is proved, and why.
pub fn warning(doubt: &str) -> String {
    format!(
        "<p class=\"warning\"><strong>Nothing on this page is proved</strong> by this build: {doubt}.</p>"
    )
}

pub fn write(out: &mut dyn Write) -> io::Result<()> {
    writeln!(
        out,
        "<div class=\"columns\"><div><h3>Proved of the archive</h3><dl>"
    )?;
    for (name, claim) in CLAIMS {
        writeln!(out, "<dt>{name}</dt><dd>{claim}</dd>")?;
    }
    writeln!(out, "</dl></div><div><h3>What it rests on</h3><ul>")?;
    for thing in TRUSTED {
        writeln!(out, "<li>{thing}</li>")?;
    }
    writeln!(out, "</ul></div></div>")
}
