//! Help.

use super::Status;
use blotheath::Group;
use std::io::{self, Write};

/// The help on everything, which the script `blotheath` of the repository writes too before anything is built.
const GENERAL: &str = include_str!("help.txt");

const EXAMINE: &str = "\
blotheath examine FILE.. [--record N] [--json] [--preview] [--max-bytes N] [--max-records N]
                  [--forbid NAMES] [--permit NAMES] [--school FILE]

A line for each file: it passes, with its numbers of records, constants, names and lines; or it is refused, with the
refusal's number, a sentence, and the record, offset and source line where that can be told. Of a file that does not begin
as a pattern does, it tells what the first bytes look like, such as a picture or plain text; no verdict is taken from that,
and in JSON it is \"looks_like\". Folders are walked for files that end in .mrb, in letters of any case. Several files end
with a summary.

--record N examines record N alone, counted from 0 as `blotheath steps` numbers them: the file is loaded, and that record is
tested without the others and without the tree that they make. That it passes by itself says nothing of the rest of the file.
The whole file passes exactly where the records are one whole tree and each of them passes by itself. A refusal has the place
in that record, also where the whole file would be refused for another. A record that the file does not have is refused by 22,
with how many records there are. In JSON \"record\" is N, and \"passes\" is said of that record alone.

Examples
    blotheath examine oval.mrb
    blotheath examine oval.mrb --record 3
    blotheath examine patterns/ more.mrb
    blotheath examine patterns/ --preview
    blotheath examine patterns/ --forbid class-definitions,globals
    blotheath examine patterns/ --school lower-school.txt
    cat oval.mrb | blotheath examine -
";

const WATCH: &str = "\
blotheath watch FILE [--record N] [--preview] [--max-bytes N] [--max-records N]
                [--forbid NAMES] [--permit NAMES] [--school FILE]

A line each time that the file changes, with the time in UTC and the verdict, as `examine` tells it: for whoever edits a
pattern and compiles it again and again. Ctrl-C ends it. A change is examined once two looks in turn, a fifth of a second
apart, find the file the same, so one that is being written is waited for. A file that vanishes or cannot be read is told
once, and examined when it is there again. A school's file is read once, at the start.

Where the file passed before and one record alone has changed, that record alone is examined, and the line says so. Such an
examination answers exactly what that of the whole file answers: there are as many records as before, the changed one has as
many children as before, and every other record has the same counts, handlers, lines and instructions. The loaded rows of the
two files say whether that is so. Constants' values, texts and names may have changed anywhere: no examination looks at them.

--record N examines record N alone, whatever else has changed. Until the whole file has passed once it is examined too. Then,
where nothing but that record has changed since the whole file passed, the line says that the whole file passes; else nothing
is said of the rest of the file.

Examples
    blotheath watch oval.mrb
    blotheath watch oval.mrb --record 3
    blotheath watch oval.mrb --school lower-school.txt
";

const LOAD: &str = "\
blotheath load FILE [--json] [--all] [--preview] [--max-bytes N] [--max-records N]

How many visits the walk over the local names makes, and the rows of a file that loads: records, handlers, constants,
symbols, local names, debug files, lines. The walk visits record 0 and, of each record that it visits, as many children
as it claims to have, past the last record too: in what a compiler writes, one visit to each record. Records that it
never reaches have no names; visits that go far beyond the records are told, since other programs may take long to make
them. In JSON \"visits\" is their number, \"name_walk\" the sentence.

Each record has its depth, which is how many records contain it, one in another, and its parent, the innermost of them.
Record 0 has depth 0 and no parent. So has a record that is never reached: those before it claim too few children. No
parent is - in the table, and null in JSON.

Text is escaped; a zero byte, which a constant may have inside, is \\0, or \\x00 before a digit from 0 to 7. Up to
65,536 rows of a kind are shown, as many as a file without overlapping records can have, and up to 48 bytes of a text,
on a terminal as in a pipe; --all shows every row, and every text whole. Loading does not examine: exit status 0 says
that the file loads.

JSON has constants, symbols, strings and file names whole; a local's name and a record's file name, which many rows may
share, have up to 256 bytes without --all, and \"cut\" where that is not all. A whole number beyond 2^53, which many readers
of JSON round, is also there as a string, \"exact\". Floats read back to the same bits; NaN, inf and -inf are strings.
Text reads back to the same bytes, a zero byte from \\u0000; what is not UTF-8 is there in hexadecimal digits, as \"hex\".

Examples
    blotheath load oval.mrb
    blotheath load oval.mrb --all
    blotheath load oval.mrb --max-records 5
    blotheath load oval.mrb --json | jq '.records[0].constants'
";

const STEPS: &str = "\
blotheath steps FILE [--source SOURCE.rb] [--json] [--all] [--preview] [--max-bytes N] [--max-records N]
                [--forbid NAMES] [--permit NAMES] [--school FILE]

Each instruction of each record: its offset, name, operands with their meaning, and source line. A record's head tells where
it stands among the others: inside 1, depth 2 for one that record 1 contains, outermost for record 0, never reached for any
other that none contains. In JSON each record has \"depth\", and \"parent\", null for none. Jumps are drawn in the margin. A
prefix is one step with the opcode behind it, and the step's offset is the prefix's: EXT1 widens the first operand to two
bytes, EXT2 the second, EXT3 both. In JSON \"prefix\" is the prefix's byte, or null. Where a step touches more registers than
its operands name, as ADD R4 also touches R5, they stand behind the operands: touches R4..R5. In JSON \"registers\" has all
that a step touches, as pairs of the first and the last: [[4,5]]. A file that loads but does not pass is shown as far as it
can be read, and the exit status is 1. Up to 65,536 steps are shown, as many as a file without overlapping records can have,
and up to 48 bytes of a text (256 in JSON, where a constant that is cut has its \"length\" and the number of its \"zeros\");
--all shows every step, and every text whole. The lines of SOURCE.rb are shown beside the steps of the debug files of that
name, and where there is no such file that is told; nothing proves that it is the source of the pattern.

Examples
    blotheath steps oval.mrb
    blotheath steps oval.mrb --source oval.rb
    blotheath steps oval.mrb --json | jq '.records[0].steps[0]'
";

const FOLLOW: &str = "\
blotheath follow FILE [CHOICE..] [--each] [--source SOURCE.rb] [--json] [--preview] [--max-bytes N] [--max-records N]
                 [--forbid NAMES] [--permit NAMES] [--school FILE]

Runs a file that passes, from its first instruction, along the choices, and shows the frames with their lines, and where their
records stand among the others, as `steps` tells it; in JSON each frame has the \"depth\" and the \"parent\" of its record.
    go          goes on: an ending instruction leaves, a jump jumps, others pass to the next
    jump        jumps at JMPIF, JMPNOT, JMPNIL
    enter       enters the child at LAMBDA, BLOCK, METHOD, EXEC, TDEF, SDEF
    caught N    goes to the target of handler N
    leave       leaves the top frame
A choice that is not open is go, and that is told. A choice may have a number of times before it: 12 go. Choices may also
be given as bytes: 0 1 2 3 4 in hexadecimal, two digits each, after `bytes`. --each shows the frames after every choice.
Without choices they are asked for one by one. The registers that the step of a frame touches are told as in `steps`. The
lines of SOURCE.rb are shown beside the frames in debug files of that name.

The frames at the end of the choices are the proved archive's answer. Those on the way there, after each choice of --each
and after each answer, are this program's own steps, which are tested, not proved. At the end they are held against the
archive's answer; if they differ, that is told and the exit status is 2. In JSON, \"by\" says whose answer a standing is.

Examples
    blotheath follow oval.mrb 7 go enter go
    blotheath follow oval.mrb 12 go caught 0 --each
    blotheath follow oval.mrb bytes 00 00 00 00 00 00 00 02 00
    blotheath follow oval.mrb --source oval.rb
";

const REPORT: &str = "\
blotheath report FILE [-o PAGE.html] [--source SOURCE.rb] [--force] [--preview] [--max-bytes N] [--max-records N]
                 [--forbid NAMES] [--permit NAMES] [--school FILE]

One page that needs nothing else: the verdict, what is proved and what that rests on, the constants with where they stand in
the file, the steps beside their source lines, and a picture of the records, in which each has a link to the record that
contains it, as it has among the steps. The lines of SOURCE.rb are shown beside the steps of the debug files of that name;
nothing proves that it is the source of the pattern. Without -o the page goes to standard output; --output is the same as
-o. The page is never written over a file that is read for it, and over another file that is no page of this program only
with --force.

Example
    blotheath report oval.mrb -o oval.html --source oval.rb
";

/// What the help on every command that reads a file ends with.
const ALLOWANCE: &str = "
Allowance
    --preview          at most 16,384 bytes and 64 records, as the web's preview page takes
    --max-bytes N      at most N bytes
    --max-records N    at most N records
Without these it is the desktop's: at most 65,536 bytes and 1,024 records. A larger N counts as the desktop's, and N may be 0.
Beside --preview an N stands in the place of the preview's. A file beyond its allowance is refused by 29. That tells which of
the two is exceeded and by how much, as far as that is known, and what comes of the file under the desktop's allowance. Records
are counted as they are read, and the first one too many decides, whatever follows it. An allowance that is not the desktop's
is told first. In JSON \"allowance\" is always there, and \"excess\" where a file is beyond it.
";

/// What the help on every command that examines a file has behind that, before a line for each group.
const PERMITTED: &str = "
Permitted opcodes
    --forbid NAMES     these are not permitted
    --permit NAMES     these are permitted; where this comes first, these alone
    --school FILE      as the lines of FILE say: forbid NAMES, permit NAMES, or a comment behind #
Without these every opcode is permitted. NAMES are opcodes as `blotheath opcodes` lists them, in letters of any case, their
numbers, or groups, parted by commas; in a file by blanks too. The options may be repeated, and count in the order in which
they stand, the lines of a file in its place; one behind the others changes what they say: --school FILE --permit CLASS.
Where the first of them forbids, all else is permitted. Where it permits, nothing else is: what every pattern needs has to be
named too, as values and returns, and so have the prefixes, without which a large pattern is refused; no group but prefixes
and everything has them. The name of an opcode is that one alone, though Ruby's word may compile to more: def is in the
groups methods and classes, class in class-definitions and classes.

Every step that a file holds counts, also where no run reaches it; with --record N every step of that record. A step behind a
prefix needs both to be permitted. A file that holds anything else is refused by 32. That tells the first such step of the
first record that has one, how to permit it, and what else the file or that record holds that is not permitted. What a called
method does is no step of the file: Class.new makes a class by a call alone. What is permitted is told first, where it is not
everything or where a file says so. In JSON \"permitted\" is always there, and \"not_permitted\" where 32 is met.

Groups
";

const OPCODES: &str = "\
blotheath opcodes [--json]

One line for each opcode, in the order of mruby's ops.h: its byte, its name, its kind of operands, the bytes of its
instruction alone and behind each prefix, what its operands name, the registers that it touches, and where a run goes from
it. A prefix adds one byte, and one for each operand that it widens; a prefix behind a prefix is refused by 25.

A step is refused by 17 where an operand names a constant, symbol or child, or the step touches a register, that the record
does not have. Registers are told by the operands a, b and c: SETIDX touches a, a+1 and a+2, ARRAY2 a and the c registers
from b on. n is the low four bits of the last operand, k the next four; n or 2k is one register where n or k is 15. A range
that ends below its start has none, and an operand that is a register always counts. A jump or a step that leads to where no
instruction begins is refused by 18. A plain operand that counts no registers may be any number.

The kinds are the proved archive's answers; the rest is this program's own, and tests hold all but the names against what
the archive fetches, examines and follows. In JSON \"behind\" has the sizes by the prefix's byte; they are null for a prefix.
Behind the opcodes stand the groups that --permit and --forbid take, each with its own; in JSON \"groups\".

Examples
    blotheath opcodes
    blotheath opcodes --json | jq '.opcodes[] | select(.kind == \"BB\")'
";

/// What the help on a command ends with.
enum End {
    Nothing,
    Allowance,
    /// An allowance, and permitted opcodes.
    Terms,
}

/// Writes the help on everything, or on one command.
pub fn write(out: &mut dyn Write, topic: Option<&str>) -> io::Result<Status> {
    let (text, end) = match topic {
        Some("examine") => (EXAMINE, End::Terms),
        Some("watch") => (WATCH, End::Terms),
        Some("load") => (LOAD, End::Allowance),
        Some("steps") => (STEPS, End::Terms),
        Some("follow") => (FOLLOW, End::Terms),
        Some("report") => (REPORT, End::Terms),
        Some("opcodes") => (OPCODES, End::Nothing),
        _ => (GENERAL, End::Nothing),
    };
    write!(out, "{text}")?;
    match end {
        End::Nothing => {}
        End::Allowance => write!(out, "{ALLOWANCE}")?,
        End::Terms => {
            write!(out, "{ALLOWANCE}{PERMITTED}")?;
            for group in Group::all() {
                writeln!(out, "    {:<18} {}", group.name, group.about)?;
            }
        }
    }
    Ok(Status::Passed)
}
