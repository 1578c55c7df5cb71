//! The run of a file that passes, along a list of choices.

use crate::Refusal;
use crate::allowance::Allowance;
use crate::examine::{child, code, passes, step_at};
use crate::insn::{Flow, OPCODES, flow};
use crate::line::line_at;
use crate::load::read;
use crate::rows::{Loaded, Rows, Sizes};

/// What follow answers, with the entire contents of the lent tables and of the frame table.
#[derive(Debug, Clone, PartialEq, Eq)]
pub struct Followed {
    /// The refusal or the rows used, as examination answers them.
    pub loaded: Loaded,
    /// "Without frames the run is finished"; false after a refusal.
    pub finished: bool,
    /// The record and offset of the top frame.
    pub top: Option<(u32, u32)>,
    /// The top frame's line.
    pub line: Option<u32>,
    pub frames: u32,
    /// "the frames in a lent table, lowest first, zero rows after them"
    pub frame_table: Vec<u32>,
}

/// A choice of the list.
#[derive(Debug, Clone, Copy, PartialEq, Eq)]
pub enum Choice {
    GoOn,
    Jump,
    Enter,
    Caught(u32),
    Leave,
}

/// "Choices are bytes, one kind then its body"; "21: choice kind above 4, or its body cut".
pub fn choices(bytes: &[u8]) -> Result<Vec<Choice>, Refusal> {
    let mut list = Vec::new();
    let mut at = 0;
    while at < bytes.len() {
        let kind = bytes[at];
        at += 1;
        list.push(match kind {
            0 => Choice::GoOn,
            1 => Choice::Jump,
            2 => Choice::Enter,
            3 => {
                // "3 caught, with 2 bytes h"
                if at + 2 > bytes.len() {
                    return Err(21);
                }
                let handler = u32::from(bytes[at]) * 256 + u32::from(bytes[at + 1]);
                at += 2;
                Choice::Caught(handler)
            }
            4 => Choice::Leave,
            _ => return Err(21),
        });
    }
    Ok(list)
}

/// "Follow loads, tests its frame table, examines, reads the whole choice list for 21, then runs".
pub fn follow(
    file: &[u8],
    allowance: Allowance,
    permitted: &[u8],
    lent: &Sizes,
    frame_words: usize,
    bytes: &[u8],
) -> Followed {
    let reading = read(file, allowance, lent.rows());
    let tested = || -> Result<Vec<Choice>, Refusal> {
        reading.end?;
        // "follow's frame table has fewer rows than the file has records"
        if frame_words / 2 < reading.rows.records.rows.len() {
            return Err(14);
        }
        passes(file, permitted, &reading.rows)?;
        choices(bytes)
    };
    let list = match tested() {
        Ok(list) => list,
        Err(number) => {
            return Followed {
                loaded: Loaded::refused(number, lent),
                finished: false,
                top: None,
                line: None,
                frames: 0,
                frame_table: vec![0; frame_words],
            };
        }
    };
    // "a list of frames (record, offset), starting as (0, 0)"
    let mut frames = vec![(0, 0)];
    for choice in list {
        frames = take(file, &reading.rows, frames, choice);
    }
    let top = frames.last().copied();
    let mut frame_table: Vec<u32> = frames
        .iter()
        .flat_map(|(record, offset)| [*record as u32, *offset as u32])
        .collect();
    frame_table.resize(frame_words, 0);
    Followed {
        loaded: reading.rows.loaded(lent),
        finished: top.is_none(),
        top: top.map(|(record, offset)| (record as u32, offset as u32)),
        line: top.and_then(|(record, offset)| frame_line(&reading.rows, record, offset)),
        frames: frames.len() as u32,
        frame_table,
    }
}

/// "A frame's line is what `line_at` answers for its record and offset."
fn frame_line(rows: &Rows, record: usize, offset: usize) -> Option<u32> {
    let map = rows.records.rows[record].lines.of(&rows.lines.rows);
    line_at(map, offset as u32)
}

/// The frames after a choice; "each acts on the top frame alone".
fn take(
    file: &[u8],
    rows: &Rows,
    mut frames: Vec<(usize, usize)>,
    choice: Choice,
) -> Vec<(usize, usize)> {
    let Some((number, offset)) = frames.pop() else {
        return frames;
    };
    let record = &rows.records.rows[number];
    let step = step_at(code(file, record), offset).expect("a passing record has instructions here");
    let opcode = &OPCODES[step.opcode];
    let target = step.target().map(|target| target as usize);
    let go_on = |mut frames: Vec<(usize, usize)>| {
        // "an ending opcode leaves, JMP and JMPUW jump, others pass to the next offset"
        match flow(opcode) {
            Flow::Ends => {}
            Flow::Jump => frames.push((number, target.expect("a jump has a target"))),
            Flow::Next | Flow::MayJump => frames.push((number, step.next)),
        }
        frames
    };
    match choice {
        Choice::GoOn => return go_on(frames),
        Choice::Jump => {
            // "taken at JMPIF, JMPNOT, JMPNIL"
            if flow(opcode) != Flow::MayJump {
                return go_on(frames);
            }
            frames.push((number, target.expect("a jump has a target")));
        }
        Choice::Enter => {
            // "at a child opcode the frame passes to its next offset and (child, 0) is put on top"
            let Some(entered) = step.child() else {
                return go_on(frames);
            };
            let rlens: Vec<u32> = rows.records.rows.iter().map(|r| r.rlen).collect();
            frames.push((number, step.next));
            frames.push((child(&rlens, number, entered), 0));
        }
        Choice::Caught(handler) => {
            // "if h < clen the offset becomes handler h's target, from any instruction"
            if handler >= record.clen {
                return go_on(frames);
            }
            let handlers = record.handlers.of(&rows.handlers.rows);
            frames.push((number, handlers[handler as usize].target as usize));
        }
        Choice::Leave => {}
    }
    frames
}
