//! The run of a pattern that passes, along a list of choices.

use crate::allowance::Allowance;
use crate::ffi;
use crate::permitted::Permitted;
use crate::refusal::Refusal;
use crate::tables::{self, RECORD_LIMIT};

/// A choice at the top frame.
#[derive(Debug, Clone, Copy, PartialEq, Eq)]
pub enum Choice {
    GoOn,
    Jump,
    Enter,
    Caught(u16),
    Leave,
}

impl Choice {
    fn write(self, bytes: &mut Vec<u8>) {
        match self {
            Choice::GoOn => bytes.push(0),
            Choice::Jump => bytes.push(1),
            Choice::Enter => bytes.push(2),
            Choice::Caught(handler) => {
                bytes.push(3);
                bytes.extend(handler.to_be_bytes());
            }
            Choice::Leave => bytes.push(4),
        }
    }

    /// The choice at the start of these bytes, and the bytes behind it; none where 21 would be answered.
    pub fn read(bytes: &[u8]) -> Option<(Choice, &[u8])> {
        let (kind, rest) = bytes.split_first()?;
        let choice = match kind {
            0 => Choice::GoOn,
            1 => Choice::Jump,
            2 => Choice::Enter,
            3 => {
                let (handler, rest) = rest.split_first_chunk()?;
                return Some((Choice::Caught(u16::from_be_bytes(*handler)), rest));
            }
            4 => Choice::Leave,
            _ => return None,
        };
        Some((choice, rest))
    }
}

/// The bytes of a list of choices.
pub fn bytes_of(choices: &[Choice]) -> Vec<u8> {
    let mut bytes = Vec::new();
    choices.iter().for_each(|choice| choice.write(&mut bytes));
    bytes
}

/// A frame: a record and an offset in it.
#[derive(Debug, Clone, Copy, PartialEq, Eq)]
pub struct Frame {
    pub record: u32,
    pub offset: u32,
}

/// Where a run stands.
#[derive(Debug, Clone, PartialEq, Eq)]
pub enum Standing {
    Finished,
    /// The top frame, its line, and all frames, lowest first.
    At {
        top: Frame,
        line: Option<u32>,
        frames: Vec<Frame>,
    },
}

/// Examines a file under the desktop's allowance, every opcode being permitted, and runs it along the bytes of a list of choices.
pub fn follow(file: &[u8], choices: &[u8]) -> Result<Standing, Refusal> {
    follow_within(file, Allowance::DESKTOP, &Permitted::everything(), choices)
}

/// Examines a file under an allowance for permitted opcodes and runs it along the bytes of a list of choices.
pub fn follow_within(
    file: &[u8],
    allowance: Allowance,
    permitted: &Permitted,
    choices: &[u8],
) -> Result<Standing, Refusal> {
    let mut frames = vec![0; 2 * RECORD_LIMIT];
    let (_, followed) = tables::lend(file, |words| {
        let permitted = permitted.as_bytes();
        let followed = ffi::follow(file, allowance, permitted, words, &mut frames, choices);
        (followed.refusal, followed)
    });
    Refusal::of(followed.refusal)?;
    if followed.finished != 0 {
        return Ok(Standing::Finished);
    }
    let rows = frames.chunks_exact(2).take(followed.frames as usize);
    Ok(Standing::At {
        top: Frame {
            record: followed.record,
            offset: followed.offset,
        },
        line: (followed.found != 0).then_some(followed.line),
        frames: rows
            .map(|row| Frame {
                record: row[0],
                offset: row[1],
            })
            .collect(),
    })
}
