//! The run of a pattern that passes, choice by choice.

use crate::follow::{Choice, Frame, Standing};
use crate::opcode::{Flow, flow};
use crate::pattern::Pattern;
use crate::step::{Step, Steps};
use crate::tree::Tree;

/// A run that shows its frames as it goes, by this library's own steps; what the archive answers is [`crate::follow`].
#[derive(Debug, Clone)]
pub struct Run<'p, 'a> {
    pattern: &'p Pattern<'a>,
    tree: &'p Tree,
    frames: Vec<Frame>,
}

/// The part of the frames that a choice can change.
#[derive(Debug, Clone, Copy, PartialEq, Eq)]
pub struct Before {
    top: Frame,
    frames: u16,
}

impl<'p, 'a> Run<'p, 'a> {
    /// A run that stands at the first instruction.
    pub fn new(pattern: &'p Pattern<'a>, tree: &'p Tree) -> Run<'p, 'a> {
        Run {
            pattern,
            tree,
            frames: vec![START],
        }
    }

    /// All frames, lowest first; without frames the run is finished.
    pub fn frames(&self) -> &[Frame] {
        &self.frames
    }

    pub fn top(&self) -> Option<Frame> {
        self.frames.last().copied()
    }

    /// The instruction at the top frame.
    pub fn step(&self) -> Option<Step> {
        self.pattern.step_at(self.top()?)
    }

    /// Where the run stands.
    pub fn standing(&self) -> Standing {
        match self.top() {
            None => Standing::Finished,
            Some(top) => Standing::At {
                top,
                line: self.pattern.line(top.record, top.offset).ok().flatten(),
                frames: self.frames.clone(),
            },
        }
    }

    /// Takes a choice, or goes on where it is not open; answers whether it was.
    pub fn take(&mut self, choice: Choice) -> bool {
        let (Some(top), Some(step)) = (self.top(), self.step()) else {
            return false;
        };
        let is_open = self.act(top, &step, choice).is_some();
        if !is_open {
            self.act(top, &step, Choice::GoOn);
        }
        is_open
    }

    /// Does what a choice says at the top frame; nothing where it is not open.
    fn act(&mut self, top: Frame, step: &Step, choice: Choice) -> Option<()> {
        match (choice, flow(step.opcode)) {
            (Choice::Leave, _) | (Choice::GoOn, Flow::Ends) => {
                self.frames.pop();
            }
            (Choice::GoOn, Flow::Jump) | (Choice::Jump, Flow::MayJump) => {
                self.go(u32::try_from(step.target()?).ok()?);
            }
            (Choice::GoOn, Flow::Next | Flow::MayJump) => self.go(step.next),
            (Choice::Jump, _) => return None,
            (Choice::Enter, _) => {
                let record = self.tree.entered(top.record, step)?;
                self.go(step.next);
                self.frames.push(Frame { record, offset: 0 });
            }
            (Choice::Caught(handler), _) => {
                let handler = self.pattern.handler(top.record, handler.into());
                self.go(handler.ok()?.target);
            }
        }
        Some(())
    }

    fn go(&mut self, offset: u32) {
        if let Some(top) = self.frames.last_mut() {
            top.offset = offset;
        }
    }

    /// What the next choice can change.
    pub fn before(&self) -> Before {
        Before {
            top: self.top().unwrap_or(START),
            frames: self.frames.len() as u16,
        }
    }

    /// Takes the last choice back, with what was there before it.
    pub fn back(&mut self, before: Before) {
        if let Some(below) = before.frames.checked_sub(1) {
            self.frames.truncate(below.into());
            self.frames.push(before.top);
        }
    }
}

/// The frame that a run starts with.
const START: Frame = Frame {
    record: 0,
    offset: 0,
};

impl Pattern<'_> {
    /// The instruction at a frame.
    pub fn step_at(&self, frame: Frame) -> Option<Step> {
        let code = self.instructions(frame.record).ok()?.bytes;
        let rest = code.get(frame.offset as usize..)?;
        let mut step = Steps::new(rest).next()?.ok()?;
        step.offset += frame.offset;
        step.next += frame.offset;
        Some(step)
    }
}
