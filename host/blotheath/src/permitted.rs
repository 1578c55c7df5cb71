//! Permitted opcodes: which of them a file may hold.

use crate::groups::opcodes_named;
use crate::opcode::NAMES;
use crate::step::Step;
use std::fmt;

/// How many opcodes there are.
const OPCODES: usize = NAMES.len();

/// Which opcodes a file may hold: a yes or a no for each, a prefix being an opcode of its own.
///
/// ```
/// let mut permitted = blotheath::Permitted::everything();
/// permitted.forbid_named("classes")?;
/// permitted.permit_named("SCLASS")?;
/// assert!(!permitted.permits(103) && permitted.permits(111));
/// # Ok::<(), blotheath::UnknownName>(())
/// ```
#[derive(Debug, Clone, Copy, PartialEq, Eq)]
pub struct Permitted([u8; OPCODES]);

const NO: u8 = 0;
const YES: u8 = 1;

impl Permitted {
    /// Every opcode, the prefixes too.
    pub const fn everything() -> Permitted {
        Permitted([YES; OPCODES])
    }

    /// No opcode.
    pub const fn nothing() -> Permitted {
        Permitted([NO; OPCODES])
    }

    /// Says yes to an opcode; a byte that is none changes nothing.
    pub fn permit(&mut self, opcode: u8) {
        self.say(opcode, YES);
    }

    /// Says no to an opcode; a byte that is none changes nothing.
    pub fn forbid(&mut self, opcode: u8) {
        self.say(opcode, NO);
    }

    fn say(&mut self, opcode: u8, said: u8) {
        if let Some(byte) = self.0.get_mut(usize::from(opcode)) {
            *byte = said;
        }
    }

    /// Permits what a name stands for, as [`opcodes_named`] reads it.
    pub fn permit_named(&mut self, name: &str) -> Result<(), UnknownName> {
        self.say_named(name, YES)
    }

    /// Forbids what a name stands for, as [`opcodes_named`] reads it.
    pub fn forbid_named(&mut self, name: &str) -> Result<(), UnknownName> {
        self.say_named(name, NO)
    }

    fn say_named(&mut self, name: &str, said: u8) -> Result<(), UnknownName> {
        let opcodes = opcodes_named(name).ok_or_else(|| UnknownName(name.to_owned()))?;
        opcodes
            .into_iter()
            .for_each(|opcode| self.say(opcode, said));
        Ok(())
    }

    /// Whether a byte is an opcode that is permitted.
    pub fn permits(&self, byte: u8) -> bool {
        let said = self.0.get(usize::from(byte));
        said.is_some_and(|said| *said != NO)
    }

    /// The opcodes that are not permitted.
    pub fn forbidden(&self) -> impl Iterator<Item = u8> + '_ {
        (0..OPCODES as u8).filter(|opcode| !self.permits(*opcode))
    }

    /// What of a step is not permitted: its prefix, its opcode.
    pub fn forbidden_of(&self, step: &Step) -> impl Iterator<Item = u8> + '_ {
        let bytes = step.prefix.into_iter().chain([step.opcode]);
        bytes.filter(|byte| !self.permits(*byte))
    }

    /// A byte for each opcode, as the C boundary takes them.
    pub fn as_bytes(&self) -> &[u8] {
        &self.0
    }
}

impl Default for Permitted {
    /// Every opcode.
    fn default() -> Permitted {
        Permitted::everything()
    }
}

/// A name that is neither an opcode's nor a group's.
#[derive(Debug, Clone, PartialEq, Eq)]
pub struct UnknownName(pub String);

impl fmt::Display for UnknownName {
    fn fmt(&self, f: &mut fmt::Formatter) -> fmt::Result {
        write!(f, "there is no opcode and no group of opcodes {:?}", self.0)
    }
}

impl std::error::Error for UnknownName {}

#[cfg(test)]
mod tests {
    use super::*;

    #[test]
    fn a_yes_or_a_no_for_each() {
        let (mut most, mut least) = (Permitted::everything(), Permitted::nothing());
        assert_eq!(Permitted::default(), most);
        assert!((0..=255).all(|byte| most.permits(byte) == (byte < 119)));
        assert!((0..=255).all(|byte| !least.permits(byte)));
        assert_eq!(
            (most.forbidden().count(), least.forbidden().count()),
            (0, 119)
        );
        assert_eq!(
            (most.as_bytes(), least.as_bytes()),
            (&[1; 119][..], &[0; 119][..])
        );
        for opcode in 0..=255 {
            most.forbid(opcode);
            least.permit(opcode);
        }
        assert_eq!(
            (most, least),
            (Permitted::nothing(), Permitted::everything())
        );
    }

    #[test]
    fn names_of_opcodes_and_groups() {
        let mut permitted = Permitted::everything();
        permitted.forbid_named("globals").unwrap();
        permitted.forbid_named("ext3").unwrap();
        permitted.permit_named("22").unwrap();
        assert!(permitted.forbidden().eq([21, 23, 24, 117]));
        let unknown = permitted.permit_named("GLOBAL\u{1b}").unwrap_err();
        let told = r#"there is no opcode and no group of opcodes "GLOBAL\u{1b}""#;
        assert_eq!(unknown.to_string(), told);
        permitted.permit_named("everything").unwrap();
        assert_eq!(permitted, Permitted::everything());
    }

    #[test]
    fn a_prefix_counts_for_itself() {
        let step = |prefix| Step::of_zeros(prefix, 103).unwrap();
        let mut permitted = Permitted::everything();
        let of = |permitted: &Permitted, prefix| {
            permitted.forbidden_of(&step(prefix)).collect::<Vec<u8>>()
        };
        assert_eq!(of(&permitted, Some(116)), []);
        permitted.forbid(116);
        assert_eq!(of(&permitted, Some(116)), [116]);
        assert_eq!(of(&permitted, Some(115)), []);
        assert_eq!(of(&permitted, None), []);
        permitted.forbid(103);
        assert_eq!(of(&permitted, Some(116)), [116, 103]);
        assert_eq!(of(&permitted, None), [103]);
    }
}
