//! Every first byte with every length, held against the original's table.

use crate::Stop;
use crate::args::Args;
use crate::quiet::inside;
use crate::rng::Rng;
use crate::subject::{Fetch, subjects};
use model::OPCODES;
use original::Error;
use original::rite::insn::{FETCH_TABLE, Fetched, OpCode};

/// The longest slice that is fetched from.
const LONGEST: usize = 9;

/// `compare fetch`
pub fn compare(args: &Args) -> Result<(), Stop> {
    args.only(&["--seed"]).map_err(Stop::Usage)?;
    let seed = args.number("--seed", 1).map_err(Stop::Usage)?;
    let mut held = 0u64;
    let mut refused = [0u64; 2];
    for subject in subjects() {
        for code in codes(seed) {
            let answer = subject.fetch(&code);
            let right = right(&code).map_err(Stop::Difference)?;
            if answer != right {
                return Err(Stop::Difference(format!(
                    "fetch of {code:?}: {} answers {answer:?}, the original {right:?}",
                    subject.name()
                )));
            }
            held += 1;
            match answer.refusal {
                23 => refused[0] += 1,
                24 => refused[1] += 1,
                _ => {}
            }
        }
    }
    let [opcode, bytes] = refused;
    println!("fetches: {held}, refused 23: {opcode}, refused 24: {bytes}\nno difference");
    Ok(())
}

/// Slices to fetch from: no bytes, and every first byte with every length and several operands.
pub fn codes(seed: u64) -> Vec<Vec<u8>> {
    let mut rng = Rng::new(seed, 0);
    let mut codes = vec![Vec::new()];
    for first in 0..=255u8 {
        for length in 1..=LONGEST {
            for operands in 0..20 {
                let mut code = match operands {
                    0 => vec![0; length],
                    1 => vec![255; length],
                    2 => (0..length as u8).collect(),
                    _ => rng.bytes(length),
                };
                code[0] = first;
                codes.push(code);
            }
        }
    }
    codes
}

/// The answer that follows from the original.
pub fn right(code: &[u8]) -> Result<Fetch, String> {
    let refused = |refusal| Fetch {
        refusal,
        kind: 0,
        operands: [0; 3],
    };
    // The original has no answer for no bytes.
    let Some(first) = code.first() else {
        return Ok(refused(24));
    };
    match OpCode::try_from(*first) {
        Ok(opcode) => {
            let name = format!("{opcode:?}");
            if OPCODES[usize::from(*first)].name != name {
                return Err(format!("opcode {first} is {name} in the original"));
            }
        }
        Err(Error::InvalidOpCode) => return Ok(refused(23)),
        Err(error) => return Err(format!("opcode {first}: {error:?}")),
    }
    let mut rest = code;
    let fetched = match inside(|| FETCH_TABLE[usize::from(*first)](&mut rest)) {
        Ok(Ok(fetched)) => fetched,
        Ok(Err(Error::Internal(_))) => return Ok(refused(24)),
        other => return Err(format!("fetch of {code:?}: {other:?}")),
    };
    let (kind, operands) = match fetched {
        Fetched::Z => (0, [0, 0, 0]),
        Fetched::B(a) => (1, [a.into(), 0, 0]),
        Fetched::BB(a, b) => (2, [a.into(), b.into(), 0]),
        Fetched::S(a) => (3, [a.into(), 0, 0]),
        Fetched::BBB(a, b, c) => (4, [a.into(), b.into(), c.into()]),
        Fetched::BS(a, b) => (5, [a.into(), b.into(), 0]),
        Fetched::W(a) => (6, [a, 0, 0]),
        Fetched::BSS(a, b, c) => (7, [a.into(), b.into(), c.into()]),
    };
    let taken = code.len() - rest.len();
    if taken != OPCODES[usize::from(*first)].kind.size() {
        return Err(format!("opcode {first} takes {taken} bytes"));
    }
    Ok(Fetch {
        refusal: 0,
        kind,
        operands,
    })
}
