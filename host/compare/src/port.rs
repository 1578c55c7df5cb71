//! The port: the calls of its archive, as the host's library wraps them.

use crate::subject::{Answer, Fetch, Follow, Found, Lookup, Subject, float_bits};
use blotheath::answer::{BlotheathConstant, BlotheathLoaded};
use blotheath::ffi;
use model::{Allowance, Tables};

/// The archive libblotheath.a.
pub struct Port;

impl Subject for Port {
    fn name(&self) -> &'static str {
        "port"
    }

    fn load(&self, file: &[u8], allowance: Allowance, tables: &mut Tables) -> Answer {
        answer(ffi::load(file, of(allowance), tables))
    }

    fn examine(
        &self,
        file: &[u8],
        allowance: Allowance,
        permitted: &[u8],
        tables: &mut Tables,
    ) -> Answer {
        answer(ffi::examine(file, of(allowance), permitted, tables))
    }

    fn examine_record(
        &self,
        file: &[u8],
        allowance: Allowance,
        permitted: &[u8],
        tables: &mut Tables,
        record: u32,
    ) -> Answer {
        let allowance = of(allowance);
        answer(ffi::examine_record(
            file, allowance, permitted, tables, record,
        ))
    }

    fn follow(
        &self,
        file: &[u8],
        allowance: Allowance,
        permitted: &[u8],
        tables: &mut Tables,
        frames: &mut Vec<u32>,
        choices: &[u8],
    ) -> Follow {
        let r = ffi::follow(file, of(allowance), permitted, tables, frames, choices);
        Follow {
            refusal: r.refusal,
            numbers: [r.finished, r.record, r.offset, r.found, r.line, r.frames],
        }
    }

    fn lookup(
        &self,
        lookup: Lookup,
        file: &[u8],
        tables: &Tables,
        record: u32,
        index: u32,
    ) -> Found {
        match lookup {
            Lookup::Instructions => {
                let r = ffi::instructions(file, tables, record);
                found(r.refusal, [r.place, r.length])
            }
            Lookup::Handler => {
                let r = ffi::handler(tables, record, index);
                found(r.refusal, [r.kind, r.begin, r.end, r.target])
            }
            Lookup::Pool => constant(ffi::pool(file, tables, record, index)),
            Lookup::Symbol => {
                let r = ffi::symbol(file, tables, record, index);
                found(r.refusal, [r.place, r.length])
            }
            Lookup::Name => {
                let r = ffi::name(file, tables, record, index);
                found(r.refusal, [r.named, r.place, r.length])
            }
            Lookup::DebugFile => {
                let r = ffi::debug_file(file, tables, record, index);
                found(r.refusal, [r.start, r.place, r.length, r.first, r.number])
            }
            Lookup::Line => {
                let r = ffi::line(tables, record, index);
                found(r.refusal, [r.found, r.line])
            }
        }
    }

    fn fetch(&self, code: &[u8]) -> Fetch {
        let r = ffi::fetch(code);
        Fetch {
            refusal: r.refusal,
            kind: r.kind,
            operands: [r.a, r.b, r.c],
        }
    }

    fn line_at(&self, map: &[u32], position: u32) -> Option<u32> {
        let r = ffi::line_at(map, position);
        (r.found != 0).then_some(r.line)
    }
}

/// The allowance as the host's library has it.
fn of(allowance: Allowance) -> blotheath::Allowance {
    let Allowance { bytes, records } = allowance;
    blotheath::Allowance { bytes, records }
}

fn answer(loaded: BlotheathLoaded) -> Answer {
    let BlotheathLoaded {
        refusal,
        rows,
        visits,
    } = loaded;
    Answer {
        refusal,
        rows,
        visits,
    }
}

fn found<const N: usize>(refusal: u32, fields: [u32; N]) -> Found {
    Found {
        refusal,
        ..Found::of(fields)
    }
}

fn constant(r: BlotheathConstant) -> Found {
    Found {
        refusal: r.refusal,
        numbers: [
            r.kind.into(),
            r.place.into(),
            r.length.into(),
            r.int as u64,
            float_bits(r.float),
        ],
    }
}
