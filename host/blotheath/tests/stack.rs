//! The stack: the deepest files, in threads that have just what include/blotheath.h says a call needs.

#![cfg(not(feature = "model"))]

mod common;

use blotheath::tables::{self, RECORD_LIMIT, Words};
use blotheath::{Allowance, LOAD_STACK, STACK, ffi};
use common::{EVERYTHING, build, run_in_stack};
use std::thread;

/// Chains of 1,024 records: alone, with names, with lines, with both.
fn chains() -> [Vec<u8>; 4] {
    [(false, false), (true, false), (false, true), (true, true)]
        .map(|(names, lines)| build::chain(names, lines))
}

fn lent(file: &[u8]) -> Words {
    assert!(file.len() <= blotheath::FILE_LIMIT);
    tables::zeros(tables::rows(file.len(), 1))
}

/// What a call answers in a thread with so much stack; a stack that does not suffice ends the test by a signal.
fn in_stack<T: Send>(bytes: usize, call: impl FnOnce() -> T + Send) -> T {
    thread::scope(|scope| {
        let thread = thread::Builder::new().stack_size(bytes);
        thread.spawn_scoped(scope, call).unwrap().join().unwrap()
    })
}

#[test]
fn loads_in_their_stack() {
    for file in chains() {
        let mut words = lent(&file);
        let answer = in_stack(LOAD_STACK, || {
            ffi::load(&file, Allowance::DESKTOP, &mut words)
        });
        assert_eq!((answer.refusal, answer.rows[0]), (0, 1_024));
        let mut rows = vec![Default::default(); RECORD_LIMIT];
        let again = in_stack(LOAD_STACK, || {
            ffi::load_records(&file, Allowance::DESKTOP, &mut words, &mut rows)
        });
        assert_eq!(again, answer);
    }
}

#[test]
fn examinations_in_their_stack() {
    for file in chains() {
        let mut words = lent(&file);
        let answer = in_stack(STACK, || {
            let permitted = EVERYTHING.as_bytes();
            ffi::examine(&file, Allowance::DESKTOP, permitted, &mut words)
        });
        assert_eq!((answer.refusal, answer.rows[0]), (0, 1_024));
    }
}

#[test]
fn single_records_in_their_stack() {
    for file in chains() {
        let mut words = lent(&file);
        for (record, right) in [(0, 0), (RECORD_LIMIT - 1, 0), (RECORD_LIMIT, 22)] {
            let answer = in_stack(STACK, || {
                let permitted = EVERYTHING.as_bytes();
                let (allowance, record) = (Allowance::DESKTOP, record as u32);
                ffi::examine_record(&file, allowance, permitted, &mut words, record)
            });
            assert_eq!(answer.refusal, right);
        }
    }
}

#[test]
fn runs_in_their_stack() {
    // Every step enters the next record: the run has as many frames as the file has records.
    let choices = vec![2; RECORD_LIMIT - 1];
    for file in chains() {
        let mut words = lent(&file);
        let mut frames = vec![0; 2 * RECORD_LIMIT];
        let answer = in_stack(STACK, || {
            let permitted = EVERYTHING.as_bytes();
            ffi::follow(
                &file,
                Allowance::DESKTOP,
                permitted,
                &mut words,
                &mut frames,
                &choices,
            )
        });
        assert_eq!((answer.refusal, answer.frames), (0, 1_024));
    }
}

#[test]
fn the_command_has_its_stack_in_any_shell() {
    let folder = common::Folder::new("stack");
    let path = folder.file("chain.mrb", &build::chain(true, true));
    for command in [
        &["examine"][..],
        &["examine", "--record", "1023"],
        &["load"],
        &["steps"],
        &["report"],
    ] {
        let ran = run_in_stack(256, &[command, &[&path]].concat());
        assert_eq!(ran.status, 0, "{command:?}: {}", ran.err);
    }
}
