//! The archive libblotheath.a, wrapped in safe functions. No other module has `unsafe`.
//!
//! Every call of the archive is total and stays inside the slices that it is lent.

#![allow(unsafe_code)]

use crate::Allowance;
use crate::answer::*;
use crate::tables::{
    FILENAMES, FILES, HANDLERS, LINES, NAMES, POOL, RECORDS, STRINGS, SYMBOLS, Words,
};

unsafe extern "C" {
    fn blotheath_load(
        file: *const u8,
        file_len: usize,
        max_bytes: u32,
        max_records: u32,
        records: *mut u32,
        records_len: usize,
        handlers: *mut u32,
        handlers_len: usize,
        pool: *mut u32,
        pool_len: usize,
        symbols: *mut u32,
        symbols_len: usize,
        strings: *mut u32,
        strings_len: usize,
        names: *mut u32,
        names_len: usize,
        filenames: *mut u32,
        filenames_len: usize,
        files: *mut u32,
        files_len: usize,
        lines: *mut u32,
        lines_len: usize,
    ) -> BlotheathLoaded;
    fn blotheath_load_records(
        file: *const u8,
        file_len: usize,
        max_bytes: u32,
        max_records: u32,
        records: *mut u32,
        records_len: usize,
        handlers: *mut u32,
        handlers_len: usize,
        pool: *mut u32,
        pool_len: usize,
        symbols: *mut u32,
        symbols_len: usize,
        strings: *mut u32,
        strings_len: usize,
        names: *mut u32,
        names_len: usize,
        filenames: *mut u32,
        filenames_len: usize,
        files: *mut u32,
        files_len: usize,
        lines: *mut u32,
        lines_len: usize,
        rows: *mut BlotheathRecord,
        rows_len: usize,
    ) -> BlotheathLoaded;
    fn blotheath_examine(
        file: *const u8,
        file_len: usize,
        max_bytes: u32,
        max_records: u32,
        permitted: *const u8,
        permitted_len: usize,
        records: *mut u32,
        records_len: usize,
        handlers: *mut u32,
        handlers_len: usize,
        pool: *mut u32,
        pool_len: usize,
        symbols: *mut u32,
        symbols_len: usize,
        strings: *mut u32,
        strings_len: usize,
        names: *mut u32,
        names_len: usize,
        filenames: *mut u32,
        filenames_len: usize,
        files: *mut u32,
        files_len: usize,
        lines: *mut u32,
        lines_len: usize,
    ) -> BlotheathLoaded;
    fn blotheath_examine_record(
        file: *const u8,
        file_len: usize,
        max_bytes: u32,
        max_records: u32,
        permitted: *const u8,
        permitted_len: usize,
        records: *mut u32,
        records_len: usize,
        handlers: *mut u32,
        handlers_len: usize,
        pool: *mut u32,
        pool_len: usize,
        symbols: *mut u32,
        symbols_len: usize,
        strings: *mut u32,
        strings_len: usize,
        names: *mut u32,
        names_len: usize,
        filenames: *mut u32,
        filenames_len: usize,
        files: *mut u32,
        files_len: usize,
        lines: *mut u32,
        lines_len: usize,
        record: u32,
    ) -> BlotheathLoaded;
    fn blotheath_follow(
        file: *const u8,
        file_len: usize,
        max_bytes: u32,
        max_records: u32,
        permitted: *const u8,
        permitted_len: usize,
        records: *mut u32,
        records_len: usize,
        handlers: *mut u32,
        handlers_len: usize,
        pool: *mut u32,
        pool_len: usize,
        symbols: *mut u32,
        symbols_len: usize,
        strings: *mut u32,
        strings_len: usize,
        names: *mut u32,
        names_len: usize,
        filenames: *mut u32,
        filenames_len: usize,
        files: *mut u32,
        files_len: usize,
        lines: *mut u32,
        lines_len: usize,
        frames: *mut u32,
        frames_len: usize,
        choices: *const u8,
        choices_len: usize,
    ) -> BlotheathFollowed;
    fn blotheath_instructions(
        file: *const u8,
        file_len: usize,
        records: *const u32,
        records_len: usize,
        record: u32,
    ) -> BlotheathText;
    fn blotheath_handler(
        records: *const u32,
        records_len: usize,
        handlers: *const u32,
        handlers_len: usize,
        record: u32,
        index: u32,
    ) -> BlotheathHandler;
    fn blotheath_pool(
        file: *const u8,
        file_len: usize,
        records: *const u32,
        records_len: usize,
        pool: *const u32,
        pool_len: usize,
        record: u32,
        index: u32,
    ) -> BlotheathConstant;
    fn blotheath_symbol(
        file: *const u8,
        file_len: usize,
        records: *const u32,
        records_len: usize,
        symbols: *const u32,
        symbols_len: usize,
        record: u32,
        index: u32,
    ) -> BlotheathText;
    fn blotheath_name(
        file: *const u8,
        file_len: usize,
        records: *const u32,
        records_len: usize,
        strings: *const u32,
        strings_len: usize,
        names: *const u32,
        names_len: usize,
        record: u32,
        index: u32,
    ) -> BlotheathName;
    fn blotheath_debug_file(
        file: *const u8,
        file_len: usize,
        records: *const u32,
        records_len: usize,
        filenames: *const u32,
        filenames_len: usize,
        files: *const u32,
        files_len: usize,
        lines: *const u32,
        lines_len: usize,
        record: u32,
        index: u32,
    ) -> BlotheathDebugFile;
    fn blotheath_line(
        records: *const u32,
        records_len: usize,
        lines: *const u32,
        lines_len: usize,
        record: u32,
        offset: u32,
    ) -> BlotheathLookedLine;
    fn blotheath_fetch(code: *const u8, code_len: usize) -> BlotheathFetched;
    fn blotheath_line_at(map: *const u32, map_len: usize, pos: u32) -> BlotheathLine;
}

/// Loads a file under an allowance, over lent tables.
pub fn load(file: &[u8], allowance: Allowance, words: &mut Words) -> BlotheathLoaded {
    let [
        records,
        handlers,
        pool,
        symbols,
        strings,
        names,
        filenames,
        files,
        lines,
    ] = words;
    // SAFETY: each pointer goes with the length of its own slice, and no two of these slices overlap.
    unsafe {
        blotheath_load(
            file.as_ptr(),
            file.len(),
            allowance.bytes,
            allowance.records,
            records.as_mut_ptr(),
            records.len(),
            handlers.as_mut_ptr(),
            handlers.len(),
            pool.as_mut_ptr(),
            pool.len(),
            symbols.as_mut_ptr(),
            symbols.len(),
            strings.as_mut_ptr(),
            strings.len(),
            names.as_mut_ptr(),
            names.len(),
            filenames.as_mut_ptr(),
            filenames.len(),
            files.as_mut_ptr(),
            files.len(),
            lines.as_mut_ptr(),
            lines.len(),
        )
    }
}

/// Loads a file under an allowance, over lent tables, and fills lent rows: those of the record table that they have place for, then rows of zeros.
pub fn load_records(
    file: &[u8],
    allowance: Allowance,
    words: &mut Words,
    rows: &mut [BlotheathRecord],
) -> BlotheathLoaded {
    let [
        records,
        handlers,
        pool,
        symbols,
        strings,
        names,
        filenames,
        files,
        lines,
    ] = words;
    // SAFETY: each pointer goes with the length of its own slice, and no two of these slices overlap.
    unsafe {
        blotheath_load_records(
            file.as_ptr(),
            file.len(),
            allowance.bytes,
            allowance.records,
            records.as_mut_ptr(),
            records.len(),
            handlers.as_mut_ptr(),
            handlers.len(),
            pool.as_mut_ptr(),
            pool.len(),
            symbols.as_mut_ptr(),
            symbols.len(),
            strings.as_mut_ptr(),
            strings.len(),
            names.as_mut_ptr(),
            names.len(),
            filenames.as_mut_ptr(),
            filenames.len(),
            files.as_mut_ptr(),
            files.len(),
            lines.as_mut_ptr(),
            lines.len(),
            rows.as_mut_ptr(),
            rows.len(),
        )
    }
}

/// Loads a file under an allowance, over lent tables, and examines it for a list of permitted opcodes, which may be of any length.
pub fn examine(
    file: &[u8],
    allowance: Allowance,
    permitted: &[u8],
    words: &mut Words,
) -> BlotheathLoaded {
    let [
        records,
        handlers,
        pool,
        symbols,
        strings,
        names,
        filenames,
        files,
        lines,
    ] = words;
    // SAFETY: each pointer goes with the length of its own slice, and no two of these slices overlap.
    unsafe {
        blotheath_examine(
            file.as_ptr(),
            file.len(),
            allowance.bytes,
            allowance.records,
            permitted.as_ptr(),
            permitted.len(),
            records.as_mut_ptr(),
            records.len(),
            handlers.as_mut_ptr(),
            handlers.len(),
            pool.as_mut_ptr(),
            pool.len(),
            symbols.as_mut_ptr(),
            symbols.len(),
            strings.as_mut_ptr(),
            strings.len(),
            names.as_mut_ptr(),
            names.len(),
            filenames.as_mut_ptr(),
            filenames.len(),
            files.as_mut_ptr(),
            files.len(),
            lines.as_mut_ptr(),
            lines.len(),
        )
    }
}

/// Loads a file under an allowance, over lent tables, and examines one record of it by itself for a list of permitted opcodes.
pub fn examine_record(
    file: &[u8],
    allowance: Allowance,
    permitted: &[u8],
    words: &mut Words,
    record: u32,
) -> BlotheathLoaded {
    let [
        records,
        handlers,
        pool,
        symbols,
        strings,
        names,
        filenames,
        files,
        lines,
    ] = words;
    // SAFETY: each pointer goes with the length of its own slice, and no two of these slices overlap.
    unsafe {
        blotheath_examine_record(
            file.as_ptr(),
            file.len(),
            allowance.bytes,
            allowance.records,
            permitted.as_ptr(),
            permitted.len(),
            records.as_mut_ptr(),
            records.len(),
            handlers.as_mut_ptr(),
            handlers.len(),
            pool.as_mut_ptr(),
            pool.len(),
            symbols.as_mut_ptr(),
            symbols.len(),
            strings.as_mut_ptr(),
            strings.len(),
            names.as_mut_ptr(),
            names.len(),
            filenames.as_mut_ptr(),
            filenames.len(),
            files.as_mut_ptr(),
            files.len(),
            lines.as_mut_ptr(),
            lines.len(),
            record,
        )
    }
}

/// Loads and examines a file under an allowance, for a list of permitted opcodes, then runs it along a list of choices.
pub fn follow(
    file: &[u8],
    allowance: Allowance,
    permitted: &[u8],
    words: &mut Words,
    frames: &mut [u32],
    choices: &[u8],
) -> BlotheathFollowed {
    let [
        records,
        handlers,
        pool,
        symbols,
        strings,
        names,
        filenames,
        files,
        lines,
    ] = words;
    // SAFETY: each pointer goes with the length of its own slice, and no two of these slices overlap.
    unsafe {
        blotheath_follow(
            file.as_ptr(),
            file.len(),
            allowance.bytes,
            allowance.records,
            permitted.as_ptr(),
            permitted.len(),
            records.as_mut_ptr(),
            records.len(),
            handlers.as_mut_ptr(),
            handlers.len(),
            pool.as_mut_ptr(),
            pool.len(),
            symbols.as_mut_ptr(),
            symbols.len(),
            strings.as_mut_ptr(),
            strings.len(),
            names.as_mut_ptr(),
            names.len(),
            filenames.as_mut_ptr(),
            filenames.len(),
            files.as_mut_ptr(),
            files.len(),
            lines.as_mut_ptr(),
            lines.len(),
            frames.as_mut_ptr(),
            frames.len(),
            choices.as_ptr(),
            choices.len(),
        )
    }
}

/// The instruction bytes of a record.
pub fn instructions(file: &[u8], words: &Words, record: u32) -> BlotheathText {
    let records = &words[RECORDS];
    // SAFETY: each pointer goes with the length of its own slice.
    unsafe {
        blotheath_instructions(
            file.as_ptr(),
            file.len(),
            records.as_ptr(),
            records.len(),
            record,
        )
    }
}

/// A handler of a record.
pub fn handler(words: &Words, record: u32, index: u32) -> BlotheathHandler {
    let (records, handlers) = (&words[RECORDS], &words[HANDLERS]);
    // SAFETY: each pointer goes with the length of its own slice.
    unsafe {
        blotheath_handler(
            records.as_ptr(),
            records.len(),
            handlers.as_ptr(),
            handlers.len(),
            record,
            index,
        )
    }
}

/// A constant of a record.
pub fn pool(file: &[u8], words: &Words, record: u32, index: u32) -> BlotheathConstant {
    let (records, pool) = (&words[RECORDS], &words[POOL]);
    // SAFETY: each pointer goes with the length of its own slice.
    unsafe {
        blotheath_pool(
            file.as_ptr(),
            file.len(),
            records.as_ptr(),
            records.len(),
            pool.as_ptr(),
            pool.len(),
            record,
            index,
        )
    }
}

/// A symbol of a record.
pub fn symbol(file: &[u8], words: &Words, record: u32, index: u32) -> BlotheathText {
    let (records, symbols) = (&words[RECORDS], &words[SYMBOLS]);
    // SAFETY: each pointer goes with the length of its own slice.
    unsafe {
        blotheath_symbol(
            file.as_ptr(),
            file.len(),
            records.as_ptr(),
            records.len(),
            symbols.as_ptr(),
            symbols.len(),
            record,
            index,
        )
    }
}

/// The name of a record's local.
pub fn name(file: &[u8], words: &Words, record: u32, index: u32) -> BlotheathName {
    let (records, strings, names) = (&words[RECORDS], &words[STRINGS], &words[NAMES]);
    // SAFETY: each pointer goes with the length of its own slice.
    unsafe {
        blotheath_name(
            file.as_ptr(),
            file.len(),
            records.as_ptr(),
            records.len(),
            strings.as_ptr(),
            strings.len(),
            names.as_ptr(),
            names.len(),
            record,
            index,
        )
    }
}

/// A debug file of a record.
pub fn debug_file(file: &[u8], words: &Words, record: u32, index: u32) -> BlotheathDebugFile {
    let (records, filenames, files, lines) = (
        &words[RECORDS],
        &words[FILENAMES],
        &words[FILES],
        &words[LINES],
    );
    // SAFETY: each pointer goes with the length of its own slice.
    unsafe {
        blotheath_debug_file(
            file.as_ptr(),
            file.len(),
            records.as_ptr(),
            records.len(),
            filenames.as_ptr(),
            filenames.len(),
            files.as_ptr(),
            files.len(),
            lines.as_ptr(),
            lines.len(),
            record,
            index,
        )
    }
}

/// The line of an offset in a record.
pub fn line(words: &Words, record: u32, offset: u32) -> BlotheathLookedLine {
    let (records, lines) = (&words[RECORDS], &words[LINES]);
    // SAFETY: each pointer goes with the length of its own slice.
    unsafe {
        blotheath_line(
            records.as_ptr(),
            records.len(),
            lines.as_ptr(),
            lines.len(),
            record,
            offset,
        )
    }
}

/// The instruction at the start of these bytes.
pub fn fetch(code: &[u8]) -> BlotheathFetched {
    // SAFETY: the pointer goes with the length of its slice.
    unsafe { blotheath_fetch(code.as_ptr(), code.len()) }
}

/// The line of a position in a map of rows of two words.
pub fn line_at(map: &[u32], pos: u32) -> BlotheathLine {
    // SAFETY: the pointer goes with the length of its slice.
    unsafe { blotheath_line_at(map.as_ptr(), map.len(), pos) }
}
