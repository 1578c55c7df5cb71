//! `blotheath watch`: examines a file again whenever it changes.

mod judge;
mod look;

use super::scope::Scope;
use super::style::Style;
use super::terms::{self, Terms};
use super::{Status, date, text};
use judge::{Judge, Told, Tone};
use look::{Looks, Seen, Watched};
use std::io::{self, Write};
use std::path::Path;
use std::thread;
use std::time::Duration;

/// The time between two looks at a file.
const BETWEEN_LOOKS: Duration = Duration::from_millis(200);

/// Watches a file until the program is ended, or nobody takes its lines.
pub fn run(
    out: &mut dyn Write,
    style: Style,
    path: &Path,
    scope: Scope,
    terms: &Terms,
) -> io::Result<Status> {
    let name = text::path(path);
    terms::write(out, style, terms)?;
    writeln!(out, "{}", style.dim(&first_line(&name, scope)))?;
    let mut watch = Watch::new(scope, terms);
    loop {
        if let Some(told) = watch.look(path) {
            write_line(out, style, &name, &told)?;
        }
        out.flush()?;
        thread::sleep(BETWEEN_LOOKS);
    }
}

/// What is watched.
fn first_line(name: &str, scope: Scope) -> String {
    let watched = match scope {
        Scope::File => name.to_owned(),
        Scope::Record(number) => format!("record {number} of {name}"),
    };
    format!("watching {watched}; times are in UTC; Ctrl-C ends it")
}

fn write_line(out: &mut dyn Write, style: Style, name: &str, told: &Told) -> io::Result<()> {
    let told = match told.tone {
        Tone::Good => style.good(&told.text),
        Tone::Bad => style.bad(&told.text),
        Tone::Plain => told.text.clone(),
    };
    match date::time() {
        Some(time) => writeln!(out, "{time} {name}: {told}"),
        None => writeln!(out, "{name}: {told}"),
    }
}

/// A file that is watched: when it is examined, and how.
struct Watch {
    looks: Looks,
    judge: Judge,
}

impl Watch {
    fn new(scope: Scope, terms: &Terms) -> Watch {
        Watch {
            looks: Looks::default(),
            judge: Judge::new(scope, terms),
        }
    }

    /// Takes one look at a file, and answers what there is to tell, if anything.
    fn look(&mut self, file: &(impl Watched + ?Sized)) -> Option<Told> {
        let now = file.seen();
        if !self.looks.is_due(&now) {
            return None;
        }
        let told = match &now {
            Seen::Fault(fault) => Told::unread(fault),
            Seen::File(_) => match file.read() {
                // It changed while it was read: the next looks see that.
                _ if file.seen() != now => return None,
                Ok(bytes) => self.judge.examine(bytes),
                Err(fault) => Told::unread(&text::fault(&fault)),
            },
        };
        self.looks.tell(now);
        Some(told)
    }
}

#[cfg(test)]
mod tests {
    use super::*;
    use blotheath::{Allowance, load};
    use look::Stamp;
    use std::cell::Cell;

    const SAMPLE: &[u8] = include_bytes!("../../../../samples/oval.mrb");

    /// A file that stands in no folder.
    struct Fake {
        bytes: Option<Vec<u8>>,
        /// How often it was written.
        written: Cell<u64>,
        is_written_while_read: bool,
        is_locked: bool,
    }

    impl Fake {
        fn new(bytes: &[u8]) -> Fake {
            Fake {
                bytes: Some(bytes.to_vec()),
                written: Cell::new(0),
                is_written_while_read: false,
                is_locked: false,
            }
        }

        fn touch(&self) {
            self.written.set(self.written.get() + 1);
        }

        fn write(&mut self, bytes: &[u8]) {
            self.bytes = Some(bytes.to_vec());
            self.touch();
        }
    }

    impl Watched for Fake {
        fn seen(&self) -> Seen {
            match &self.bytes {
                Some(bytes) => Seen::File(Stamp::new(self.written.get(), bytes.len())),
                None => Seen::Fault("no such file".to_owned()),
            }
        }

        fn read(&self) -> io::Result<Vec<u8>> {
            if self.is_written_while_read {
                self.touch();
            }
            match (self.is_locked, &self.bytes) {
                (true, _) => Err(io::Error::other("locked")),
                (false, None) => Err(io::Error::other("gone")),
                (false, Some(bytes)) => Ok(bytes.clone()),
            }
        }
    }

    /// What one look tells.
    fn look(watch: &mut Watch, file: &Fake) -> Option<String> {
        watch.look(file).map(|told| told.text)
    }

    /// What is told once a file has settled: at the second look that sees it so, and then no more.
    fn settled(watch: &mut Watch, file: &Fake) -> String {
        assert_eq!(look(watch, file), None);
        let told = look(watch, file).unwrap();
        assert_eq!(look(watch, file), None);
        told
    }

    fn whole() -> Watch {
        Watch::new(Scope::File, &Terms::default())
    }

    fn of_record(number: u32) -> Watch {
        Watch::new(Scope::Record(number), &Terms::default())
    }

    /// Where a record's header has its numbers of registers and of children, counted back from its instructions.
    const NREGS: usize = 10;
    const RLEN: usize = 8;

    /// A file with another number in a record's header.
    fn with(file: &[u8], record: u32, field: usize, number: u16) -> Vec<u8> {
        let place = load(file).unwrap().record(record).unwrap().place as usize;
        let mut file = file.to_vec();
        file[place - field..][..2].copy_from_slice(&number.to_be_bytes());
        file
    }

    const PASSES: &str = "passes: 6 records, 15 constants, 14 names, 26 lines";
    const ONLY_3: &str = "passes; only record 3 changed, and it passes by itself";
    const NOTHING: &str = "passes; nothing changed that examination looks at";
    const UNTIL: &str = "it is examined once it can be read";

    #[test]
    fn one_record_alone_is_examined() {
        let (mut watch, mut file) = (whole(), Fake::new(SAMPLE));
        assert_eq!(settled(&mut watch, &file), PASSES);
        let third = with(SAMPLE, 3, NREGS, 30);
        file.write(&third);
        assert_eq!(settled(&mut watch, &file), ONLY_3);
        // What was concluded to pass is what the next file is compared with.
        file.write(&with(&third, 1, NREGS, 30));
        let told = settled(&mut watch, &file);
        assert_eq!(told, ONLY_3.replace('3', "1"));
        file.touch();
        assert_eq!(settled(&mut watch, &file), NOTHING);
        file.write(SAMPLE);
        assert_eq!(settled(&mut watch, &file), PASSES);
    }

    #[test]
    fn a_refused_file_is_compared_with_no_later_one() {
        let (mut watch, mut file) = (whole(), Fake::new(SAMPLE));
        settled(&mut watch, &file);
        file.write(&with(SAMPLE, 3, NREGS, 0));
        let told = settled(&mut watch, &file);
        assert!(told.starts_with("refused by 17: "), "{told}");
        assert!(told.contains("(IREP, record 3, "), "{told}");
        // Mended, and changed elsewhere: against the file that passed, one record changed.
        file.write(&with(SAMPLE, 2, NREGS, 30));
        assert_eq!(settled(&mut watch, &file), ONLY_3.replace('3', "2"));
        for (broken, number) in [
            (with(SAMPLE, 3, RLEN, 1), 15),
            (SAMPLE[..200].to_vec(), 28),
            (Vec::new(), 2),
        ] {
            file.write(&broken);
            let told = settled(&mut watch, &file);
            assert!(
                told.starts_with(&format!("refused by {number}: ")),
                "{told}"
            );
        }
        file.write(&with(SAMPLE, 2, NREGS, 30));
        assert_eq!(settled(&mut watch, &file), NOTHING);
    }

    #[test]
    fn a_file_that_never_passed_is_examined_whole() {
        let broken = with(SAMPLE, 4, NREGS, 0);
        let (mut watch, mut file) = (whole(), Fake::new(&broken));
        assert!(settled(&mut watch, &file).starts_with("refused by 17: "));
        file.write(&with(&broken, 3, NREGS, 30));
        let told = settled(&mut watch, &file);
        assert!(told.contains("(IREP, record 4, "), "{told}");
        file.write(SAMPLE);
        assert_eq!(settled(&mut watch, &file), PASSES);
    }

    #[test]
    fn a_file_that_is_being_written_is_waited_for() {
        let (mut watch, mut file) = (whole(), Fake::new(b""));
        for end in [0, 100, 500, SAMPLE.len()] {
            file.write(&SAMPLE[..end]);
            assert_eq!(look(&mut watch, &file), None);
        }
        file.is_written_while_read = true;
        for _ in 0..5 {
            assert_eq!(look(&mut watch, &file), None);
        }
        file.is_written_while_read = false;
        assert_eq!(settled(&mut watch, &file), PASSES);
    }

    #[test]
    fn a_file_that_vanishes_is_told_once() {
        let (mut watch, mut file) = (whole(), Fake::new(SAMPLE));
        settled(&mut watch, &file);
        // Another file takes its place, and one look sees neither.
        file.bytes = None;
        assert_eq!(look(&mut watch, &file), None);
        file.write(SAMPLE);
        assert_eq!(settled(&mut watch, &file), NOTHING);
        file.bytes = None;
        assert_eq!(settled(&mut watch, &file), format!("no such file; {UNTIL}"));
        assert_eq!(look(&mut watch, &file), None);
        // It comes back as it was.
        file.bytes = Some(SAMPLE.to_vec());
        assert_eq!(settled(&mut watch, &file), NOTHING);
        file.is_locked = true;
        file.touch();
        assert_eq!(settled(&mut watch, &file), format!("locked; {UNTIL}"));
        file.is_locked = false;
        file.write(&with(SAMPLE, 3, NREGS, 30));
        assert_eq!(settled(&mut watch, &file), ONLY_3);
    }

    #[test]
    fn a_file_may_come_later() {
        let (mut watch, mut file) = (whole(), Fake::new(b""));
        file.bytes = None;
        assert_eq!(settled(&mut watch, &file), format!("no such file; {UNTIL}"));
        file.write(SAMPLE);
        assert_eq!(settled(&mut watch, &file), PASSES);
    }

    #[test]
    fn one_record_is_asked_for() {
        let (mut watch, mut file) = (of_record(3), Fake::new(SAMPLE));
        let passes = "record 3 passes by itself";
        let told = settled(&mut watch, &file);
        assert_eq!(told, format!("{passes}, and the whole file {PASSES}"));
        let third = with(SAMPLE, 3, NREGS, 30);
        file.write(&third);
        let right = format!("{passes}; only it changed, so the whole file passes");
        assert_eq!(settled(&mut watch, &file), right);
        file.touch();
        let right = format!(
            "{passes}; nothing changed that examination looks at, so the whole file passes"
        );
        assert_eq!(settled(&mut watch, &file), right);
        // Another record changed, and is not looked at.
        let second = with(&third, 2, NREGS, 0);
        file.write(&second);
        let told = settled(&mut watch, &file);
        assert!(told.starts_with(&format!("{passes}: ")), "{told}");
        assert!(
            told.ends_with("; this says nothing of the rest of the file"),
            "{told}"
        );
        file.write(&with(&second, 3, NREGS, 0));
        let told = settled(&mut watch, &file);
        assert!(told.contains("(IREP, record 3, "), "{told}");
        // The others are as they were where the whole file passed.
        file.write(SAMPLE);
        let told = settled(&mut watch, &file);
        assert!(
            told.ends_with("only it changed, so the whole file passes"),
            "{told}"
        );
    }

    #[test]
    fn the_whole_file_is_examined_until_it_has_passed() {
        let broken = with(SAMPLE, 4, NREGS, 0);
        let (mut watch, mut file) = (of_record(3), Fake::new(&broken));
        for registers in [30, 31] {
            let told = settled(&mut watch, &file);
            let start = "record 3 passes by itself; the whole file is refused by 17: ";
            assert!(told.starts_with(start), "{told}");
            assert!(told.contains("(IREP, record 4, "), "{told}");
            file.write(&with(&broken, 3, NREGS, registers));
        }
        file.write(SAMPLE);
        let told = settled(&mut watch, &file);
        assert!(
            told.ends_with(&format!("and the whole file {PASSES}")),
            "{told}"
        );
    }

    #[test]
    fn a_record_that_is_not_there() {
        let (mut watch, file) = (of_record(6), Fake::new(SAMPLE));
        let told = settled(&mut watch, &file);
        assert!(told.starts_with("refused by 22: "), "{told}");
        assert!(told.ends_with("(the file has 6 records, 0 to 5)"), "{told}");
    }

    #[test]
    fn the_terms_count_at_every_look() {
        let mut terms = Terms::default();
        terms.school.permitted.forbid_named("EXEC").unwrap();
        let (mut watch, mut file) = (Watch::new(Scope::File, &terms), Fake::new(SAMPLE));
        assert!(settled(&mut watch, &file).starts_with("refused by 32: "));
        file.touch();
        assert!(settled(&mut watch, &file).starts_with("refused by 32: "));
        let terms = Terms {
            allowance: Allowance {
                bytes: SAMPLE.len() as u32,
                records: 6,
            },
            ..Terms::default()
        };
        let mut watch = Watch::new(Scope::File, &terms);
        assert_eq!(settled(&mut watch, &file), PASSES);
        file.write(&[SAMPLE, &[0]].concat());
        assert!(settled(&mut watch, &file).starts_with("refused by 29: "));
    }

    #[test]
    fn what_is_watched() {
        let told = "watching a.mrb; times are in UTC; Ctrl-C ends it";
        assert_eq!(first_line("a.mrb", Scope::File), told);
        let told = "watching record 3 of a.mrb; times are in UTC; Ctrl-C ends it";
        assert_eq!(first_line("a.mrb", Scope::Record(3)), told);
    }
}
