//! The words of the command line.

use super::near::meant;
use super::school::{Rule, School};
use super::scope::Scope;
use super::terms::Terms;
use super::text;
use blotheath::Allowance;
use std::ffi::{OsStr, OsString};
use std::os::unix::ffi::OsStrExt;
use std::path::{Path, PathBuf};

/// A command with its options.
#[derive(Debug, PartialEq, Eq)]
pub enum Command {
    /// Help on everything, or on one command.
    Help(Option<String>),
    Version,
    Examine {
        paths: Vec<PathBuf>,
        scope: Scope,
        terms: Terms,
        json: bool,
    },
    Watch {
        path: PathBuf,
        scope: Scope,
        terms: Terms,
    },
    Load {
        path: PathBuf,
        terms: Terms,
        json: bool,
        all: bool,
    },
    Steps {
        path: PathBuf,
        terms: Terms,
        source: Option<PathBuf>,
        json: bool,
        all: bool,
    },
    Follow(Follow),
    Report {
        path: PathBuf,
        terms: Terms,
        output: Option<PathBuf>,
        source: Option<PathBuf>,
        force: bool,
    },
    Opcodes {
        json: bool,
    },
}

/// A run along choices.
#[derive(Debug, PartialEq, Eq)]
pub struct Follow {
    pub path: PathBuf,
    pub terms: Terms,
    pub choices: Vec<String>,
    pub source: Option<PathBuf>,
    pub json: bool,
    pub each: bool,
}

/// The words behind a command, sorted into paths and options.
#[derive(Default)]
struct Words {
    plain: Vec<OsString>,
    json: bool,
    all: bool,
    each: bool,
    force: bool,
    help: bool,
    preview: bool,
    max_bytes: Option<u32>,
    max_records: Option<u32>,
    record: Option<u32>,
    /// What is permitted and forbidden, in the order of the words.
    rules: Vec<Rule>,
    output: Option<PathBuf>,
    source: Option<PathBuf>,
}

impl Words {
    /// The preview's allowance or the desktop's; a number that is given stands in the place of its own.
    fn allowance(&self) -> Allowance {
        let start = match self.preview {
            true => Allowance::PREVIEW,
            false => Allowance::DESKTOP,
        };
        Allowance {
            bytes: self.max_bytes.unwrap_or(start.bytes),
            records: self.max_records.unwrap_or(start.records),
        }
    }

    fn terms(&self) -> Result<Terms, String> {
        Ok(Terms {
            allowance: self.allowance(),
            school: School::of(&self.rules)?,
        })
    }
}

/// The options of an allowance, and those of permitted opcodes, which only an examination looks at.
const ALLOWANCE: &[&str] = &["--preview", "--max-bytes", "--max-records"];
const SCHOOL: &[&str] = &["--permit", "--forbid", "--school"];

/// The options that each command has, group by group.
#[rustfmt::skip]
const OPTIONS: [(&str, &[&[&str]]); 7] = [
    ("examine", &[&["--json", "--record"], ALLOWANCE, SCHOOL]),
    ("watch", &[&["--record"], ALLOWANCE, SCHOOL]),
    ("load", &[&["--json", "--all"], ALLOWANCE]),
    ("steps", &[&["--json", "--all", "--source"], ALLOWANCE, SCHOOL]),
    ("follow", &[&["--json", "--each", "--source"], ALLOWANCE, SCHOOL]),
    ("report", &[&["-o", "--output", "--source", "--force"], ALLOWANCE, SCHOOL]),
    ("opcodes", &[&["--json"]]),
];

/// The options that have a value behind them.
const VALUED: [&str; 9] = [
    "-o",
    "--output",
    "--source",
    "--record",
    "--max-bytes",
    "--max-records",
    "--permit",
    "--forbid",
    "--school",
];

/// What stands in place of a command.
const GENERAL: [&str; 5] = ["help", "--help", "-h", "--version", "-V"];

/// Reads the command line.
pub fn read(words: &[OsString]) -> Result<Command, String> {
    let Some((first, rest)) = words.split_first() else {
        return Ok(Command::Help(None));
    };
    let name = first.to_string_lossy();
    match name.as_ref() {
        "--help" | "-h" => return Ok(Command::Help(None)),
        "help" => return help(rest),
        "--version" | "-V" => return Ok(Command::Version),
        _ => {}
    }
    let Some((_, options)) = OPTIONS.iter().find(|(command, _)| *command == name) else {
        return Err(no_command(&name));
    };
    let words = sort(&name, rest, &options.concat())?;
    if words.help {
        return Ok(Command::Help(Some(name.into_owned())));
    }
    build(&name, words)
}

fn help(rest: &[OsString]) -> Result<Command, String> {
    let Some(topic) = rest.first() else {
        return Ok(Command::Help(None));
    };
    let topic = topic.to_string_lossy().into_owned();
    if OPTIONS.iter().any(|(command, _)| *command == topic) {
        return Ok(Command::Help(Some(topic)));
    }
    Err(no_command(&topic))
}

fn no_command(name: &str) -> String {
    let known = OPTIONS.iter().map(|(command, _)| *command);
    let hint = meant(name, known.chain(GENERAL), 1);
    format!("there is no command {}{hint}", text::word(name))
}

/// Sorts the words behind a command; behind `--` all are plain.
fn sort(command: &str, rest: &[OsString], options: &[&str]) -> Result<Words, String> {
    let mut words = Words::default();
    let mut rest = rest.iter();
    while let Some(word) = rest.next() {
        let bytes = word.as_bytes();
        if bytes == b"--" {
            words.plain.extend(rest.by_ref().cloned());
        } else if bytes == b"-" || !bytes.starts_with(b"-") {
            words.plain.push(word.clone());
        } else {
            let (name, value) = parted(word);
            let name = name.to_string_lossy();
            if name == "--help" || name == "-h" {
                words.help = true;
            } else if !options.contains(&name.as_ref()) {
                let hint = meant(&name, options.iter().copied(), 1);
                let name = text::word(&name);
                return Err(format!("{command} has no option {name}{hint}"));
            } else {
                option(&mut words, &name, value, &mut rest)?;
            }
        }
    }
    Ok(words)
}

/// A long option and the value behind its equals sign.
fn parted(word: &OsStr) -> (&OsStr, Option<&OsStr>) {
    let bytes = word.as_bytes();
    match bytes.iter().position(|byte| *byte == b'=') {
        Some(place) if bytes.starts_with(b"--") => (
            OsStr::from_bytes(&bytes[..place]),
            Some(OsStr::from_bytes(&bytes[place + 1..])),
        ),
        _ => (word, None),
    }
}

fn option<'a>(
    words: &mut Words,
    name: &str,
    value: Option<&OsStr>,
    rest: &mut impl Iterator<Item = &'a OsString>,
) -> Result<(), String> {
    if !VALUED.contains(&name) {
        if value.is_some() {
            return Err(format!("{name} takes no value"));
        }
        match name {
            "--json" => words.json = true,
            "--all" => words.all = true,
            "--each" => words.each = true,
            "--preview" => words.preview = true,
            _ => words.force = true,
        }
        return Ok(());
    }
    let value = value.or_else(|| rest.next().map(OsString::as_os_str));
    let value = value.filter(|value| !value.is_empty());
    let value = value.ok_or(format!("{name} has no value"))?;
    match name {
        "--record" => words.record = Some(number(name, value)?),
        "--max-bytes" => words.max_bytes = Some(number(name, value)?),
        "--max-records" => words.max_records = Some(number(name, value)?),
        "--permit" | "--forbid" | "--school" => words.rules.push(rule(name, value)),
        "--source" => words.source = Some(value.into()),
        _ => words.output = Some(value.into()),
    }
    Ok(())
}

fn rule(name: &str, value: &OsStr) -> Rule {
    let names = || value.to_string_lossy().into_owned();
    match name {
        "--permit" => Rule::Permit(names()),
        "--forbid" => Rule::Forbid(names()),
        _ => Rule::File(value.into()),
    }
}

/// The number that digits say; one that passes 32 bits is the largest of them.
fn number(name: &str, value: &OsStr) -> Result<u32, String> {
    let digits = value.as_bytes();
    if !digits.iter().all(u8::is_ascii_digit) {
        let value = text::word(&value.to_string_lossy());
        return Err(format!(
            "{name} takes a whole number, in digits alone; {value} is none"
        ));
    }
    let digits = digits.iter().map(|digit| u32::from(digit - b'0'));
    Ok(digits.fold(0, |number: u32, digit| {
        number.saturating_mul(10).saturating_add(digit)
    }))
}

fn build(name: &str, words: Words) -> Result<Command, String> {
    let terms = words.terms()?;
    let mut plain = words.plain.into_iter();
    if name == "opcodes" {
        return match plain.next() {
            Some(_) => Err(format!("{name} takes no file")),
            None => Ok(Command::Opcodes { json: words.json }),
        };
    }
    let Some(path) = plain.next().map(PathBuf::from) else {
        return Err(format!("{name} has no file to work on"));
    };
    let (json, all, each) = (words.json, words.all, words.each);
    let scope = Scope::of(words.record);
    let command = match name {
        "examine" => {
            let paths = std::iter::once(path).chain(plain.by_ref().map(PathBuf::from));
            Command::Examine {
                paths: paths.collect(),
                scope,
                terms,
                json,
            }
        }
        "watch" if path == Path::new("-") => {
            return Err("watch takes a file that can be read again, not standard input".to_owned());
        }
        "watch" => Command::Watch { path, scope, terms },
        "load" => Command::Load {
            path,
            terms,
            json,
            all,
        },
        "steps" => Command::Steps {
            path,
            terms,
            source: words.source,
            json,
            all,
        },
        "follow" => {
            let choices = plain.by_ref().map(|word| word.to_string_lossy().into());
            Command::Follow(Follow {
                path,
                terms,
                choices: choices.collect(),
                source: words.source,
                json,
                each,
            })
        }
        _ => Command::Report {
            path,
            terms,
            output: words.output,
            source: words.source,
            force: words.force,
        },
    };
    match plain.next() {
        Some(_) => Err(format!("{name} takes one file")),
        None => Ok(command),
    }
}

#[cfg(test)]
mod tests {
    use super::*;

    fn parse(line: &str) -> Result<Command, String> {
        let words: Vec<OsString> = line.split_whitespace().map(OsString::from).collect();
        read(&words)
    }

    #[test]
    fn commands() {
        let path = PathBuf::from("a");
        assert_eq!(parse(""), Ok(Command::Help(None)));
        assert_eq!(parse("--version"), Ok(Command::Version));
        assert_eq!(parse("help load"), Ok(Command::Help(Some("load".into()))));
        assert_eq!(parse("load -h"), Ok(Command::Help(Some("load".into()))));
        let load = Command::Load {
            path: path.clone(),
            terms: Terms::default(),
            json: true,
            all: false,
        };
        assert_eq!(parse("load --json a"), Ok(load));
        let examine = Command::Examine {
            paths: vec!["-".into(), "--json".into()],
            scope: Scope::File,
            terms: Terms::default(),
            json: false,
        };
        assert_eq!(parse("examine - -- --json"), Ok(examine));
        let report = || {
            Ok(Command::Report {
                path: path.clone(),
                terms: Terms::default(),
                output: Some("b".into()),
                source: Some("c=d".into()),
                force: true,
            })
        };
        for line in [
            "report a -o b --source c=d --force",
            "report --force --output=b --source=c=d a",
            "report --output b a --source=c=d --force",
        ] {
            assert_eq!(parse(line), report(), "{line}");
        }
        for (line, json) in [("opcodes", false), ("opcodes --json", true)] {
            assert_eq!(parse(line), Ok(Command::Opcodes { json }), "{line}");
        }
    }

    /// The allowance that options of `load` say.
    fn allowed(options: &str) -> Result<(u32, u32), String> {
        match parse(&format!("load a {options}"))? {
            Command::Load { terms, .. } => Ok((terms.allowance.bytes, terms.allowance.records)),
            other => panic!("{other:?}"),
        }
    }

    #[test]
    fn allowances() {
        for (options, right) in [
            ("", (65_536, 1_024)),
            ("--preview", (16_384, 64)),
            ("--max-bytes 5", (5, 1_024)),
            ("--max-records=0", (65_536, 0)),
            ("--max-bytes=7 --max-records 3", (7, 3)),
            ("--preview --max-records 100", (16_384, 100)),
            ("--max-bytes 32768 --preview", (32_768, 64)),
            ("--max-bytes 4 --max-bytes 0009", (9, 1_024)),
            ("--max-bytes 4294967295", (u32::MAX, 1_024)),
            ("--max-bytes 4294967296", (u32::MAX, 1_024)),
            ("--max-records 4294967360", (65_536, u32::MAX)),
            ("--max-bytes 18446744073709551621", (u32::MAX, 1_024)),
            (
                "--max-records 999999999999999999999999999999999999999999",
                (65_536, u32::MAX),
            ),
        ] {
            assert_eq!(allowed(options), Ok(right), "{options}");
        }
        for value in [
            "x", "-1", "+1", "1.5", "16,384", "16_384", "0x10", "١", "1e3",
        ] {
            for option in ["--max-bytes", "--max-records"] {
                let fault = allowed(&format!("{option} {value}")).unwrap_err();
                let told =
                    format!("{option} takes a whole number, in digits alone; \"{value}\" is none");
                assert_eq!(fault, told);
            }
        }
        for (options, told) in [
            ("--max-bytes", "--max-bytes has no value"),
            ("--max-records=", "--max-records has no value"),
            ("--preview=64", "--preview takes no value"),
        ] {
            assert_eq!(allowed(options), Err(told.to_owned()));
        }
        assert!(parse("opcodes --preview").is_err());
    }

    /// How many opcodes options of a command forbid.
    fn forbidden(command: &str, options: &str) -> Result<usize, String> {
        let terms = match parse(&format!("{command} a {options}"))? {
            Command::Examine { terms, .. }
            | Command::Watch { terms, .. }
            | Command::Load { terms, .. }
            | Command::Steps { terms, .. }
            | Command::Report { terms, .. } => terms,
            Command::Follow(follow) => follow.terms,
            other => panic!("{other:?}"),
        };
        Ok(terms.school.permitted.forbidden().count())
    }

    #[test]
    fn permitted_opcodes() {
        for command in ["examine", "watch", "steps", "follow", "report"] {
            for (options, right) in [
                ("", 0),
                ("--forbid CLASS", 1),
                ("--forbid=class,MODULE,103", 2),
                ("--forbid prefixes --permit EXT1", 2),
                ("--permit prefixes", 116),
                ("--permit prefixes --forbid EXT1 --permit STOP", 116),
                ("--permit everything --forbid globals", 4),
                ("--forbid everything", 119),
            ] {
                assert_eq!(
                    forbidden(command, options),
                    Ok(right),
                    "{command} {options}"
                );
            }
            for (options, told) in [
                ("--forbid", "--forbid has no value"),
                ("--permit=", "--permit has no value"),
                ("--school=", "--school has no value"),
                ("--forbid ,", "--forbid: no opcode and no group is named"),
                ("--school /no/such", "/no/such: no such file"),
            ] {
                assert_eq!(forbidden(command, options), Err(told.to_owned()));
            }
        }
        for command in ["load", "opcodes"] {
            for option in ["--forbid", "--permit", "--school"] {
                let told = format!("{command} has no option \"{option}\"");
                assert_eq!(forbidden(command, &format!("{option} CLASS")), Err(told));
            }
        }
    }

    /// What of a file options of a command ask for.
    fn scope(command: &str, options: &str) -> Result<Scope, String> {
        match parse(&format!("{command} a {options}"))? {
            Command::Examine { scope, .. } | Command::Watch { scope, .. } => Ok(scope),
            other => panic!("{other:?}"),
        }
    }

    #[test]
    fn single_records() {
        for command in ["examine", "watch"] {
            for (options, right) in [
                ("", Scope::File),
                ("--record 0", Scope::Record(0)),
                ("--record=3", Scope::Record(3)),
                ("--record 3 --record 007", Scope::Record(7)),
                ("--record 1024 --preview", Scope::Record(1_024)),
                ("--record 99999999999", Scope::Record(u32::MAX)),
            ] {
                assert_eq!(scope(command, options), Ok(right), "{command} {options}");
            }
            for value in ["x", "-1", "+1", "1.5", "0x1", "1,024"] {
                let told =
                    format!("--record takes a whole number, in digits alone; \"{value}\" is none");
                assert_eq!(scope(command, &format!("--record {value}")), Err(told));
            }
            for options in ["--record", "--record="] {
                let told = "--record has no value".to_owned();
                assert_eq!(scope(command, options), Err(told));
            }
        }
        for command in ["load", "steps", "follow", "report", "opcodes"] {
            let told = format!("{command} has no option \"--record\"");
            assert_eq!(scope(command, "--record 0"), Err(told));
        }
    }

    #[test]
    fn near_words() {
        for (line, hint) in [
            ("examin a", "; did you mean examine?"),
            ("reprot a", "; did you mean report?"),
            ("laod a", "; did you mean load?"),
            ("help stesp", "; did you mean steps?"),
            ("opcode", "; did you mean opcodes?"),
            ("wathc a", "; did you mean watch?"),
            ("watch a --recrod=3", "; did you mean --record?"),
            ("--versoin", "; did you mean --version?"),
            ("load --jsn a", "; did you mean --json?"),
            ("report a --ouput=b", "; did you mean --output?"),
            ("follow a --eahc", "; did you mean --each?"),
            ("load a --max-byte=5", "; did you mean --max-bytes?"),
            ("examine a --previw", "; did you mean --preview?"),
            ("report a --forbidd=CLASS", "; did you mean --forbid?"),
            ("follow a --shcool=b", "; did you mean --school?"),
        ] {
            let fault = parse(line).unwrap_err();
            assert!(fault.ends_with(hint), "{line}: {fault}");
        }
        for line in ["look a", "x", "load -j a", "load --each a"] {
            let fault = parse(line).unwrap_err();
            assert!(!fault.contains("did you mean"), "{line}: {fault}");
        }
        let long = "é".repeat(70_000);
        assert!(parse(&long).unwrap_err().len() < 200);
    }

    #[test]
    fn faults() {
        for line in [
            "look",
            "load",
            "examine",
            "load a b",
            "load --each a",
            "load --what a",
            "report a -o",
            "report a --output=",
            "load --json=yes a",
            "load --source a b",
            "report a b",
            "watch",
            "watch a b",
            "watch -",
            "watch a --json",
            "opcodes a",
            "opcodes -",
            "opcodes --all",
            "help look",
        ] {
            assert!(parse(line).is_err(), "{line}");
        }
    }
}
