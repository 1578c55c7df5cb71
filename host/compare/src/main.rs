//! Holds the papers' model, and the port where it is linked, against the original.

mod allowance;
mod allowed;
mod args;
#[cfg(feature = "port")]
mod bench;
mod changed;
mod chosen;
mod examination;
mod examine;
mod expected;
mod fetch;
mod follow;
mod for_lists;
mod generate;
mod held;
mod lines;
mod listed;
mod load;
mod lookups;
#[cfg(test)]
mod mistaken_lists;
#[cfg(test)]
mod mistaken_singles;
mod newer;
mod oracle;
mod parents;
mod permitted;
#[cfg(feature = "port")]
mod port;
mod prefixes;
mod quiet;
mod registers;
mod rng;
mod sample;
mod single;
mod singled;
mod store;
mod subject;
mod visits;

use std::process::ExitCode;

const USAGE: &str = "\
compare load --files N --seed S [--first I]   generated files, the corpus first
compare damage                                every cut, with the old size and its own, and many changes of the corpus
compare make --files N --seed S [--first I] [--number R] -o FOLDER
                                              writes generated files, of one answer only
compare file PATH..                           these files
compare fetch [--seed S]                      every first byte with every length
compare line [--maps N] [--seed S]            maps and positions, falling ones too
compare lookup [--tables N] [--seed S]        lookups in the tables of loads and in any tables
compare examine [--files N] [--seed S]        examinations of the corpus, of chosen and of generated files, whole and of single records
compare follow [--files N] [--seed S]         chosen runs, and runs along any choices
compare store --seed S --count N --calls FILE --lookups FILE
                                              writes stored reference answers
compare replay PATH..                         replays stored reference answers
compare bench [--rounds N]                    times of the port's load and the original's, with the feature port

BLOTHEATH_CORPUS names the folder of real files; ../shared/corpus beside the repository if it is not set.
Exit status: 0 without a difference, 1 with one, 2 for usage or a file that is not there.";

/// Why a command ends early.
pub enum Stop {
    /// The two sides differ; the report says where.
    Difference(String),
    /// The command can't be carried out.
    Usage(String),
}

fn run() -> Result<(), Stop> {
    let args = args::Args::read(std::env::args().skip(1)).map_err(Stop::Usage)?;
    // Times alone may be taken of an original without overflow checks.
    if args.command != "bench" && quiet::inside(original::checks_overflow) != Ok(true) {
        let why = "the original is built without overflow checks";
        return Err(Stop::Usage(why.into()));
    }
    match args.command.as_str() {
        "load" => load::generated(&args),
        "damage" => load::damaged(),
        "make" => load::make(&args),
        "file" => load::files(&args),
        "fetch" => fetch::compare(&args),
        "line" => lines::compare(&args),
        "lookup" => lookups::compare(&args),
        "examine" => examine::compare(&args),
        "follow" => follow::compare(&args),
        "store" => store::write(&args),
        "replay" => store::replay(&args),
        #[cfg(feature = "port")]
        "bench" => bench::bench(&args),
        "help" | "--help" | "-h" => {
            println!("{USAGE}");
            Ok(())
        }
        other => Err(Stop::Usage(format!("no command {other:?}"))),
    }
}

fn main() -> ExitCode {
    if let Err(error) = quiet::silence() {
        println!("the error output can't be silenced: {error}");
        return ExitCode::from(2);
    }
    match run() {
        Ok(()) => ExitCode::SUCCESS,
        Err(Stop::Difference(report)) => {
            println!("DIFFERENCE\n{report}");
            ExitCode::from(1)
        }
        Err(Stop::Usage(text)) => {
            println!("{text}\n\n{USAGE}");
            ExitCode::from(2)
        }
    }
}
