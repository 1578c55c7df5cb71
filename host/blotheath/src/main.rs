//! The command `blotheath`.

#![forbid(unsafe_code)]

mod command;

use command::Status;
use std::process::ExitCode;
use std::thread;

/// The stack of the thread that does the work: what the archive's calls need, and as much again for what is around them.
const STACK: usize = 2 * blotheath::STACK;

/// Runs the command in a thread whose stack does not depend on the limits of the shell that started it.
fn main() -> ExitCode {
    let work = thread::Builder::new().stack_size(STACK).spawn(run);
    let status = match work.map(|work| work.join()) {
        Ok(Ok(status)) => status,
        // The thread has told its panic.
        Ok(Err(_)) => return ExitCode::from(101),
        Err(error) => {
            command::complain_of(&error);
            Status::Unusable
        }
    };
    ExitCode::from(status as u8)
}

fn run() -> Status {
    let words: Vec<_> = std::env::args_os().skip(1).collect();
    match command::run(&words) {
        Ok(status) => status,
        // Whoever reads the output has closed it.
        Err(error) if error.kind() == std::io::ErrorKind::BrokenPipe => Status::Unusable,
        Err(error) => {
            command::complain_of(&error);
            Status::Unusable
        }
    }
}
