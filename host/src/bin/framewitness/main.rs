//! The command `framewitness`: audits each file that an argument names, and writes a line for each to standard output, in
//! their order; `--help` explains the rest. What it says of a file is what the proved program says (crates/framewitness),
//! word for word. Exit status: 0 where every file is clean, 1 where one is not, 2 where one was not read, where the call is
//! wrong or where a line could not be written.
#![no_main] // std's own start would open /dev/null for an output that is closed, and a line would count as written

mod call;
mod help;
mod line;
mod output;
mod queue;
mod tell;

use call::Call;
use output::Output;
use std::ffi::OsString;
use tell::Task;

/// What a call comes to. The larger one wins.
#[derive(Clone, Copy, PartialEq, Eq, PartialOrd, Ord)]
enum Status {
    Clean = 0,
    NotClean = 1,
    NoVerdict = 2,
}

/// Says what went wrong. Where standard error can not be written either, the status says it.
fn complain(words: &str) {
    use std::io::Write;
    let _ = std::io::stderr().write_all(words.as_bytes());
}

fn write(text: &[u8]) -> Status {
    match Output::open().and_then(|mut output| output.write(text)) {
        Ok(()) => Status::Clean,
        Err(_) => output::unwritten(),
    }
}

fn answer(arguments: impl Iterator<Item = OsString>) -> Status {
    match Call::of(arguments) {
        Ok(Call::Help) => write(help::text().as_bytes()),
        Ok(Call::Version) => write(help::VERSION.as_bytes()),
        Ok(Call::List(name)) => queue::tell_all(Task::List, &[name], 1),
        Ok(Call::Summary(name)) => queue::tell_all(Task::Summary, &[name], 1),
        Ok(Call::Files { jobs, names }) => queue::tell_all(Task::Audit, &names, jobs),
        Err(misuse) => {
            complain(&format!(
                "framewitness: {}\n{}",
                misuse.words(),
                help::CALLS
            ));
            Status::NoVerdict
        }
    }
}

/// std has the arguments before this is called, on glibc.
#[no_mangle]
pub extern "C" fn main(_count: i32, _arguments: *const *const u8) -> i32 {
    answer(std::env::args_os().skip(1)) as i32
}
