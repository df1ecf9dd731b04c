//! Files in a row, several of them at a time. What is told of each goes out in the order in which they were named, as soon
//! as that of those before it is out.
use crate::output::{self, Output};
use crate::tell::{self, Task, Told};
use crate::{complain, Status};
use std::collections::BTreeMap;
use std::ffi::OsString;
use std::io::{self, IsTerminal};
use std::sync::atomic::{AtomicUsize, Ordering};
use std::sync::mpsc::{self, Receiver, RecvTimeoutError};
use std::thread;
use std::time::{Duration, Instant};

/// The stack of one who audits: four times what the library needs.
const STACK: usize = 4 << 20;

/// A call that takes longer than this shows how far it is.
const LONG: Duration = Duration::from_secs(2);

const TICK: Duration = Duration::from_millis(250);

pub fn tell_all(task: Task, names: &[OsString], jobs: usize) -> Status {
    let Ok(mut output) = Output::open() else {
        return output::unwritten();
    };
    let jobs = jobs.min(names.len());
    let told = match jobs {
        1 => one_by_one(task, names, &mut output),
        _ => side_by_side(task, names, jobs, &mut output),
    };
    told.unwrap_or_else(|_| output::unwritten())
}

/// Without a thread, in which the emulator that counts instructions (speed/count) takes several times as long for the same.
fn one_by_one(task: Task, names: &[OsString], output: &mut Output) -> io::Result<Status> {
    let mut progress = Progress::new(names.len());
    let mut status = Status::Clean;
    for (done, name) in names.iter().enumerate() {
        progress.show(done);
        let told = tell::of(task, name);
        progress.clear();
        output.write(&told.text)?;
        status = status.max(told.status);
    }
    Ok(status)
}

fn side_by_side(
    task: Task,
    names: &[OsString],
    jobs: usize,
    output: &mut Output,
) -> io::Result<Status> {
    let next = AtomicUsize::new(0);
    let (sender, told) = mpsc::channel();
    thread::scope(|scope| {
        let mut started = 0;
        for _ in 0..jobs {
            let (sender, next) = (sender.clone(), &next);
            let worker = move || loop {
                let i = next.fetch_add(1, Ordering::Relaxed);
                // an error: nobody takes what is told any more
                if i >= names.len() || sender.send((i, tell::of(task, &names[i]))).is_err() {
                    return;
                }
            };
            if thread::Builder::new()
                .stack_size(STACK)
                .spawn_scoped(scope, worker)
                .is_err()
            {
                break;
            }
            started += 1;
        }
        drop(sender);
        if started == 0 {
            complain("framewitness: the system gives no thread to audit in\n");
            return Ok(Status::NoVerdict);
        }
        // whatever the outcome, the receiver ends here, and with it the workers
        write_in_order(told, names.len(), output)
    })
}

fn write_in_order(
    told: Receiver<(usize, Told)>,
    many: usize,
    output: &mut Output,
) -> io::Result<Status> {
    let mut progress = Progress::new(many);
    let mut early = BTreeMap::new();
    let mut status = Status::Clean;
    let mut written = 0;
    while written < many {
        match told.recv_timeout(TICK) {
            Ok((i, of_file)) => {
                early.insert(i, of_file);
            }
            Err(RecvTimeoutError::Timeout) => {}
            // a worker broke off, and the end of the scope breaks off with it
            Err(RecvTimeoutError::Disconnected) => break,
        }
        while let Some(Told {
            text,
            status: of_file,
        }) = early.remove(&written)
        {
            progress.clear();
            output.write(&text)?;
            status = status.max(of_file);
            written += 1;
        }
        progress.show(written + early.len());
    }
    progress.clear();
    Ok(status)
}

/// How many files are done, on standard error, where that is a terminal.
struct Progress {
    many: usize,
    began: Instant,
    shown: Option<Instant>,
    width: usize,
    is_watched: bool,
}

impl Progress {
    fn new(many: usize) -> Progress {
        Progress {
            many,
            began: Instant::now(),
            shown: None,
            width: 0,
            is_watched: io::stderr().is_terminal(),
        }
    }

    fn show(&mut self, done: usize) {
        let is_due = self.shown.map_or(true, |shown| shown.elapsed() >= TICK);
        if self.is_watched && is_due && self.began.elapsed() >= LONG {
            let words = format!("{done} of {} files", self.many);
            self.width = words.len();
            self.shown = Some(Instant::now());
            complain(&format!("\r{words}"));
        }
    }

    fn clear(&mut self) {
        if self.width > 0 {
            complain(&format!("\r{:width$}\r", "", width = self.width));
            self.width = 0;
        }
    }
}
