//! The tests of the crate: `OUT/tests TOP`, where TOP is the repository's top; without it, the folder above.
//! A line for each failure; the last line counts; the status is 1 where one failed.
#![deny(dead_code)] // a test that is not in the list

#[path = "../examples/audit.rs"]
mod audit_example;
#[path = "../src/exports.rs"]
mod exports;
#[path = "../examples/samples.rs"]
mod samples_example;

mod answers;
mod files;
mod open;
mod tracks;
mod verdicts;
mod words;

use files::Files;
use std::panic;
use std::process::ExitCode;

type Test = fn(&Files);

const TESTS: &[(&str, Test)] = &[
    ("words::of_verdicts", words::of_verdicts),
    ("words::of_findings", words::of_findings),
    ("words::of_refusals", words::of_refusals),
    ("words::are_the_program_s", words::are_the_program_s),
    ("words::of_letters", words::of_letters),
    ("verdicts::of_all_files", verdicts::of_all_files),
    ("verdicts::by_their_types", verdicts::by_their_types),
    ("verdicts::of_every_number", verdicts::of_every_number),
    ("verdicts::in_threads", verdicts::in_threads),
    ("open::maps_the_bytes", open::maps_the_bytes),
    ("open::an_empty_file", open::an_empty_file),
    ("open::no_file", open::no_file),
    ("open::a_file_past_the_limit", open::a_file_past_the_limit),
    ("open::tells_a_change", open::tells_a_change),
    ("tracks::as_listed", tracks::as_listed),
    ("tracks::of_all_files", tracks::of_all_files),
    ("tracks::one_by_one", tracks::one_by_one),
    ("tracks::by_number", tracks::by_number),
    ("tracks::media_bytes", tracks::media_bytes),
    ("tracks::media_outside", tracks::media_outside),
    ("tracks::summed_up", tracks::summed_up),
    (
        "tracks::past_all_microseconds",
        tracks::past_all_microseconds,
    ),
    ("answers::of_an_audit", answers::of_an_audit),
    ("answers::of_a_number", answers::of_a_number),
    ("answers::of_a_list", answers::of_a_list),
    ("answers::of_one_sample", answers::of_one_sample),
    ("answers::of_a_summary", answers::of_a_summary),
    ("answers::of_no_track", answers::of_no_track),
    ("answers::of_a_refused_file", answers::of_a_refused_file),
    ("the example audit", |files| {
        files.within("clean_case2.mp4", || audit_example::main().unwrap())
    }),
    ("the example samples", |files| {
        files.within("clean_case2.mp4", || samples_example::main().unwrap())
    }),
];

fn main() -> ExitCode {
    let files = Files::of(std::env::args_os().nth(1).unwrap_or("..".into()).as_ref());
    let mut failed = 0;
    for &(name, test) in TESTS {
        panic::set_hook(Box::new(move |what| {
            println!("{name} failed: {}", what.to_string().replace('\n', " "))
        }));
        if panic::catch_unwind(|| test(&files)).is_err() {
            failed += 1;
        }
    }
    println!("{} passed, {failed} failed", TESTS.len() - failed);
    ExitCode::from((failed > 0) as u8)
}
