//! The unit's program: transforms and checks column files, one or a folder of them.

#![deny(unsafe_code)]

mod access;
mod arguments;
mod bench;
mod check;
mod column_file;
mod demo;
mod failure;
mod help;
mod json;
mod memory;
mod names;
mod output;
mod result_file;
mod run;
mod status;
mod system;
mod transform;

use arguments::Command;
use failure::Failure;
use json::Object;
use names::shown;
use output::{Output, tell};
use run::report::Summary;
use status::Status;
use std::ffi::OsString;
use std::process::ExitCode;

fn main() -> ExitCode {
    system::ignore_limit_of_files();
    let words: Vec<OsString> = std::env::args_os().skip(1).collect();
    let (output, command) = arguments::read(&words);
    let end = |status: Status| output.event("end").number("status", status.number());
    let status = match command.and_then(|command| execute(command, output, end)) {
        Ok((status, object)) => {
            output.object(&object);
            status
        }
        Err(failure) => {
            let (status, line) = (failure.status(), failure.to_string());
            tell(&line);
            output.object(&end(status).text("error", &line));
            status
        }
    };
    if !output::is_whole() {
        tell("standard output can't be written");
        return Status::CouldNotGoOn.into();
    }
    status.into()
}

type End = (Status, Object);

/// Executes a command. `end` makes the last line of JSON.
fn execute(command: Command, output: Output, end: impl Fn(Status) -> Object) -> Result<End, Failure> {
    let done = |()| (Status::Done, end(Status::Done));
    match command {
        Command::Help(text) => {
            output.print(text);
            Ok((Status::Done, end(Status::Done).text("help", text)))
        }
        Command::Version => {
            let (program, library) = (env!("CARGO_PKG_VERSION"), taripomune::version());
            output.print(&format!("taripomune {program}, library interface {library}"));
            Ok((Status::Done, end(Status::Done).text("program", program).number("library", library)))
        }
        Command::Transform(direction, from, to) => transform::transform(direction, &from, &to, output).map(done),
        Command::Run(options) => run::run(&options, output).map(|summary| match summary {
            Some(summary) => finished(&summary, output, end),
            None => {
                let sentence = format!("nothing to do: {} has no column files", shown(&options.columns));
                output.tell(&sentence);
                (Status::NothingToDo, Summary::default().counts.object(end(Status::NothingToDo)))
            }
        }),
        Command::Verify(values, coefficients) => check::verify(&values, &coefficients, output, end),
        Command::Total(values) => check::total(&values, output, end),
        Command::Demo => demo::demo(output).map(done),
        Command::Bench(folder) => bench::bench(folder.as_deref(), output).map(done),
    }
}

fn finished(summary: &Summary, output: Output, end: impl Fn(Status) -> Object) -> End {
    output.say(&summary.to_string());
    let status = summary.counts.status();
    (status, summary.object(end(status)))
}
