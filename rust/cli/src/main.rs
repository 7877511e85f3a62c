//! The command `winterhasp`: asks the proved functions about files.

#![deny(unsafe_code)]

mod arguments;
mod box_names;
mod box_values;
mod boxes;
mod check;
mod components;
mod contents;
mod files;
mod list;
#[allow(unsafe_code)]
mod mapped;
mod names;
mod offsets;
mod output;
mod picture;
mod run;
mod show;
mod siz;
mod stages;
mod svg;
mod tile;
mod tiles;
mod trouble;

use std::process::ExitCode;

use clap::{CommandFactory, Parser};

use arguments::{Arguments, Command, Completions};
use output::{not_printed, print, tell};
use trouble::{Status, Trouble};

fn main() -> ExitCode {
    let run = match Arguments::try_parse() {
        Ok(arguments) => run(&arguments.command),
        Err(words) => answer(&words),
    };
    run.unwrap_or_else(|trouble| {
        trouble.sentence().into_iter().for_each(tell);
        trouble.status()
    })
    .into()
}

fn run(command: &Command) -> Result<Status, Trouble> {
    match command {
        Command::List(arguments) => list::list(arguments),
        Command::Check(arguments) => check::check(arguments),
        Command::Show(arguments) => show::show(arguments),
        Command::Boxes(arguments) => boxes::boxes(arguments),
        Command::Tile(arguments) => tile::tile(arguments),
        Command::Grid(arguments) => picture::grid(arguments),
        Command::Completions(arguments) => completions(arguments),
    }
}

/// To wrong words, and to those that ask for help.
fn answer(words: &clap::Error) -> Result<Status, Trouble> {
    let printed = words.print();
    if words.use_stderr() {
        return Ok(Status::Failed);
    }
    printed.map_err(not_printed)?;
    Ok(Status::Accepted)
}

/// Made whole first: what makes them takes no failure of whom it writes to.
fn completions(arguments: &Completions) -> Result<Status, Trouble> {
    let mut script = Vec::new();
    let mut command = Arguments::command();
    clap_complete::generate(arguments.shell, &mut command, "winterhasp", &mut script);
    print(&script)?;
    Ok(Status::Accepted)
}
