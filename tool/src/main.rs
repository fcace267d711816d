//! From a chip's AIGER file to its plan, a replayed recording, a waveform and a picture. This opens files, lends memory, calls the proved library and
//! prints; whatever decides is in the library.

#![deny(unsafe_code)]

mod aag;
mod check;
mod check_plan;
mod end;
mod explain;
mod fault;
mod files;
mod job;
mod memory;
mod mend;
mod merge;
mod plan;
#[allow(unsafe_code, dead_code)]
#[path = "../../ffi/rust/placer.rs"]
mod placer;
mod replay;
mod sheet;
mod svg;
mod text;
mod vcd;
mod why;

use clap::Parser;
use end::{say, Done};

/// Lays a chip's gates into folding trees, and replays recordings through them
///
/// Exit status: 0 done, 1 a file or recording is refused, 2 the command line is wrong or something could not be tried.
#[derive(Parser)]
#[command(name = "placer", version = placer::VERSION)]
struct Cli {
    #[command(subcommand)]
    command: Command,
}

#[derive(clap::Subcommand)]
enum Command {
    Plan(plan::Args),
    Replay(replay::Args),
    Check(check::Args),
    CheckPlan(check_plan::Args),
    Mend(mend::Args),
    Merge(merge::Args),
}

/// A call may need 2 MiB of stack.
const STACK: usize = 16 << 20;

fn run(command: &Command) -> Done<()> {
    match command {
        Command::Plan(args) => plan::run(args),
        Command::Replay(args) => replay::run(args),
        Command::Check(args) => check::run(args),
        Command::CheckPlan(args) => check_plan::run(args),
        Command::Mend(args) => mend::run(args),
        Command::Merge(args) => merge::run(args),
    }
}

fn main() {
    let cli = match Cli::try_parse() {
        Ok(cli) => cli,
        Err(error) => {
            let _ = error.print();
            std::process::exit(if error.use_stderr() { 2 } else { 0 });
        }
    };
    let status = std::thread::Builder::new().stack_size(STACK).spawn(move || {
        match run(&cli.command) {
            Ok(()) => 0,
            Err(end) => end.told(),
        }
    });
    let status = match status.map(|thread| thread.join()) {
        Ok(Ok(status)) => status,
        Ok(Err(_)) => 3,
        Err(_) => {
            say("placer: no memory for a stack");
            2
        }
    };
    std::process::exit(status);
}
