//! A plan made elsewhere: whether it is one of a chip or job. The library checks it; what is wrong where is said in words.

use crate::end::{Done, End};
use crate::fault;
use crate::files::Out;
use crate::job;
use crate::memory::{parse_size, For, Space};
use crate::placer::{check_plan, Answer};
use crate::plan::refusal_line;
use crate::sheet;
use crate::why;
use std::path::PathBuf;

/// Say whether a plan sheet has a plan of a file's gates, whoever made it, and if not, what is wrong where
#[derive(clap::Args)]
pub struct Args {
    /// An AIGER file (aag), a job file or a job's text; - is standard input
    file: PathBuf,
    /// A plan sheet, of any height; one of number 1 is read with the gates of FILE; - is standard input
    sheet: PathBuf,
    /// Memory for files and rooms, in bytes or with K, M, G
    #[arg(long, value_name = "SIZE", default_value = "1G", value_parser = parse_size)]
    memory: usize,
}

pub fn run(args: &Args) -> Done<()> {
    if args.file.as_os_str() == "-" && args.sheet.as_os_str() == "-" {
        return Err(End::Stopped("placer: file and plan sheet can't both be standard input".to_string()));
    }
    let job = job::accepted(&args.file, args.memory)?;
    let space = Space { height: None, rooms: None, memory: args.memory };
    let mut out = Out::standard();
    let (name, built) = match sheet::load(&args.sheet, &job, &space, For::Build)? {
        (name, sheet::Read::Plan(built)) => (name, built),
        (_, sheet::Read::Refused { number, said }) => {
            out.put(refusal_line(number, 0, 0))?;
            out.flush()?;
            return Err(End::Refused(said));
        }
    };
    let answer = check_plan(built.height, &job.gates, &job.given, &job.records, built.plan());
    let Answer { stages, words, cells, .. } = built.answer;
    let said = match answer.number {
        0 => {
            out.put(format!("accepted stages {stages} words {words} cells {cells}\n"))?;
            return out.flush();
        }
        22 => {
            out.put(format!("refused 22 stage {} position {}\n", answer.stage, answer.position))?;
            fault::said(&name, &job, &built, answer.stage, answer.position)?
        }
        number => {
            out.put(refusal_line(number, 0, answer.pin))?;
            why::lists(&job, built.height, number, 0, answer.pin, built.lent.rooms, &[])
        }
    };
    out.flush()?;
    Err(End::Refused(said))
}
