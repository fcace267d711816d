//! A plan: built by the library, listed by the library.

use crate::end::{say, stopped, Done, End};
use crate::explain;
use crate::files::Out;
use crate::job::{self, Job, Read};
use crate::memory::{self, lend, For, Lent, Space};
use crate::placer::{build, list_answer, listing_size, stage_size, Answer, Line, Plan};
use crate::sheet;
use crate::svg;
use crate::why;
use std::path::PathBuf;
use std::time::Instant;

/// Place the gates of a file, and list the plan; or list a plan sheet
#[derive(clap::Args)]
pub struct Args {
    /// An AIGER file (aag), a job file, a job's text or a plan sheet; - is standard input
    #[arg(value_name = "FILE", required = true)]
    files: Vec<PathBuf>,
    #[command(flatten)]
    space: Space,
    /// Print the summary alone: stages, words, filled cells, time
    #[arg(short, long)]
    quiet: bool,
    /// Say which pins were taken back, and by which counts; of an accepted job too
    #[arg(long)]
    why: bool,
    /// Draw the plan of the only file, stage by stage
    #[arg(long, value_name = "OUT")]
    svg: Option<PathBuf>,
    /// Write the plan of the only file as a plan sheet
    #[arg(long, value_name = "OUT")]
    sheet: Option<PathBuf>,
    /// The chip or job that a plan sheet was made of: one of number 1 needs it for its inversions
    #[arg(long, value_name = "FILE")]
    graph: Option<PathBuf>,
}

/// What a build answered and left, and the lines that explain it where it is refused for capacity or they were asked for.
pub struct Built {
    pub height: u32,
    pub answer: Answer,
    pub lent: Lent,
    pub lines: Vec<Line>,
}

impl Built {
    pub fn of(job: &Job, space: &Space, why: bool) -> Done<Built> {
        let height = space.height.or(job.height).unwrap_or(13);
        let mut lent = lend(&job.name, space, height, job.graph(), 0, For::Build)?;
        if !why {
            let answer = build(height, &job.gates, &job.given, &job.records, lent.areas());
            if !matches!(answer.number, 6..=8) {
                return Ok(Built { height, answer, lent, lines: Vec::new() });
            }
        }
        let (answer, lines) = explain::build(job.graph(), height, &mut lent)?;
        Ok(Built { height, answer, lent, lines })
    }

    /// Says which pins were taken back, and first of an accepted job that it is one.
    fn taken_back(&self, job: &Job) {
        let taken: Vec<String> = self.lines.iter().filter_map(|line| explain::taken(job, line, self.height)).collect();
        if self.answer.number == 0 {
            let pins = match taken.len() {
                0 => "no pin".to_string(),
                1 => "1 pin".to_string(),
                count => format!("{count} pins"),
            };
            say(format!("{}: accepted, with {pins} taken back", job.name));
        }
        taken.iter().for_each(say);
    }

    pub fn stages(&self) -> impl Iterator<Item = &[u32]> {
        self.lent.plan.chunks_exact(stage_size(self.height)).take(self.answer.stages)
    }

    /// The plan as one that is handed in.
    pub fn plan(&self) -> Plan<'_> {
        Plan { cells: &self.lent.plan, words: &self.lent.words, counts: &self.lent.counts, stages: self.answer.stages }
    }

    /// The listing, or the refusal's line.
    pub fn listing(&self) -> Done<Vec<u8>> {
        let Built { height, answer, lent, .. } = self;
        // a line for each filled cell, of at most 17 bytes; the library's own size counts the empty ones too
        let lines = answer.cells.saturating_mul(17);
        let least = lines.saturating_add(answer.stages.saturating_mul(48)).saturating_add(answer.words.saturating_mul(11)).saturating_add(64);
        for size in [least, listing_size(*height, answer.stages, answer.words)] {
            let mut text = memory::area(0, size)?;
            let listed = list_answer(*height, answer, &lent.plan, &lent.words, &lent.counts, &mut text);
            match listed.number {
                0 => {
                    text.truncate(listed.length);
                    return Ok(text);
                }
                2 if answer.number == 0 => {}
                _ => break,
            }
        }
        Ok(refusal_line(answer.number, answer.stage, answer.pin))
    }

    /// What refuses it, said for people.
    pub fn refused(&self, job: &Job) -> Option<String> {
        let Answer { number, stage, pin, .. } = self.answer;
        (number != 0).then(|| why::lists(job, self.height, number, stage, pin, self.lent.rooms, &self.lines))
    }
}

pub fn refusal_line(number: u32, stage: usize, pin: usize) -> Vec<u8> {
    let shown = if number == 23 { format!(" pin {pin}") } else { String::new() };
    format!("refused {number} stage {stage}{shown}\n").into_bytes()
}

/// One file; the graph is for a plan sheet.
fn one(path: &PathBuf, graph: Option<&Job>, args: &Args, out: &mut Out) -> Done<()> {
    let from = Instant::now();
    let (name, job, built) = match job::read(path, args.space.memory)? {
        Read::Job(job) if graph.is_some() => return stopped(job.name, "has a graph of its own: --graph is for plan sheets"),
        Read::Job(job) => {
            let built = Built::of(&job, &args.space, args.why)?;
            (job.name.clone(), Some(job), built)
        }
        Read::Sheet { name, .. } if args.why => return stopped(name, "a plan sheet is not built, so that none of its pins is taken back: leave --why out"),
        Read::Sheet { name, bytes } => match sheet::read(&name, &bytes, graph, &args.space, For::Build)? {
            sheet::Read::Plan(built) => (name, None, built),
            sheet::Read::Refused { number, said } => {
                out.put(refusal_line(number, 0, 0))?;
                return Err(End::Refused(said));
            }
        },
        Read::Refused { number, pin, said } => {
            out.put(refusal_line(number, 0, pin))?;
            return Err(End::Refused(said));
        }
    };
    if args.quiet && built.answer.number == 0 {
        let Answer { stages, words, cells, .. } = built.answer;
        out.put(format!("stages {stages} words {words} cells {cells} seconds {:.3}\n", from.elapsed().as_secs_f64()))?;
    } else {
        out.put(built.listing()?)?;
    }
    if let (true, Some(job)) = (args.why, &job) {
        built.taken_back(job);
    }
    if let Some(said) = job.as_ref().and_then(|job| built.refused(job)) {
        return Err(End::Refused(said));
    }
    if let Some(path) = &args.sheet {
        sheet::write(&name, &built, path)?;
    }
    if let Some(path) = &args.svg {
        let mut drawn = Out::file(path)?;
        svg::draw(&name, job.as_ref().or(graph), &built, &mut drawn)?;
        drawn.flush()?;
    }
    Ok(())
}

/// Each file in turn; one that is refused stops none of the others.
pub fn run(args: &Args) -> Done<()> {
    if args.svg.is_some() && args.files.len() > 1 {
        return Err(End::Stopped("placer: --svg draws one plan: name one file".to_string()));
    }
    if args.sheet.is_some() && args.files.len() > 1 {
        return Err(End::Stopped("placer: --sheet writes one plan: name one file".to_string()));
    }
    let standard = |path: &PathBuf| path.as_os_str() == "-";
    if args.graph.iter().any(standard) && args.files.iter().any(standard) {
        return Err(End::Stopped("placer: file and graph can't both be standard input".to_string()));
    }
    let graph = args.graph.as_ref().map(|path| job::accepted(path, args.space.memory)).transpose()?;
    let mut out = Out::standard();
    let mut worst = 0;
    for path in &args.files {
        let ended = one(path, graph.as_ref(), args, &mut out);
        out.flush()?;
        match ended {
            Ok(()) => {}
            Err(End::Pipe) => return Err(End::Pipe),
            Err(end) => worst = worst.max(end.told()),
        }
    }
    if worst == 0 {
        Ok(())
    } else {
        Err(End::Said(worst))
    }
}
