//! A recording replayed, piece by piece: the library builds the plan, or checks one that is handed in, and runs a piece over it, and its end bits start the
//! next.

use crate::aag::Aag;
use crate::end::{stopped, words, Done, End};
use crate::explain;
use crate::fault;
use crate::files::{self, Out};
use crate::job::{self, Form, Job};
use crate::memory::{self, lend, For, Lent, Space, Taped};
use crate::placer::{self, plan_size, replay_plan_work_size, Checked, Recording, Run, EMPTY};
use crate::plan::Built;
use crate::sheet;
use crate::vcd::Vcd;
use crate::why;
use indicatif::{ProgressBar, ProgressStyle};
use std::io::{BufRead, BufReader, Read};
use std::path::{Path, PathBuf};
use std::time::{Duration, Instant};

/// Replay a recording through the plan of an AIGER file, or through one that a plan sheet has
#[derive(clap::Args)]
pub struct Args {
    /// An AIGER file (aag); - is standard input
    file: PathBuf,
    /// A line of 0 and 1 a clock, a bit for each input in the file's order; - is standard input
    recording: PathBuf,
    #[command(flatten)]
    space: Space,
    /// Replay over the plan of this plan sheet, whoever made it, at its height; it is checked first
    #[arg(long, value_name = "SHEET")]
    plan: Option<PathBuf>,
    /// The latches' bits at the beginning, in the file's order [default: 0 each]
    #[arg(long, value_name = "BITS", value_parser = bits)]
    start: Option<Bits>,
    /// Print every record's bits: of each latch its enable and what it takes, then the outputs
    #[arg(long)]
    all: bool,
    /// Print the latches' bits after the last clock too, in a line 'end BITS'
    #[arg(long)]
    end: bool,
    /// Write a waveform, one clock a step
    #[arg(long, value_name = "OUT")]
    vcd: Option<PathBuf>,
    /// Clocks that are replayed at once, at most
    #[arg(long, value_name = "CLOCKS", value_parser = clap::value_parser!(u64).range(1..))]
    piece: Option<u64>,
}

#[derive(Clone)]
struct Bits(Vec<u8>);

/// The bits that a text stands for.
fn bits(text: &str) -> Result<Bits, String> {
    match text.chars().position(|c| c != '0' && c != '1') {
        None => Ok(Bits(text.bytes().map(|byte| u8::from(byte == b'1')).collect())),
        Some(at) => Err(format!("character {} is no 0 or 1", at + 1)),
    }
}

/// The lines of a recording.
struct Lines {
    from: BufReader<Box<dyn Read>>,
    name: String,
    line: u64,
    bytes: u64,
    text: Vec<u8>,
    over: bool,
}

/// What the next line of a recording is.
enum Next {
    Clock,
    /// a line of another length: so many bits, at most one more than there are inputs
    Odd(usize),
    /// the end, which a point may mark
    End,
}

impl Lines {
    fn wrong(&self, what: String) -> End {
        End::Refused(format!("{}:{}: refused with 20: {what}", self.name, self.line))
    }

    /// The next line's bits, each where its input's leaf stands.
    fn next(&mut self, places: &[usize], row: &mut [u8]) -> Done<Next> {
        if self.over {
            return Ok(Next::End);
        }
        self.text.clear();
        // a right line has a byte an input and its end: more are not looked at
        let most = places.len() as u64 + 2;
        match (&mut self.from).take(most).read_until(b'\n', &mut self.text) {
            Ok(0) => {
                self.over = true;
                return Ok(Next::End);
            }
            Ok(count) => self.bytes = self.bytes.saturating_add(count as u64),
            Err(error) => return stopped(&self.name, words(&error)),
        }
        self.line = self.line.saturating_add(1);
        let text = self.text.strip_suffix(b"\n").unwrap_or(&self.text);
        if text == b"." {
            self.over = true;
            return Ok(Next::End);
        }
        if let Some(at) = text.iter().take(places.len()).position(|&byte| byte != b'0' && byte != b'1') {
            return Err(self.wrong(format!("character {} is '{}', no 0 or 1", at + 1, char::from(text[at]).escape_default())));
        }
        if text.len() != places.len() {
            return Ok(Next::Odd(text.len().min(places.len() + 1)));
        }
        for (&place, &byte) in places.iter().zip(text) {
            row[place] = u8::from(byte == b'1');
        }
        Ok(Next::Clock)
    }

    /// What is said of a line with so many bits.
    fn odd(&self, has: usize, inputs: usize) -> End {
        let has = if has < inputs { has.to_string() } else { format!("more than {inputs}") };
        self.wrong(format!("the line has {has} bits; a clock has {inputs}, one an input"))
    }
}

/// Which bit of a line, and of what a clock hands out, is whose.
struct Layout {
    /// leaves that no latch drives: the bits of a line
    leaves: usize,
    /// the place of each input among them
    places: Vec<usize>,
    /// what a clock hands out
    handed: usize,
    /// the places of the outputs in it
    outputs: Vec<usize>,
    /// the places of what the latches take
    taken: Vec<usize>,
}

fn layout(job: &Job, aag: &Aag) -> Done<Layout> {
    let pins = job.gates.len() / 2;
    let mut driven = memory::area(false, pins)?;
    for &pin in &aag.latches {
        if let Some(mark) = driven.get_mut(pin as usize) {
            *mark = true;
        }
    }
    let mut place = memory::area(0, pins)?;
    let mut leaves = 0;
    for pin in 1..pins {
        place[pin] = leaves;
        leaves += usize::from(job.gates[2 * pin..2 * pin + 2] == [EMPTY, EMPTY] && !driven[pin]);
    }
    let mut found = Layout { leaves, places: Vec::new(), handed: 0, outputs: Vec::new(), taken: Vec::new() };
    memory::more(&mut found.places, aag.inputs.len())?;
    found.places.extend(aag.inputs.iter().filter_map(|&pin| place.get(pin as usize)).copied());
    for (kind, numbers) in job.records() {
        match kind {
            1 => found.outputs.push(found.handed),
            2 => found.taken.push(found.handed + 1),
            _ => {}
        }
        found.handed += numbers.len();
    }
    Ok(found)
}

/// A bar on standard error, once a second has passed; hidden where that is no terminal.
struct Progress {
    from: Instant,
    length: Option<u64>,
    bar: Option<ProgressBar>,
}

impl Progress {
    fn show(&mut self, bytes: u64, clocks: u64) {
        if self.bar.is_none() && self.from.elapsed() > Duration::from_secs(1) {
            let bar = match self.length {
                Some(length) => ProgressBar::new(length),
                None => ProgressBar::new_spinner(),
            };
            let form = if self.length.is_some() { "{bar:40} {percent}% {msg}, {eta} left" } else { "{spinner} {msg}, {elapsed}" };
            if let Ok(style) = ProgressStyle::with_template(form) {
                bar.set_style(style);
            }
            self.bar = Some(bar);
        }
        if let Some(bar) = &self.bar {
            bar.set_message(format!("{clocks} clocks"));
            bar.set_position(bytes);
        }
    }

    /// What writes to the terminal, with the bar out of its way.
    fn aside<T>(&self, write: impl FnOnce() -> T) -> T {
        match &self.bar {
            Some(bar) => bar.suspend(write),
            None => write(),
        }
    }

    fn end(&self) {
        if let Some(bar) = &self.bar {
            bar.finish_and_clear();
        }
    }
}

/// What a recording runs over: a plan that each call builds, or one that a sheet has.
enum Over {
    Built { height: u32, lent: Lent },
    Sheet { name: String, built: Built, work: Vec<u32> },
}

/// A chip, what it runs over, and the areas for that.
struct Runner<'a> {
    job: &'a Job,
    aag: &'a Aag,
    over: Over,
    taped: Taped,
}

impl<'a> Runner<'a> {
    fn of(job: &'a Job, aag: &'a Aag, args: &Args) -> Done<Runner<'a>> {
        let (over, size) = match &args.plan {
            None => {
                let height = args.space.height.unwrap_or(13);
                let lent = lend(&job.name, &args.space, height, job.graph(), 0, For::Replay)?;
                let size = lent.plan.len();
                (Over::Built { height, lent }, size)
            }
            Some(path) => {
                let (name, built) = match sheet::load(path, job, &args.space, For::Replay)? {
                    (name, sheet::Read::Plan(built)) => (name, built),
                    (_, sheet::Read::Refused { said, .. }) => return Err(End::Refused(said)),
                };
                let work = memory::area(0, replay_plan_work_size(job.gates.len(), job.records.len()))?;
                let size = plan_size(built.height, built.answer.stages);
                (Over::Sheet { name, built, work }, size)
            }
        };
        Ok(Runner { job, aag, over, taped: Taped::of(job.graph(), size)? })
    }

    fn run(&mut self, recording: Recording<'_>, run: Run<'_>) -> Checked {
        let Job { gates, given, records, .. } = self.job;
        match &mut self.over {
            Over::Built { height, lent } => {
                let answer = placer::replay(*height, gates, given, records, recording, run, lent.areas(), self.taped.areas());
                Checked { number: answer.number, stage: answer.stage, position: 0, pin: answer.pin }
            }
            Over::Sheet { built, work, .. } => placer::replay_plan(built.height, gates, given, records, recording, run, built.plan(), work, self.taped.areas()),
        }
    }

    fn refused(&mut self, answer: &Checked, start: &[u8]) -> End {
        let Checked { number, stage, position, pin } = *answer;
        let (name, latches) = (&self.job.name, self.aag.latches.len());
        let said = match &mut self.over {
            _ if number == 20 && start.len() != latches => Ok(format!("{name}: refused with 20: --start has {} bits; there are {latches} latches", start.len())),
            Over::Built { height, lent } => {
                let lines = if matches!(number, 6..=8) { explain::build(self.job.graph(), *height, lent).map(|(_, lines)| lines) } else { Ok(Vec::new()) };
                lines.map(|lines| why::lists(self.job, *height, number, stage, pin, lent.rooms, &lines))
            }
            Over::Sheet { name, built, .. } if number == 22 => fault::said(name, self.job, built, stage, position),
            Over::Sheet { built, .. } => Ok(why::lists(self.job, built.height, number, 0, pin, built.lent.rooms, &[])),
        };
        said.map_or_else(|end| end, End::Refused)
    }
}

/// Memory for the bits of one piece, in bytes.
const PIECE: usize = 16 << 20;
/// A piece that takes less time is followed by a longer one: each builds or checks the plan again.
const SHORT: Duration = Duration::from_millis(400);
const FIRST: usize = 1024;

/// What prints, and draws, a piece.
struct Sink<'a> {
    args: &'a Args,
    out: Out,
    vcd: Option<Vcd>,
    row: Vec<u8>,
    shown: Vec<u8>,
}

impl Sink<'_> {
    fn clock(&mut self, layout: &Layout, latches: &mut [u8], line: &[u8], handed: &[u8]) -> Done<()> {
        self.row.clear();
        if self.args.all {
            self.row.extend(handed.iter().map(|&bit| b'0' + bit));
        } else {
            self.row.extend(layout.outputs.iter().map(|&at| b'0' + handed[at]));
        }
        self.row.push(b'\n');
        self.out.put(&self.row)?;
        if let Some(vcd) = &mut self.vcd {
            self.shown.clear();
            self.shown.extend(layout.places.iter().map(|&at| line[at]));
            self.shown.extend_from_slice(latches);
            self.shown.extend(layout.outputs.iter().map(|&at| handed[at]));
            vcd.clock(&self.shown)?;
            // an AIGER file's latches are always enabled
            for (latch, &at) in latches.iter_mut().zip(&layout.taken) {
                *latch = handed[at];
            }
        }
        Ok(())
    }
}

fn top(path: &Path) -> String {
    path.file_stem().map_or("top".to_string(), |stem| stem.to_string_lossy().into_owned())
}

pub fn run(args: &Args) -> Done<()> {
    let standard = |path: &Path| path.as_os_str() == "-";
    if standard(&args.file) && standard(&args.recording) {
        return Err(End::Stopped("placer: file and recording can't both be standard input".to_string()));
    }
    if args.plan.as_deref().map_or(false, standard) && (standard(&args.file) || standard(&args.recording)) {
        return Err(End::Stopped("placer: a plan sheet and another file can't both be standard input".to_string()));
    }
    let job = job::accepted(&args.file, args.space.memory)?;
    let aag = match &job.form {
        Form::Aiger(aag) => aag,
        _ => return stopped(&job.name, "a job says not what its flip-flops drive: replay takes AIGER files"),
    };
    let (recording, length) = files::open(&args.recording)?;
    let layout = layout(&job, aag)?;
    let mut text = Vec::new();
    memory::more(&mut text, layout.places.len().saturating_add(2))?;
    let mut lines =
        Lines { from: BufReader::with_capacity(1 << 16, recording), name: files::name(&args.recording), line: 0, bytes: 0, text, over: false };
    let mut start = match &args.start {
        Some(Bits(start)) => start.clone(),
        None => memory::area(0, aag.latches.len())?,
    };

    let mut runner = Runner::of(&job, aag, args)?;
    let a_clock = layout.leaves.saturating_add(layout.handed).max(1);
    let most = (PIECE / a_clock).max(1).min(args.piece.map_or(usize::MAX, |piece| usize::try_from(piece).unwrap_or(usize::MAX)));
    let mut piece = FIRST.min(most);
    let mut given = Vec::new();
    let mut out = Vec::new();
    let mut end = memory::area(0, aag.latches.len())?;
    let mut sink = Sink { args, out: Out::standard(), vcd: None, row: Vec::new(), shown: Vec::new() };
    let mut progress = Progress { from: Instant::now(), length, bar: None };
    let mut first = true;
    let mut clocks = 0u64;
    let ended = loop {
        // leaves that are no input stay 0
        let size = piece.saturating_mul(layout.leaves).max(layout.leaves + 1);
        let missing = size.saturating_sub(given.len());
        memory::more(&mut given, missing)?;
        given.resize(size, 0);
        // a wrong line ends the recording after the clocks before it
        let mut count = 0;
        let mut odd = None;
        let mut wrong = None;
        while count < piece {
            match lines.next(&layout.places, &mut given[count * layout.leaves..(count + 1) * layout.leaves]) {
                Ok(Next::Clock) => count += 1,
                Ok(Next::Odd(has)) => {
                    odd = Some(has);
                    break;
                }
                Ok(Next::End) => break,
                Err(end) => {
                    wrong = Some(end);
                    break;
                }
            }
        }
        if count == 0 && !first && odd.is_none() {
            break wrong.map_or(Ok(()), Err);
        }
        out.clear();
        memory::more(&mut out, count.saturating_mul(layout.handed))?;
        out.resize(count * layout.handed, 0);
        let from = Instant::now();
        let recording = Recording { driven: &aag.latches, start: &start, lines: count, bits: &given[..count * layout.leaves] };
        let run = Run { out: &mut out, end: &mut end };
        let answer = runner.run(recording, run);
        if answer.number != 0 {
            progress.end();
            return Err(runner.refused(&answer, &start));
        }
        let took = from.elapsed();
        if first {
            if let Some(path) = &args.vcd {
                sink.vcd = Some(Vcd::begin(Out::file(path)?, &top(&args.file), aag)?);
            }
        }
        first = false;
        progress.aside(|| {
            for at in 0..count {
                let line = &given[at * layout.leaves..(at + 1) * layout.leaves];
                sink.clock(&layout, &mut start, line, &out[at * layout.handed..(at + 1) * layout.handed])?;
            }
            sink.out.flush()
        })?;
        start.copy_from_slice(&end);
        clocks = clocks.saturating_add(count as u64);
        progress.show(lines.bytes, clocks);
        if let Some(end) = wrong {
            break Err(end);
        }
        if let Some(has) = odd {
            // a clock of other bits than there are leaves is handed on as it is: the library judges lengths
            let bits = &given[..layout.leaves.saturating_sub(layout.places.len()) + has];
            memory::more(&mut out, layout.handed)?;
            out.resize(layout.handed, 0);
            let recording = Recording { driven: &aag.latches, start: &start, lines: 1, bits };
            let run = Run { out: &mut out, end: &mut end };
            let answer = runner.run(recording, run);
            break Err(if answer.number == 20 { lines.odd(has, layout.places.len()) } else { runner.refused(&answer, &start) });
        }
        if took < SHORT {
            piece = piece.saturating_mul(4).min(most);
        }
    };
    progress.end();
    if let Some(vcd) = sink.vcd.take() {
        vcd.end(aag.inputs.len(), &start)?;
    }
    ended?;
    if args.end {
        sink.row.clear();
        sink.row.extend_from_slice(b"end ");
        sink.row.extend(start.iter().map(|&bit| b'0' + bit.min(1)));
        sink.row.push(b'\n');
        sink.out.put(&sink.row)?;
    }
    sink.out.flush()
}
