//! Whether a file is a job, what it has, and what to lend for it.

use crate::end::{Done, End};
use crate::files::Out;
use crate::job::{self, Form, Job};
use crate::memory::{self, size, Space};
use crate::placer::{build_work_size, depth, plan_size, replay_bits_size, replay_slots_size, replay_tape_size, reserved, words_size, Answer, EMPTY};
use crate::plan::{refusal_line, Built};
use std::path::PathBuf;

/// Say whether a file is a job, what it has and what to lend
#[derive(clap::Args)]
pub struct Args {
    /// An AIGER file (aag), a job file or a job's text; - is standard input
    file: PathBuf,
    #[command(flatten)]
    space: Space,
}

fn counts(job: &Job) -> Vec<(&'static str, usize)> {
    let pins = (job.gates.len() / 2).saturating_sub(1);
    let gates = job.gates.chunks_exact(2).filter(|gate| gate != &[EMPTY, EMPTY]).count();
    let of = |wanted: u32| job.records().filter(|(kind, _)| *kind == wanted).count();
    match &job.form {
        Form::Aiger(aag) => {
            let unused = pins.saturating_sub(gates + aag.inputs.len() + aag.latches.len());
            vec![("inputs", aag.inputs.len()), ("latches", aag.latches.len()), ("outputs", aag.outputs), ("gates", gates), ("unused", unused)]
        }
        _ => vec![
            ("leaves", pins.saturating_sub(gates)),
            ("flipflops", of(2)),
            ("outputs", of(1)),
            ("gates", gates),
            ("memories", of(3)),
            ("staged", of(4)),
            ("given", job.given.len()),
        ],
    }
}

pub fn run(args: &Args) -> Done<()> {
    let job = job::accepted(&args.file, args.space.memory)?;
    let mut out = Out::standard();
    out.put(match job.form {
        Form::Aiger(_) => "form aag\n",
        Form::File => "form job\n",
        Form::Text(_) => "form text\n",
    })?;
    for (word, count) in counts(&job) {
        out.put(format!("{word} {count}\n"))?;
    }
    let (gates, records) = (job.gates.len(), job.records.len());
    let work = build_work_size(gates, records);
    let mut area = memory::area(0, work)?;
    let told = depth(&job.gates, &job.given, &job.records, &mut area);
    let aside = reserved(&job.gates, &job.given, &job.records, &mut area);
    drop(area);
    let built = Built::of(&job, &args.space, false)?;
    let height = built.height;
    if told.number == 0 {
        out.put(format!("depth {}\nrooms {}\nreserved {}\nheight {height}\n", told.depth, told.depth.saturating_add(1), aside.words))?;
    }
    if let Some(said) = built.refused(&job) {
        let Answer { number, stage, pin, .. } = built.answer;
        out.put(refusal_line(number, stage, pin))?;
        out.flush()?;
        return Err(End::Refused(said));
    }
    let Answer { stages, words, cells, .. } = built.answer;
    out.put(format!("placed stages {stages} words {words} cells {cells}\n"))?;
    let rooms = built.lent.rooms;
    let plan = plan_size(height, rooms);
    let mut lend = vec![
        ("gates", gates, 4),
        ("given", job.given.len(), 4),
        ("records", records, 4),
        ("plan", plan, 4),
        ("words", words_size(height), 4),
        ("counts", rooms, 4),
        ("work", work, 4),
    ];
    if let Form::Aiger(aag) = &job.form {
        lend.extend([
            ("replay driven", aag.latches.len(), 4),
            ("replay tape", replay_tape_size(plan), 4),
            ("replay slots", replay_slots_size(records, plan), 4),
            ("replay bits", replay_bits_size(gates, plan), 1),
        ]);
    }
    for (word, count, bytes) in lend {
        out.put(format!("lend {word} {count} ({})\n", size(count.saturating_mul(bytes))))?;
    }
    out.flush()
}
