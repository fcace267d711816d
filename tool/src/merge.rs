//! Partitions of a file's records, merged by the library.

use crate::end::{Done, End};
use crate::explain;
use crate::files::{self, Out};
use crate::job::{self, Job};
use crate::memory::{self, lend, For, Graph, Lent, Space};
use crate::placer::{self, build, merge_work_size, Groups};
use crate::plan::Built;
use crate::why;
use std::path::PathBuf;

/// Merge partitions of a file's records while their stages stay few
#[derive(clap::Args)]
pub struct Args {
    /// An AIGER file (aag), a job file or a job's text; - is standard input
    file: PathBuf,
    /// The partitions, one a line: its records' numbers from 0 (latches, then outputs) and ranges as 3-7; '-' alone has none; '#' begins a comment
    #[arg(long, value_name = "FILE")]
    groups: PathBuf,
    /// Stages that a union may have more than the greatest partition
    #[arg(long, value_name = "E", default_value_t = 0)]
    extra: usize,
    /// List each merged partition's plan behind its line
    #[arg(long)]
    plans: bool,
    #[command(flatten)]
    space: Space,
}

struct Lists {
    indices: Vec<u32>,
    lengths: Vec<u32>,
    lines: Vec<usize>,
}

/// A number, or a range of numbers.
fn range(word: &str) -> Option<(u32, u32)> {
    match word.split_once('-') {
        Some((from, to)) => Some((from.parse().ok()?, to.parse().ok()?)).filter(|(from, to)| from <= to),
        None => word.parse().ok().map(|one| (one, one)),
    }
}

fn groups(name: &str, bytes: &[u8]) -> Done<Lists> {
    let mut lists = Lists { indices: Vec::new(), lengths: Vec::new(), lines: Vec::new() };
    for (at, line) in bytes.split(|&byte| byte == b'\n').enumerate() {
        let text = String::from_utf8_lossy(line);
        let words: Vec<&str> = text.split('#').next().unwrap_or("").split_whitespace().collect();
        if words.is_empty() {
            continue;
        }
        let mut length = 0usize;
        for word in words.iter().filter(|_| words != ["-"]) {
            let (from, to) = match range(word) {
                Some((from, to)) if to - from < 65_536 => (from, to),
                _ => return Err(End::Refused(format!("{name}:{}: '{}' is no number and no range", at + 1, word.escape_debug()))),
            };
            memory::more(&mut lists.indices, (to - from) as usize + 1)?;
            lists.indices.extend(from..=to);
            length += (to - from) as usize + 1;
        }
        memory::more(&mut lists.lengths, 1)?;
        memory::more(&mut lists.lines, 1)?;
        lists.lengths.push(u32::try_from(length).unwrap_or(u32::MAX));
        lists.lines.push(at + 1);
    }
    Ok(lists)
}

/// The records of a partition, one behind the other.
fn records(job: &Job, indices: &[u32]) -> Done<Vec<u32>> {
    let all: Vec<(u32, &[u32])> = job.records().collect();
    let mut records = Vec::new();
    for &index in indices {
        if let Some((kind, numbers)) = all.get(index as usize) {
            memory::more(&mut records, 1 + numbers.len())?;
            records.push(*kind);
            records.extend_from_slice(numbers);
        }
    }
    Ok(records)
}

/// The records' indices of a partition, from 1.
fn part(lists: &Lists, partition: usize) -> &[u32] {
    let from: usize = lists.lengths.iter().take(partition.saturating_sub(1)).map(|&length| length as usize).sum();
    let length = lists.lengths.get(partition.wrapping_sub(1)).map_or(0, |&length| length as usize);
    lists.indices.get(from..from + length).unwrap_or(&[])
}

fn refused(args: &Args, job: &Job, lists: &Lists, height: u32, merged: &placer::Merged, lent: &mut Lent) -> Done<String> {
    let name = files::name(&args.groups);
    if merged.number == 10 {
        let count = job.records().count();
        let mut end = 0usize;
        for (&length, line) in lists.lengths.iter().zip(&lists.lines) {
            let part = &lists.indices[end..end + length as usize];
            end += length as usize;
            if let Some(index) = part.iter().find(|&&index| index as usize >= count) {
                return Ok(format!("{name}:{line}: refused with 10: record {index}; there are records 0 to {}", count.saturating_sub(1)));
            }
        }
        let what = format!("{} partitions, of 1 to 1024, and {} extra stages, of 0 to 255", lists.lengths.len(), args.extra);
        return Ok(format!("{name}: refused with 10: {what}"));
    }
    let mut lines = Vec::new();
    if matches!(merged.number, 6..=8) {
        let records = records(job, part(lists, merged.refused))?;
        (_, lines) = explain::build(Graph { gates: &job.gates, given: &job.given, records: &records }, height, lent)?;
    }
    let said = why::lists(job, height, merged.number, merged.stage, merged.pin, lent.rooms, &lines);
    Ok(match lists.lines.get(merged.refused.wrapping_sub(1)) {
        Some(line) => format!("{said} (partition {}, line {line} of {name})", merged.refused),
        None => said,
    })
}

pub fn run(args: &Args) -> Done<()> {
    let job = job::accepted(&args.file, args.space.memory)?;
    let name = files::name(&args.groups);
    let mut lists = groups(&name, &files::read(&args.groups, args.space.memory)?)?;
    let height = args.space.height.or(job.height).unwrap_or(13);
    let work = merge_work_size(job.gates.len(), job.records.len(), lists.indices.len(), lists.lengths.len());
    let mut lent = lend(&job.name, &args.space, height, job.graph(), work, For::Build)?;
    let mut stages = memory::area(0, lists.lengths.len())?;
    let (mut indices, mut lengths) = (lists.indices.clone(), lists.lengths.clone());
    let merging = Groups { indices: &mut indices, lengths: &mut lengths, stages: &mut stages };
    let merged = placer::merge(height, &job.gates, &job.given, &job.records, merging, args.extra, lent.areas());
    if merged.number != 0 {
        return Err(End::Refused(refused(args, &job, &lists, height, &merged, &mut lent)?));
    }
    lists.indices = indices;
    let mut out = Out::standard();
    let placer::Merged { partitions, stages: sum, words, trials, .. } = merged;
    out.put(format!("merged height {height} partitions {partitions} stages {sum} words {words} unions {trials}\n"))?;
    let mut rest = &lists.indices[..];
    for (at, (&length, &stages)) in lengths.iter().zip(&stages).take(partitions).enumerate() {
        let (part, behind) = rest.split_at((length as usize).min(rest.len()));
        rest = behind;
        let listed: Vec<String> = part.iter().map(|index| index.to_string()).collect();
        out.put(format!("partition {} stages {stages} records {}\n", at + 1, listed.join(" ")))?;
        if args.plans {
            let records = records(&job, part)?;
            let graph = Graph { gates: &job.gates, given: &job.given, records: &records };
            let mut lent = lend(&job.name, &args.space, height, graph, 0, For::Build)?;
            let answer = build(height, graph.gates, graph.given, graph.records, lent.areas());
            out.put(Built { height, answer, lent, lines: Vec::new() }.listing()?)?;
        }
    }
    out.put("end\n")?;
    out.flush()
}
