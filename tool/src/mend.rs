//! A damaged plan: mended by the library, and every change told in words.

use crate::end::{Done, End};
use crate::fault::{self, depth, lower, place};
use crate::files::Out;
use crate::job::{self, Job};
use crate::memory::{self, parse_size, For, Space};
use crate::placer::{self, changes, check_plan, mend_list_size, mend_plan, mend_work_size, stage_size, Answer, Cell, Change, Damaged, Mended, EMPTY};
use crate::plan::{refusal_line, Built};
use crate::sheet;
use crate::why;
use std::path::PathBuf;

/// Mend a plan sheet of which some cells came back wrong, by a file's gates; say what changed
#[derive(clap::Args)]
pub struct Args {
    /// An AIGER file (aag), a job file or a job's text; - is standard input
    file: PathBuf,
    /// A plan sheet, of any height; one of number 1 is read with the gates of FILE; - is standard input
    sheet: PathBuf,
    /// Where the mended sheet goes: nothing is written where it is refused
    #[arg(short, long, value_name = "OUT")]
    out: PathBuf,
    /// Memory for files and rooms, in bytes or with K, M, G
    #[arg(long, value_name = "SIZE", default_value = "1G", value_parser = parse_size)]
    memory: usize,
}

/// Changes that are lent room for at first.
const FEW: usize = 1024;

/// The library's answer, and the list. Room for more changes is lent until they fit.
fn mended(job: &Job, built: &mut Built) -> Done<(Mended, Vec<u32>)> {
    let Built { height, answer, lent, .. } = built;
    let mut work = memory::area(0, mend_work_size(lent.plan.len()))?;
    let enough = mend_list_size(*height, answer.stages);
    let mut size = enough.min(FEW * placer::CHANGE);
    loop {
        let mut list = memory::area(0, size)?;
        let plan = Damaged { cells: &mut lent.plan, words: &lent.words, counts: &lent.counts, stages: answer.stages };
        let told = mend_plan(*height, &job.gates, &job.given, &job.records, plan, &mut list, &mut work);
        if told.number != 24 || size >= enough {
            return Ok((told, list));
        }
        size = enough.min(size.saturating_mul(2));
    }
}

/// What a cell is, as people say it.
fn cell(height: u32, position: usize, cell: Cell) -> String {
    let pin = match cell.pin() {
        None => return "empty".to_string(),
        Some(pin) => pin,
    };
    if cell.0 >> 19 > 0 || (!cell.ands() && cell.0 != pin) {
        return format!("the number {}, which is no cell", cell.0);
    }
    let inverted = match (cell.first_inversion(), cell.second_inversion()) {
        (false, false) => "",
        (true, false) => ", the first inverted",
        (false, true) => ", the second inverted",
        (true, true) => ", both inverted",
    };
    match (cell.ands(), height == depth(position)) {
        (true, _) => format!("pin {pin}, the AND of its lower cells{inverted}"),
        (false, true) => format!("pin {pin}, loaded"),
        (false, false) => format!("pin {pin}, copied"),
    }
}

fn line(height: u32, change: &Change) -> String {
    let position = change.position as usize;
    let (old, new) = (cell(height, position, change.old), cell(height, position, change.new));
    format!("stage {}, {}: was {old}; is {new}\n", change.stage, place(height, position))
}

/// The pins of a graph without loops, each behind its operands.
fn ordered(gates: &[u32]) -> Done<Vec<u32>> {
    let pins = gates.len() / 2;
    let (mut order, mut met, mut way) = (Vec::new(), memory::area(0u8, pins)?, Vec::new());
    memory::more(&mut order, pins)?;
    for top in 0..pins {
        memory::more(&mut way, 1)?;
        way.push(top);
        while let Some(&pin) = way.last() {
            // met once: its operands were put on the way; twice: they are in order
            if met[pin] == 2 {
                way.pop();
                continue;
            }
            met[pin] += 1;
            if met[pin] == 2 {
                order.push(pin as u32);
                way.pop();
            } else if gates[2 * pin] != EMPTY {
                memory::more(&mut way, 2)?;
                way.extend([gates[2 * pin + 1], gates[2 * pin]].map(|literal| literal as usize / 2).into_iter().filter(|&under| met[under] == 0));
            }
        }
    }
    Ok(order)
}

/// The plan as the library had mended it when it refused it with 22, which leaves the plan as it was: made again, only to be looked at.
fn rebuilt(job: &Job, built: &Built) -> Done<Vec<u32>> {
    let (gates, height) = (&job.gates, built.height);
    let (pins, size) = (gates.len() / 2, stage_size(height));
    let mut plan = memory::area(EMPTY, built.lent.plan.len())?;
    plan.copy_from_slice(&built.lent.plan);
    let order = ordered(gates)?;
    let (mut stop, mut levels, mut fixed) = (memory::area(false, pins)?, memory::area(0u32, pins)?, memory::area(EMPTY, size)?);
    job.given.iter().for_each(|&pin| stop[pin as usize] = true);
    for stage in plan.chunks_exact_mut(size).take(built.answer.stages) {
        for pin in order.iter().map(|&pin| pin as usize) {
            let under = |side: usize| levels[gates[2 * pin + side] as usize / 2];
            levels[pin] = if stop[pin] || gates[2 * pin] == EMPTY { 0 } else { 1 + under(0).max(under(1)) };
        }
        fixed.fill(EMPTY);
        for position in 1..size {
            let pin = match if fixed[position] == EMPTY { Cell(stage[position]).pin() } else { Some(fixed[position]) } {
                Some(pin) if pin > 0 && (pin as usize) < pins => pin,
                _ => continue,
            };
            let (here, (first, second)) = (height - depth(position), lower(position));
            let level = levels[pin as usize];
            if level < here {
                stage[position] = pin;
                fixed[first] = pin;
            } else if level == here && here == 0 {
                stage[position] = pin;
            } else if level == here {
                let [one, other] = [0, 1].map(|side| gates[2 * pin as usize + side]);
                stage[position] = Cell::and(pin, one % 2 == 1, other % 2 == 1).0;
                fixed[first] = one / 2;
                fixed[second] = other / 2;
            }
        }
        for cell in &stage[1..size / 2] {
            if let Some(mark) = Cell(*cell).pin().and_then(|pin| stop.get_mut(pin as usize)) {
                *mark = true;
            }
        }
    }
    Ok(plan)
}

/// What is wrong with the mended plan.
fn wrong(name: &str, job: &Job, mut built: Built, stage: usize, position: usize) -> Done<String> {
    built.lent.plan = rebuilt(job, &built)?;
    let found = check_plan(built.height, &job.gates, &job.given, &job.records, built.plan());
    match (found.number, found.stage, found.position) == (22, stage, position) {
        true => fault::said(&format!("{name}, mended"), job, &built, stage, position),
        false => Ok(why::numbered(&format!("{name}, mended"), 22)),
    }
}

pub fn run(args: &Args) -> Done<()> {
    if args.file.as_os_str() == "-" && args.sheet.as_os_str() == "-" {
        return Err(End::Stopped("placer: file and plan sheet can't both be standard input".to_string()));
    }
    let job = job::accepted(&args.file, args.memory)?;
    let space = Space { height: None, rooms: None, memory: args.memory };
    let mut out = Out::standard();
    let (name, mut built) = match sheet::load(&args.sheet, &job, &space, For::Mend)? {
        (name, sheet::Read::Plan(built)) => (name, built),
        (_, sheet::Read::Refused { number, said }) => {
            out.put(refusal_line(number, 0, 0))?;
            out.flush()?;
            return Err(End::Refused(said));
        }
    };
    let (told, list) = mended(&job, &mut built)?;
    let said = match told.number {
        0 => {
            sheet::write(&name, &built, &args.out)?;
            built.answer.cells = sheet::filled(&built.lent.plan);
            let Answer { stages, words, cells, .. } = built.answer;
            let what = if told.count == 0 { "accepted".to_string() } else { format!("mended changes {}", told.count) };
            out.put(format!("{what} stages {stages} words {words} cells {cells}\n"))?;
            for change in changes(&list, told.count) {
                out.put(line(built.height, &change))?;
            }
            if told.count == 0 {
                out.put("nothing to mend\n")?;
            }
            return out.flush();
        }
        22 => {
            out.put(format!("refused 22 stage {} position {}\n", told.stage, told.position))?;
            wrong(&name, &job, built, told.stage, told.position)?
        }
        number => {
            out.put(refusal_line(number, 0, told.pin))?;
            why::lists(&job, built.height, number, 0, told.pin, built.lent.rooms, &[])
        }
    };
    out.flush()?;
    Err(End::Refused(said))
}
