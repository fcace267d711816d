//! Two of the scope document's bench examples at height 6. Pins 1 to 4 are leaves, 5 = (2, 4), 6 = (6, 9), 7 = (10, 12), output 14: as a job file, which is
//! read back, built in D + 1 rooms, listed, with what each cell does, and folded; and built with too few counts; and what is told who asks for the old word
//! rule, of a build, an explanation and a merge. D of a chain of 60 gates, and with a given pin near its end. A merge: the leaf outputs 2 and 4, a partition
//! each, no extra stages. The first example's plan as a sheet, which is read back and listed again, into too few words, cut, and of an unknown number; and its
//! sheet 1, as earlier versions wrote it, with its graph and without. The same plan checked, whole, with a cell damaged and with its word not written, and
//! replayed, with a flip-flop from pin 7 to leaf 4; and mended, as it is, with cells damaged, with too short a list, and with a top that nothing tells. Builds
//! explained: 30 and 31 leaf outputs with a gate of level 2, a list that is too short, words that run out, a memory. And the AIGER document's half adder, read
//! whole and cut, and written again, with its two unused variables as inputs.
#[allow(dead_code)] // not all of it is shown
#[path = "placer.rs"]
mod placer;

use placer::{build, build_by, changes, check_plan, depth, explain, explain_by, fold, lines, list_answer, mend_plan, merge, merge_by, read_aiger, read_job};
use placer::{read_sheet, replay_plan, reserved, write_aiger, write_job, write_sheet};
use placer::{Answer, Areas, Cell, Checked, Damaged, Explained, Groups, Line, Mended, Merged, Plan, Recording, Refusal, Run, Tape, WordRule, EMPTY as E};

const GATES: [u32; 16] = [E, E, E, E, E, E, E, E, E, E, 2, 4, 6, 9, 10, 12];
const RECORDS: [u32; 2] = [1, 14];

/// The same plan as version 0.6.0 wrote it: sheet 1, pins alone.
const SHEET_ONE: [u8; 37] = [
    0x01, 0x60, 0x00, 0x10, 0x00, 0x10, 0x00, 0x00, 0x10, 0x00, 0x70, 0x00, 0x10, 0x00, 0x50, 0x00, 0x10, 0x00, 0x60, 0x00,
    0x10, 0x00, 0x10, 0x00, 0x10, 0x00, 0x30, 0x00, 0x10, 0x00, 0x20, 0x00, 0x10, 0x00, 0x40, 0x00, 0x00,
];

/// What each filled cell of a plan does: the plan alone tells.
fn show_cells(height: u32, plan: &[u32]) {
    let size = placer::stage_size(height);
    for (p, cell) in plan.iter().map(|&cell| Cell(cell)).enumerate() {
        match cell.pin() {
            None => {}
            Some(pin) if cell.ands() => println!("position {p}: pin {pin} ANDs, inversions {} {}", cell.first_inversion() as u32, cell.second_inversion() as u32),
            Some(pin) => println!("position {p}: pin {pin} is {}", if p % size < size / 2 { "copied" } else { "loaded" }),
        }
    }
}

/// The file of the job, and the job of the file, which is built, listed and folded, with leaf 4 at 0 and the others at 1.
fn job() {
    let mut file = [0; placer::JOB_BYTES];
    let wrote = write_job(6, &GATES, &[], &RECORDS, &mut file);
    println!("file of {} bytes", wrote.length);

    let (mut gates, mut given, mut records) = ([0; placer::JOB_GATES], [0; placer::JOB_GIVEN], [0; placer::JOB_RECORDS]);
    let read = read_job(&file[..wrote.length], &mut gates, &mut given, &mut records);
    let height = read.height;
    let (gates, given, records) = (&gates[..read.gates], &given[..read.given], &records[..read.records]);

    let mut work = vec![0; placer::build_work_size(gates.len(), records.len())];
    let deep = depth(gates, given, records, &mut work).depth;
    let rooms = deep + 1;
    println!("D {deep}, so {rooms} rooms");
    println!("reserved {} of {} words", reserved(gates, given, records, &mut work).words, placer::words_size(height));

    let mut plan = vec![0; placer::plan_size(height, rooms)];
    let mut words = vec![0; placer::words_size(height)];
    let mut counts = vec![0; rooms];
    let areas = Areas { plan: &mut plan, words: &mut words, counts: &mut counts, work: &mut work };
    let built = build(height, gates, given, records, areas);

    let mut out = vec![0; placer::listing_size(height, built.stages, built.words)];
    let listed = list_answer(height, &built, &plan, &words, &counts, &mut out);
    print!("{}", String::from_utf8_lossy(&out[..listed.length]));

    show_cells(height, &plan);

    // the fold needs no graph, and bits for the leaves alone
    let mut result = vec![0; plan.len()];
    let mut looks = vec![0; placer::FOLD_WORK];
    fold(height, &plan, &[0, 1, 1, 1, 0], &mut result, &mut looks);
    for p in (0..plan.len()).filter(|p| Cell(plan[*p]).pin() == Some(7)) {
        println!("pin 7 at position {p} folds to {}", result[p]);
    }
}

/// The same in a room without its count.
fn uncounted() {
    let (mut plan, mut words, mut work) = ([0; 128], [0; 2], [0; 16 * 8 + 8 * 2 + 512]);
    let areas = Areas { plan: &mut plan, words: &mut words, counts: &mut [], work: &mut work };
    if let Some(refusal) = Refusal::of(build(6, &GATES, &[], &RECORDS, areas).number) {
        println!("without counts: {refusal}");
    }
}

/// The old word rule asked for: at height 6, where a build, an explanation or a merge of the one record is else accepted, and at none.
fn old_rule() {
    for (call, name) in ["a build", "an explanation", "a merge"].into_iter().enumerate() {
        let right = [6, 5].into_iter().all(|height| {
            let (mut plan, mut words, mut counts, mut work, mut list) = ([7; 128], [7; 2], [7; 1], [7; 16 * 8 + 8 * 2 + 512 + 8 + 8], [7; 36]);
            let (mut indices, mut lengths, mut stages) = ([0], [1], [7]);
            let areas = Areas { plan: &mut plan, words: &mut words, counts: &mut counts, work: &mut work };
            let refused = Answer { number: Refusal::OldRule as u32, ..Answer::default() };
            let told = match call {
                0 => build_by(WordRule::EveryRun, height, &GATES, &[], &RECORDS, areas) == refused,
                1 => explain_by(WordRule::EveryRun, height, &GATES, &[], &RECORDS, areas, &mut list) == Explained { answer: refused, lines: 0 },
                _ => {
                    let groups = Groups { indices: &mut indices, lengths: &mut lengths, stages: &mut stages };
                    merge_by(WordRule::EveryRun, height, &GATES, &[], &RECORDS, groups, 0, areas) == Merged { number: refused.number, ..Merged::default() }
                }
            };
            told && [&plan[..], &words, &counts, &work, &list, &stages].concat().iter().all(|&number| number == 7) && (indices, lengths) == ([0], [1])
        });
        if right {
            println!("{name} by the old rule: {}; nothing is changed", Refusal::OldRule);
        }
    }
}

/// The sheet of its plan, and that plan again: the same listing. No graph is lent, since sheet 2 has the inversions.
fn sheet() {
    let (mut plan, mut words, mut counts, mut work) = ([0; 128], [0; 2], [0; 1], [0; 16 * 8 + 8 * 2 + 512]);
    let built = build(6, &GATES, &[], &RECORDS, Areas { plan: &mut plan, words: &mut words, counts: &mut counts, work: &mut work });
    let mut bytes = vec![0; placer::sheet_size(6, built.stages)];
    let wrote = write_sheet(6, built.stages, &plan, &words, &counts, &mut bytes);
    println!("sheet of {} bytes, of at most {}", wrote.length, bytes.len());

    let whole = plan;
    let (mut plan, mut words, mut counts) = ([0; 128], [0; 2], [0; 1]);
    let read = read_sheet(&[], &bytes[..wrote.length], &mut plan, &mut words, &mut counts);
    println!("height {} stages {} words {}", read.height, read.stages, read.words);
    let answer = Answer { stages: read.stages, words: read.words, ..Answer::default() };
    let mut out = vec![0; placer::listing_size(read.height, read.stages, read.words)];
    let listed = list_answer(read.height, &answer, &plan, &words, &counts, &mut out);
    print!("{}", String::from_utf8_lossy(&out[..listed.length]));

    for (first, length, room) in [(2, wrote.length, 1), (2, wrote.length - 1, 2), (3, wrote.length, 2)] {
        bytes[0] = first;
        let damaged = read_sheet(&[], &bytes[..length], &mut plan, &mut words[..room], &mut counts);
        if let Some(refusal) = Refusal::of(damaged.number) {
            println!("sheet: {refusal}");
        }
    }

    // from sheet 1, without its graph and with it: the cells as they are built
    if let Some(refusal) = Refusal::of(read_sheet(&[], &SHEET_ONE, &mut plan, &mut words, &mut counts).number) {
        println!("sheet 1 alone: {refusal}");
    }
    let read = read_sheet(&GATES, &SHEET_ONE, &mut plan, &mut words, &mut counts);
    println!("sheet 1 with its graph: {}", if read.number == 0 && plan == whole { "the same cells" } else { "other cells" });
}

/// What a plan that was handed in is answered.
fn judged(what: &str, answer: &Checked) {
    match Refusal::of(answer.number) {
        None => println!("{what}: accepted"),
        Some(Refusal::WrongPlan) => println!("{what}: refused 22 at stage {}, position {}: {}", answer.stage, answer.position, Refusal::WrongPlan.describe()),
        Some(refusal) => println!("{what}: {}", refusal.describe()),
    }
}

/// Pin 7 as an output, and as what a flip-flop takes that drives leaf 4: at each clock its bit, the flip-flop's enable and data.
const MACHINE: [u32; 5] = [1, 14, 2, 1, 14];

fn replaying(what: &str, plan: Plan<'_>) {
    // leaves 1, 2 and 3, four clocks
    let recording = Recording { driven: &[4], start: &[0], lines: 4, bits: &[1, 1, 1, 1, 1, 1, 0, 1, 1, 1, 1, 1] };
    let (mut out, mut end) = ([0; 12], [0; 1]);
    let size = placer::plan_size(6, plan.stages);
    let mut work = vec![0; placer::replay_plan_work_size(GATES.len(), MACHINE.len())];
    let mut tape = vec![0; placer::replay_tape_size(size)];
    let mut slots = vec![0; placer::replay_slots_size(MACHINE.len(), size)];
    let mut bits = vec![0; placer::replay_bits_size(GATES.len(), size)];
    let tape = Tape { tape: &mut tape, slots: &mut slots, bits: &mut bits };
    let answer = replay_plan(6, &GATES, &[], &MACHINE, recording, Run { out: &mut out, end: &mut end }, plan, &mut work, tape);
    judged(what, &answer);
    if answer.number == 0 {
        println!("pin 7 at four clocks: {} {} {} {}, and leaf 4 at the end: {}", out[0], out[3], out[6], out[9], end[0]);
    }
}

/// The plan that stands in the sheet, as one that was made elsewhere.
fn checking() {
    let (mut cells, mut words, mut counts) = ([0; 128], [0; 2], [0; 1]);
    read_sheet(&GATES, &SHEET_ONE, &mut cells, &mut words, &mut counts);
    let plan = Plan { cells: &cells, words: &words[..1], counts: &counts, stages: 1 };
    judged("plan", &check_plan(6, &GATES, &[], &MACHINE, plan));
    replaying("replay", plan);
    judged("plan without its word", &check_plan(6, &GATES, &[], &MACHINE, Plan { counts: &[0], ..plan }));
    let mut damaged = cells;
    damaged[48] = Cell::and(6, false, false).0; // the gate takes leaf 4 inverted
    let plan = Plan { cells: &damaged, ..plan };
    judged("damaged plan", &check_plan(6, &GATES, &[], &MACHINE, plan));
    replaying("replay of it", plan);
}

/// The plan of the sheet after some damage, mended in a list of so many numbers.
fn mending(what: &str, plan: Plan<'_>, list: usize) {
    let mut cells = plan.cells.to_vec();
    let (mut list, mut work) = (vec![0; list], vec![0; placer::mend_work_size(cells.len())]);
    let damaged = Damaged { cells: &mut cells, words: plan.words, counts: plan.counts, stages: plan.stages };
    let answer = mend_plan(6, &GATES, &[], &MACHINE, damaged, &mut list, &mut work);
    let Mended { number, stage, position, pin, count } = answer;
    match number {
        0 => println!("{what}: {count} changes"),
        _ => judged(what, &Checked { number, stage, position, pin }),
    }
    for change in changes(&list, count) {
        println!("stage {} position {}: {} becomes {}", change.stage, change.position, change.old.0, change.new.0);
    }
}

fn wet() {
    let (mut cells, mut words, mut counts) = ([0; 128], [0; 2], [0; 1]);
    read_sheet(&GATES, &SHEET_ONE, &mut cells, &mut words, &mut counts);
    let plan = Plan { cells: &cells, words: &words[..1], counts: &counts, stages: 1 };
    let enough = placer::mend_list_size(6, 1);
    mending("mending the plan", plan, 0);
    let mut damaged = cells;
    // under pin 7, which tells what they were
    (damaged[48], damaged[80], damaged[112]) = (Cell::and(5, true, false).0, E, Cell::plain(9).0);
    mending("mending three cells", Plan { cells: &damaged, ..plan }, enough);
    mending("in a list for two", Plan { cells: &damaged, ..plan }, 2 * placer::CHANGE);
    // a top: pin 6 stands here as well, and nothing tells that it was pin 7
    damaged[16] = Cell::and(6, false, true).0;
    mending("mending without its top", Plan { cells: &damaged, ..plan }, enough);
}

/// A build explained in two rooms, in a list of so many numbers.
fn explaining(what: &str, gates: &[u32], records: &[u32], list: usize) {
    let (mut plan, mut words, mut counts) = ([0; 256], [0; 2], [0; 2]);
    let (mut work, mut list) = (vec![0; placer::build_work_size(gates.len(), records.len())], vec![0; list]);
    let areas = Areas { plan: &mut plan, words: &mut words, counts: &mut counts, work: &mut work };
    let explained = explain(6, gates, &[], records, areas, &mut list);
    println!("{what}: number {}, {} lines", explained.answer.number, explained.lines);
    for line in lines(&list, explained.lines) {
        match line {
            Line::TakenBack { stage, pin, needed, filled, distinct } => {
                println!("stage {stage}: pin {pin} taken back, needed {needed}, filled {filled}, distinct {distinct}")
            }
            Line::OverReserved { limit, count, memories, duplicates } => println!("stage 0: refused 6, {count} over {limit}, of {memories} and {duplicates}"),
            Line::OverWords { stage, left, wanted } => println!("stage {stage}: refused 7, {wanted} over {left}, of 0 and 0"),
            Line::NoCell { stage, limit, filled, needed } => println!("stage {stage}: refused 8, {} over {limit}, of {filled} and {needed}", filled + needed),
        }
    }
}

fn why() {
    let enough = placer::explain_size(6, 2);
    for leaves in 30..=31 {
        // each an output; behind them a gate of leaves 1 and 2, and one of that and leaf 3, an output too
        let mut gates = vec![E; 2 * (leaves + 1)];
        gates.extend([2, 4, 2 * (leaves as u32 + 1), 6]);
        let records: Vec<u32> = (1..=leaves as u32).chain([leaves as u32 + 2]).flat_map(|pin| [1, 2 * pin]).collect();
        explaining(&format!("{leaves} leaves"), &gates, &records, enough);
        explaining("in a list for less", &gates, &records, (leaves - 29) * placer::LINE - 1);
    }
    explaining("words", &GATES, &[1, 14, 1, 15, 1, 2], enough);
    let mut memory = [0; 92];
    memory[0] = 3;
    explaining("a memory", &GATES, &memory, enough);
}

/// The chain of examples/split.txt: pins 1 and 2 are leaves, 3 = (2, 4), and each pin p after it (2 * (p - 1), 2).
fn splitting() {
    let mut chain = vec![E, E, E, E, E, E, 2, 4];
    chain.extend((4..=62).flat_map(|p| [2 * (p - 1), 2]));
    let mut work = [0; 16 * 63 + 8 * 2 + 512];
    let whole = depth(&chain, &[], &[1, 124], &mut work).depth;
    let split = depth(&chain, &[59], &[1, 124], &mut work).depth;
    println!("D {whole}, with pin 59 given {split}");
}

fn merging() {
    let (mut indices, mut lengths, mut stages) = ([0, 1], [1, 1], [0; 2]);
    let (mut plan, mut words, mut counts, mut work) = ([0; 128], [0; 2], [0; 1], [0; 16 * 3 + 8 * 4 + 512 + 8 * 2 + 8 * 2]);
    let groups = Groups { indices: &mut indices, lengths: &mut lengths, stages: &mut stages };
    let areas = Areas { plan: &mut plan, words: &mut words, counts: &mut counts, work: &mut work };
    let answer = merge(6, &[E; 6], &[], &[1, 2, 1, 4], groups, 0, areas);
    println!("number {} partitions {} trials {} cells {}", answer.number, answer.partitions, answer.trials, answer.cells);
    println!("groups {} {} stages {}", indices[0], indices[1], stages[0]);
}

fn aiger() {
    let file = b"aag 7 2 0 2 3\n2\n4\n6\n12\n6 13 15\n12 2 4\n14 3 5\n";
    let (mut gates, mut records, mut latches) = (vec![0; placer::AIGER_GATES], vec![0; placer::AIGER_RECORDS], vec![0; placer::AIGER_LATCHES]);
    let cut = read_aiger(&file[..file.len() - 1], &mut gates, &mut records, &mut latches);
    if let Some(refusal) = Refusal::of(cut.number) {
        println!("cut: refused {} at byte {}: {}", cut.number, cut.place, refusal.describe());
    }

    let read = read_aiger(file, &mut gates, &mut records, &mut latches);
    println!("gates {} records {} latches {}", read.gates, read.records, read.latches);
    let (gates, records, latches) = (&gates[..read.gates], &records[..read.records], &latches[..read.latches]);
    let mut out = vec![0; placer::aiger_size(gates.len(), records.len())];
    let wrote = write_aiger(gates, &[], records, latches, &mut out);
    print!("{}", String::from_utf8_lossy(&out[..wrote.length]));
}

fn main() {
    job();
    uncounted();
    old_rule();
    splitting();
    merging();
    sheet();
    checking();
    wet();
    why();
    aiger();
}
