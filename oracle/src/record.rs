//! Recorded answers for crates/try_vectors, as numbers of 16 bits: builds, then merges; first what the published Rust decides, builds up to the stage
//! where the word rules part, then whole what it doesn't decide whole, by the Rust with one line changed. The published Rust's merges in the text of
//! PROTOCOL.md too.
use crate::case::{Case, EMPTY};
use crate::check;
use crate::compare::stages_taken;
use crate::merge::{self, Answer, Merge, Ruled};
use crate::parting::parting;
use crate::published::{self, Outcome, Part, Rust, Stage};
use crate::random::{self, Random};
use crate::record_needed;
use std::collections::HashMap;
use std::{fs, io, path::Path};

const SEED: u64 = 2026;

/// What crates/try_vectors has room for.
const MOST_PINS: usize = 1023;
const MOST_RECORDS: usize = 1024;
const MOST_GIVEN: usize = 256;
const MOST_ROOMS: usize = 32;
const MOST_BODY: usize = 6000;
const MOST_INDICES: usize = 1024;
const MOST_PARTITIONS: usize = 64;
const MOST_PLAN: usize = 32_768;
const MOST_WORK: usize = 25_600;

/// The numbers of a build's head and of a merge's; so many zeros end a list of them.
const HEAD: usize = 17;
const MERGE_HEAD: usize = 20;

const BUILDS: usize = 300;
const EARLY: usize = 20;
/// At most so many builds that are alike: of one height, number and marks.
const ALIKE: usize = 4;
const MOST_BYTES: usize = 950_000;

/// Marks of a build, by bit.
const TAKEN_BACK: u16 = 1;
const TWICE: u16 = 2;
const SEVERAL: u16 = 4;
const GIVEN: u16 = 8;
const KIND: u16 = 16; // times 1, 2, 4, 8 for the record kinds 1 to 4
const MARKS: [&str; 8] = ["pins taken back", "a word twice in a stage", "several stages", "given pins",
                          "with outputs", "with flip-flops", "with memories", "with staged pins"];

/// A build or a merge as crates/try_vectors reads it.
struct Recorded {
    height: u32,
    number: u32,
    marks: u16,
    /// Stages whose cells and whose words are recorded.
    stages: [usize; 2],
    /// Whether that is all.
    whole: bool,
    /// Whether a stage before the last has several words recorded.
    early: bool,
    numbers: Vec<u16>,
}

fn twice(stage: &Stage) -> bool {
    (1..stage.words.len()).any(|i| stage.words[..i].contains(&stage.words[i]))
}

/// The cells in order: their position counted from the plan's start, and the pin.
fn cells(case: &Case, stages: &[Stage]) -> Vec<u16> {
    let mut out = Vec::new();
    for (s, stage) in stages.iter().enumerate() {
        for row in stage.rows.iter().rev() {
            for (cell, &pin) in row.iter().enumerate().filter(|(_, &pin)| pin != usize::MAX) {
                out.extend([(s * case.stage_size() + row.len() + cell) as u16, pin as u16]);
            }
        }
    }
    out
}

/// Whether there is room for a build, and gates are in order, as when all others were refused: the same builds must give the same plans.
fn fits(case: &Case) -> bool {
    let small = case.pins() <= MOST_PINS && case.records.len() <= MOST_RECORDS && case.given.len() <= MOST_GIVEN;
    small && case.in_order() && check::input(case) == 0
}

/// A build in that form, as far as this Rust decides it; None if it doesn't decide even the answer, or the build is too large.
fn build(case: &Case, rust: Rust) -> Option<Recorded> {
    let (outcome, seen) = published::build(case.height, &published::graph(rust, case));
    let taken = stages_taken(Some(&outcome));
    // Too few rooms where the case says so: 9 in the stage behind the last.
    let rooms = (taken as i64 + case.rooms).max(0) as usize;
    let parted = match &outcome {
        Outcome::Whole(stages) if rust == Rust::Published => parting(case, &case.split(), stages).unwrap_or_else(|what| panic!("{what}")).unwrap_or(0),
        Outcome::Refused { number: 7, .. } if rust == Rust::Published => return None,
        Outcome::Panicked => panic!("the Rust panics"),
        _ => 0,
    };
    let (number, stage, mut stages) = match outcome {
        _ if taken > rooms && parted > 0 && parted <= rooms => return None,
        _ if taken > rooms => (9, rooms + 1, Vec::new()),
        Outcome::Refused { number, stage } => (number, stage, Vec::new()),
        Outcome::Whole(stages) => (0, 0, stages),
        Outcome::Panicked => unreachable!(),
    };
    if rooms > MOST_ROOMS {
        return None;
    }
    let parted = if number == 0 { parted } else { 0 };
    let (most, whole) = (stages.len(), number == 0 && parted == 0);
    if parted > 0 {
        stages.truncate(parted);
    }
    let worded = if parted > 0 { &stages[..parted - 1] } else { &stages[..] };
    let mut marks = 0;
    marks |= TAKEN_BACK * (seen.reversed > 0) as u16;
    marks |= TWICE * worded.iter().any(twice) as u16;
    marks |= SEVERAL * (stages.len() > 1) as u16;
    marks |= GIVEN * !case.given.is_empty() as u16;
    for record in case.split() {
        marks |= KIND << (record[0] - 1);
    }
    let words: Vec<u16> = worded.iter().flat_map(|stage| stage.words.iter().map(|&word| word as u16)).collect();
    let counts: Vec<u16> = worded.iter().map(|stage| stage.words.len() as u16).collect();
    let cells = cells(case, &stages);
    let short = |numbers: &[u32]| numbers.iter().map(|&n| if n == EMPTY { 0 } else { n as u16 }).collect::<Vec<_>>();
    let body = [&short(&case.gates)[..], &short(&case.given), &short(&case.records), &words, &counts, &cells].concat();
    if body.len() > MOST_BODY {
        return None;
    }
    let head: [usize; HEAD] = [
        body.len(), case.height as usize, case.gates.len(), case.given.len(), case.records.len(),
        rooms * case.stage_size(), case.word_limit(), rooms, case.work_size(),
        number as usize, most, words.len(), stage, cells.len() / 2, parted, parted * case.stage_size(), marks as usize,
    ];
    let numbers = head.iter().map(|&n| u16::try_from(n).unwrap()).chain(body).collect();
    let early = worded.iter().take(stages.len().max(1) - 1).any(|stage| stage.words.len() > 1);
    Some(Recorded { height: case.height, number, marks, stages: [stages.len(), counts.len()], whole, early, numbers })
}

/// What is printed of a list if all agree, behind its name: how much is compared of those that aren't refused, then the refusals, marks and heights.
fn tally(kept: &[Recorded], name: &str, compared: &str, all: &str, refusals: &[u32], marks: &[&str]) -> String {
    let count = |has: &dyn Fn(&Recorded) -> bool| kept.iter().filter(|one| has(one)).count();
    let mut out = format!("{name}\n{compared}\n");
    for &number in refusals {
        out += &format!("refused with {number}: {}\n", count(&|one| one.number == number));
    }
    for (bit, name) in marks.iter().enumerate() {
        out += &format!("{name} {}\n", count(&|one| one.marks >> bit & 1 == 1));
    }
    for height in 6..=9 {
        out += &format!("height {height}: {}\n", count(&|one| one.height == height));
    }
    out + &format!("{} {all} agree, 0 differ\n", kept.len())
}

fn build_tally(kept: &[Recorded], name: &str) -> String {
    let sum = |whole: bool| {
        let mut sum = [0; 3];
        for one in kept.iter().filter(|one| one.number == 0 && one.whole == whole) {
            sum.iter_mut().zip([1, one.stages[0], one.stages[1]]).for_each(|(sum, n)| *sum += n);
        }
        sum
    };
    let ([whole, stages, _], [part, cells, words]) = (sum(true), sum(false));
    let compared = format!("the whole plan compared: {whole} builds, {stages} stages\nup to the stage where the word rules part: {part} builds, cells of {cells} stages, words of {words}");
    tally(kept, name, &compared, "builds", &[6, 7, 8, 9], &MARKS)
}

fn merge_tally(kept: &[Recorded], name: &str) -> String {
    let merged = kept.iter().filter(|one| one.number == 0).count();
    tally(kept, name, &format!("merged {merged}"), "merges", &[6, 7, 8], &MERGE_MARKS)
}

/// Builds of random cases, few of them alike, then those with several words in an early stage, which are rare: what the published Rust decides; and what
/// it doesn't decide whole, by the Rust with one line changed.
fn drawn_builds() -> [Vec<Recorded>; 2] {
    let (mut alike, mut size, mut kept) = (HashMap::new(), 0, [Vec::new(), Vec::new()]);
    for index in 0.. {
        let height = 6 + (index % 4) as u32;
        let case = random::case(SEED, index, height);
        if !fits(&case) {
            continue;
        }
        let found = build(&case, Rust::Published);
        let undecided = found.as_ref().map_or(true, |one| one.number == 0 && !one.whole);
        let other = if undecided { build(&case, Rust::Changed) } else { None };
        // Of those that it doesn't decide whole only what both lists have room for.
        if undecided && other.is_none() {
            continue;
        }
        let one = other.as_ref().or(found.as_ref()).unwrap();
        if kept[0].len() < BUILDS {
            let so_far = alike.entry((height, undecided, one.number, one.marks)).or_insert(0);
            if *so_far == ALIKE {
                continue;
            }
            *so_far += 1;
        } else if !found.as_ref().map_or(false, |one| one.early) {
            continue;
        }
        for (list, one) in kept.iter_mut().zip([found, other]) {
            size += one.as_ref().map_or(0, |one| 2 * one.numbers.len());
            list.extend(one);
        }
        if kept[0].len() == BUILDS + EARLY {
            break;
        }
    }
    assert!(size <= MOST_BYTES);
    println!("{} builds of the published Rust, {} of the one with a line changed, {size} bytes", kept[0].len(), kept[1].len());
    kept
}

const MERGES: usize = 120;
const MERGE_GATES: usize = 150;
const MERGE_RECORDS: usize = 60;
/// At most so many that are refused, that examine no union, and that examine one or two.
const DULL: [usize; 3] = [12, 8, 24];
/// So many more whose unions mostly fail, and that are refused with 8.
const CROWDED: usize = 8;
const FULL: usize = 4;

/// Marks of a merge, by bit.
const MERGE_MARKS: [&str; 8] = ["unions that fail", "a block not begun", "over 30 partitions", "more stages than before",
                                "no extra stages allowed", "a group twice", "an empty partition", "given pins"];

fn merge_marks(merge: &Merge, ruled: &Ruled, rust: Rust) -> u16 {
    let parts = merge.split();
    let (full, seen) = (parts.iter().filter(|part| !part.is_empty()).count(), parts.concat());
    let twice = (1..seen.len()).any(|i| seen[..i].contains(&seen[i]));
    let graph = published::graph(rust, &merge.case);
    let stages = |part: &Vec<usize>| match published::build_records(merge.case.height, &graph, part).0 {
        Outcome::Whole(stages) => stages.len(),
        _ => usize::MAX,
    };
    let most = parts.iter().map(stages).max().unwrap();
    let (failed, deeper) = match &ruled.answer {
        Answer::Whole { parts, trials } => (*trials > full - parts.len(), parts.iter().any(|part| part.stages > most)),
        Answer::Refused { .. } => (false, false),
    };
    let has = [failed, ruled.not_begun, parts.len() > 30, deeper, merge.extra == 0, twice, full < parts.len(), !merge.case.given.is_empty()];
    has.iter().enumerate().map(|(bit, &on)| (on as u16) << bit).sum()
}

/// A merge in the form that crates/try_vectors reads; it has room for all that are recorded.
fn recorded(merge: &Merge, ruled: &Ruled, rust: Rust) -> Recorded {
    let (case, rooms) = (&merge.case, ruled.deepest);
    let (indices, lengths, _) = merge.list();
    let none = Vec::new();
    let (number, stage, refused, trials, parts) = match &ruled.answer {
        Answer::Refused { number, stage, part } => (*number, *stage, *part, 0, &none),
        Answer::Whole { parts, trials } => (0, 0, 0, *trials, parts),
    };
    let sum = |of: &dyn Fn(&Part) -> usize| parts.iter().map(of).sum::<usize>();
    let short = |numbers: &[u32]| numbers.iter().map(|&n| if n == EMPTY { 0 } else { u16::try_from(n).unwrap() }).collect::<Vec<_>>();
    let left = |of: &dyn Fn(&Part) -> Vec<usize>| parts.iter().flat_map(of).map(|n| n as u16).collect::<Vec<_>>();
    let body = [
        short(&case.gates), short(&case.given), short(&case.records), short(&indices), short(&lengths),
        left(&|part| part.records.clone()), left(&|part| vec![part.records.len()]), left(&|part| vec![part.stages]),
    ].concat();
    let (plan, work) = (rooms * case.stage_size(), merge.work_size());
    assert!(case.pins() <= MOST_PINS && case.records.len() <= MOST_RECORDS && case.given.len() <= MOST_GIVEN && body.len() <= MOST_BODY);
    assert!(indices.len() <= MOST_INDICES && lengths.len() <= MOST_PARTITIONS);
    assert!(rooms <= MOST_ROOMS && plan <= MOST_PLAN && work <= MOST_WORK);
    let marks = merge_marks(merge, ruled, rust);
    let head: [usize; MERGE_HEAD] = [body.len(), case.height as usize, case.gates.len(), case.given.len(), case.records.len(), indices.len(), lengths.len(),
                merge.extra, plan, case.word_limit(), rooms, work,
                number as usize, sum(&|part| part.stages), sum(&|part| part.words), stage, parts.len(), trials, refused, marks as usize];
    let numbers = head.iter().map(|&n| u16::try_from(n).unwrap()).chain(body).collect();
    Recorded { height: case.height, number, marks, stages: [0; 2], whole: true, early: false, numbers }
}

fn answered(merge: &Merge, rust: Rust) -> Ruled {
    merge::answer(merge, &published::graph(rust, &merge.case)).unwrap_or_else(|what| panic!("{what}"))
}

/// Merges of random cases, few of them dull, then crowded ones, then those with a partition that level 1 is too small for.
fn drawn_merges() -> Vec<(Merge, Ruled)> {
    let (mut out, mut dull) = (Vec::new(), [0; 3]);
    for index in 0.. {
        let case = random::case(SEED + 1, index, 6 + (index % 4) as u32);
        let records = case.split().len();
        if check::input(&case) != 0 || case.gate_count() > MERGE_GATES || records < 2 || records > MERGE_RECORDS {
            continue;
        }
        let merge = merge::random(&mut Random::new(index), case);
        let ruled = answered(&merge, Rust::Published);
        let kind = match &ruled.answer {
            Answer::Refused { .. } => Some(0),
            Answer::Whole { trials: 0, .. } => Some(1),
            Answer::Whole { trials: 1 | 2, .. } => Some(2),
            Answer::Whole { .. } => None,
        };
        if let Some(kind) = kind {
            dull[kind] += 1;
            if dull[kind] > DULL[kind] {
                continue;
            }
        }
        out.push((merge, ruled));
        if out.len() == MERGES {
            break;
        }
    }
    for index in 0.. {
        let merge = merge::crowded(&mut Random::new(SEED + index), 6 + (index % 2) as u32);
        let ruled = answered(&merge, Rust::Published);
        if ruled.not_begun && merge.list().0.len() <= MOST_INDICES && merge.work_size() <= MOST_WORK {
            out.push((merge, ruled));
        }
        if out.len() == MERGES + CROWDED {
            break;
        }
    }
    for index in 0.. {
        let merge = merge::drawn(SEED, index, 6 + (index % 4) as u32);
        if !check::merge_input(&merge) || merge.list().0.len() > MERGE_RECORDS || merge.case.records.len() > MOST_RECORDS {
            continue;
        }
        let ruled = answered(&merge, Rust::Published);
        if let Answer::Refused { number: 8, .. } = ruled.answer {
            out.push((merge, ruled));
        }
        if out.len() == MERGES + CROWDED + FULL {
            break;
        }
    }
    out
}

/// The merges that the published Rust decides whole, and the others by the Rust with one line changed. The published Rust's answers to all of them go
/// as text to this folder.
fn merges(texts: &Path) -> io::Result<[Vec<Recorded>; 2]> {
    let (mut asked, mut told, mut kept, mut trials, mut parts) = (String::new(), String::new(), [Vec::new(), Vec::new()], 0, 0);
    for (i, (merge, ruled)) in drawn_merges().iter().enumerate() {
        if let Answer::Whole { trials: n, .. } = ruled.answer {
            trials += n;
        }
        parts += merge.parts.len();
        asked += &merge.text(&format!("m{}", i + 1), None);
        told += &ruled.answer.text(&format!("m{}", i + 1));
        if ruled.decided {
            kept[0].push(recorded(merge, ruled, Rust::Published));
        } else {
            kept[1].push(recorded(merge, &answered(merge, Rust::Changed), Rust::Changed));
        }
    }
    let bytes = 2 * kept.iter().flatten().map(|one| one.numbers.len()).sum::<usize>();
    println!("{} merges that the published Rust decides, {} of the one with a line changed; all of {parts} partitions, {trials} unions examined by the published one, {bytes} bytes",
             kept[0].len(), kept[1].len());
    fs::write(texts.join("merges.cases"), asked)?;
    fs::write(texts.join("merges.answers"), told)?;
    Ok(kept)
}

/// `stdin` and `stdout` in the first folder, the merges' text in the second.
fn write(folder: &Path, texts: &Path) -> io::Result<()> {
    let ([decided, builds], [decided_merges, merges]) = (drawn_builds(), merges(texts)?);
    let numbers = |kept: &[Recorded], head: usize| kept.iter().flat_map(|one| one.numbers.clone()).chain(vec![0; head]).collect::<Vec<_>>();
    let read = [numbers(&decided, HEAD), numbers(&builds, HEAD), numbers(&decided_merges, MERGE_HEAD), numbers(&merges, MERGE_HEAD)].concat();
    let told = build_tally(&decided, "recorded builds of the published code")
        + &build_tally(&builds, "recorded builds of the code with one line changed")
        + &merge_tally(&decided_merges, "recorded merges of the published code")
        + &merge_tally(&merges, "recorded merges of the code with one line changed");
    fs::write(folder.join("stdin"), read.iter().flat_map(|n| n.to_le_bytes()).collect::<Vec<_>>())?;
    fs::write(folder.join("stdout"), told)
}

pub fn record(vectors: &str, texts: &str) -> bool {
    write(Path::new(vectors), Path::new(texts)).expect(vectors);
    record_needed::write(Path::new(texts)).expect(texts);
    true
}
