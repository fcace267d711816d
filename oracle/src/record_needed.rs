//! Recorded answers of the proved library, whose word rule the published Rust doesn't have, in the text of PROTOCOL.md.
//! They are small, so that the checker can compute what the definitions give.
use crate::case::{Case, EMPTY};
use crate::check;
use crate::compare;
use crate::compare_merge;
use crate::merge::{self, Answer, Merge};
use crate::order;
use crate::parting::parting;
use crate::placer;
use crate::published::{self, Outcome, Part, Rust};
use crate::random::{self, Random};
use crate::rules::{built, Built};
use std::{fs, io, path::Path};

const SEED: u64 = 2027;
const HEIGHTS: [u32; 3] = [6, 7, 8];

/// More than any of them takes, so that 9 never comes up.
const ROOMS: usize = 200;

/// What the checker can compute.
const MOST_PINS: usize = 150;
const MOST_NUMBERS: usize = 320;
const MERGE_PINS: usize = 80;
const MERGE_RECORDS: usize = 24;

/// How many builds of each height are recorded for what. Half of each have their pins shuffled.
const BUILDS: [usize; 8] = [
    4, 6, 4, // refused with 6, 7 and 8
    4, 6, // one stage and several, the same by both rules
    6, // other words or cells by the old rule, in as many stages
    4, // more stages by the old rule
    6, // refused by the old rule alone
];

/// The same of merges.
const MERGES: [usize; 4] = [
    2, 2, // refused with 6, and with 7 or 8
    2, // unions that fail
    4, // another answer by the old rule
];

/// How many are still to come of each height and kind, in order and shuffled.
struct Wanted<const N: usize>([[[usize; 2]; N]; HEIGHTS.len()]);

impl<const N: usize> Wanted<N> {
    fn new(kinds: [usize; N]) -> Self {
        Wanted([kinds.map(|many| [many / 2; 2]); HEIGHTS.len()])
    }

    /// Whether one of this kind is taken at a turn; then fewer are to come.
    fn take(&mut self, turn: Turn, kind: usize) -> bool {
        let left = &mut self.0[turn.height][kind][turn.shuffled as usize];
        let taken = *left > 0;
        *left -= taken as usize;
        taken
    }

    fn done(&self) -> bool {
        self.0.iter().flatten().flatten().all(|&left| left == 0)
    }
}

/// What is drawn at an index: the height's place in HEIGHTS, and whether pins are shuffled.
#[derive(Clone, Copy)]
struct Turn {
    height: usize,
    shuffled: bool,
}

impl Turn {
    fn new(index: u64) -> Self {
        Turn { height: index as usize / 2 % HEIGHTS.len(), shuffled: index % 2 == 1 }
    }
}

/// A case that passes the checks, in areas of the right sizes; half of them near a limit.
fn drawn(r: &mut Random, turn: Turn, fits: &dyn Fn(&Case) -> bool) -> Case {
    let height = HEIGHTS[turn.height];
    loop {
        let case = match r.between(0, 3) {
            0 => random::limit(r, height),
            1 => random::tight(r, height),
            _ => random::case(r.next(), 0, height),
        };
        let mut case = Case { rooms: 0, beyond: [0; 4], ..case };
        if fits(&case) && check::input(&case) == 0 {
            if turn.shuffled {
                order::shuffle(r, &mut case);
            }
            return case;
        }
    }
}

/// The place in BUILDS; None where there is no stage. The published Rust has the old rule.
fn build_kind(case: &Case, new: &placer::Answer) -> Option<usize> {
    let (old, _) = published::build(case.height, &published::graph(Rust::Published, case));
    match (&old, new.number) {
        (_, number @ 6..=8) => Some(number as usize - 6),
        (_, 0) if new.stages == 0 => None,
        (Outcome::Whole(stages), 0) if new.stages < stages.len() => Some(6),
        (Outcome::Whole(stages), 0) => match parting(case, &case.split(), stages).unwrap_or_else(|what| panic!("{what}")) {
            Some(_) => Some(5),
            None => Some(if new.stages == 1 { 3 } else { 4 }),
        },
        (Outcome::Refused { number: 6..=8, .. }, 0) => Some(7),
        _ => panic!("the library answers {new:?}"),
    }
}

fn builds() -> Vec<(Case, Built)> {
    let (mut wanted, mut out, mut index) = (Wanted::new(BUILDS), Vec::new(), 0);
    while !wanted.done() {
        let turn = Turn::new(index);
        let fits = |case: &Case| case.pins() <= MOST_PINS && case.records.len() <= MOST_NUMBERS;
        let case = drawn(&mut Random::new(SEED.rotate_left(40) ^ index), turn, &fits);
        index += 1;
        let new = built(&case, ROOMS);
        if build_kind(&case, &new.answer).map_or(false, |kind| wanted.take(turn, kind)) {
            // The Rust with one line changed must give the same.
            compare::compare(&case).unwrap_or_else(|(what, _)| panic!("{what}"));
            out.push((case, new));
        }
    }
    out
}

/// A build's answer in the form of PROTOCOL.md.
fn build_text(name: &str, case: &Case, built: &Built) -> String {
    let line = |name: &str, items: Vec<String>| format!("{name} {}\n", if items.is_empty() { "-".into() } else { items.join(" ") });
    let mut out = format!("case {name}\n");
    if built.answer.number != 0 {
        out += &format!("none {} stage {}\n", built.answer.number, built.answer.stage);
    }
    let mut words = built.words.iter();
    for (stage, plan) in built.plan.chunks(case.stage_size()).take(built.answer.stages).enumerate() {
        let filled = plan.iter().map(|&cell| compare::pin_of(cell)).enumerate().filter(|&(_, pin)| pin != EMPTY);
        out += &format!("stage {}\n", stage + 1);
        out += &line("words", words.by_ref().take(built.counts[stage] as usize).map(u32::to_string).collect());
        out += &line("cells", filled.map(|(position, pin)| format!("{position}:{pin}")).collect());
    }
    out + "end\n"
}

/// The library's answer to a merge. It gives the sums of words and cells alone; those of a partition are counted by a build of its records.
fn merged(merge: &Merge) -> Answer {
    let (answer, groups) = compare_merge::merged(merge, ROOMS);
    if answer.number != 0 {
        return Answer::Refused { number: answer.number, stage: answer.stage, part: answer.refused };
    }
    let [indices, lengths, stages] = groups;
    let (records, mut rest) = (merge.case.split(), &indices[..]);
    let mut parts = Vec::new();
    for (&length, &stages) in lengths.iter().zip(&stages).take(answer.partitions) {
        let (part, behind) = rest.split_at(length as usize);
        rest = behind;
        let chosen = part.iter().flat_map(|&record| records[record as usize].clone()).collect();
        let alone = built(&Case { records: chosen, ..merge.case.clone() }, ROOMS).answer;
        assert_eq!((alone.number, alone.stages), (0, stages as usize));
        parts.push(Part { records: part.iter().map(|&record| record as usize).collect(), stages: alone.stages, words: alone.words, cells: alone.cells });
    }
    assert_eq!(parts.iter().map(|part| part.words).sum::<usize>(), answer.words);
    assert_eq!(parts.iter().map(|part| part.cells).sum::<usize>(), answer.cells);
    Answer::Whole { parts, trials: answer.trials }
}

/// The place in MERGES, if any.
fn merge_kind(merge: &Merge, old: &Answer, new: &Answer) -> Option<usize> {
    let full = merge.parts.iter().filter(|part| !part.is_empty()).count();
    match new {
        Answer::Refused { number, .. } => Some(if *number == 6 { 0 } else { 1 }),
        Answer::Whole { .. } if old.text("") != new.text("") => Some(3),
        Answer::Whole { parts, trials } => Some(2).filter(|_| *trials > full - parts.len()),
    }
}

fn merges() -> Vec<(Merge, Answer)> {
    let (mut wanted, mut out, mut index) = (Wanted::new(MERGES), Vec::new(), 0);
    while !wanted.done() {
        let turn = Turn::new(index);
        let mut r = Random::new((SEED + 1).rotate_left(40) ^ index);
        index += 1;
        let fits = |case: &Case| case.pins() <= MERGE_PINS && (2..=MERGE_RECORDS).contains(&case.split().len());
        let case = drawn(&mut r, turn, &fits);
        let merge = merge::random(&mut r, case);
        let old = merge::answer(&merge, &published::graph(Rust::Published, &merge.case)).unwrap_or_else(|what| panic!("{what}")).answer;
        let new = merged(&merge);
        if merge_kind(&merge, &old, &new).map_or(false, |kind| wanted.take(turn, kind)) {
            compare_merge::compare(&merge).unwrap_or_else(|(what, _)| panic!("{what}"));
            out.push((merge, new));
        }
    }
    out
}

/// `needed.cases` and `needed.answers` in this folder.
pub fn write(texts: &Path) -> io::Result<()> {
    let (builds, merges) = (builds(), merges());
    let (mut asked, mut told) = (String::new(), String::new());
    for (i, (case, built)) in builds.iter().enumerate() {
        let name = format!("b{}", i + 1);
        asked += &(case.lines(&name) + "build\nend\n");
        told += &build_text(&name, case, built);
    }
    for (i, (merge, answer)) in merges.iter().enumerate() {
        let name = format!("m{}", i + 1);
        asked += &merge.text(&name, None);
        told += &answer.text(&name);
    }
    println!("{} builds and {} merges of the library", builds.len(), merges.len());
    fs::write(texts.join("needed.cases"), asked)?;
    fs::write(texts.join("needed.answers"), told)
}
