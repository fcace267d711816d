//! Merges: random ones, the Rust's answers, and the unions that it examines.
use crate::case::{joined, Case, Sizes, EMPTY};
use crate::parting::parting;
use crate::published::{self, Graph, Merged, Outcome, Part, Rust};
use crate::random::{self, Random};
use std::collections::HashSet;

#[derive(Clone, Debug, PartialEq)]
pub struct Merge {
    pub case: Case,
    /// Record indices, partition after partition.
    pub parts: Vec<Vec<u32>>,
    pub extra: usize,
    /// What the indices, lengths and stage numbers are longer than the partitions say, or shorter.
    pub beyond: [i64; 3],
    /// A length that is not its partition's.
    pub wrong: Option<(usize, u32)>,
}

pub enum Answer {
    Whole { parts: Vec<Part>, trials: usize },
    Refused { number: u32, stage: usize, part: usize },
}

/// What the rules make of a merge, over the Rust's builds.
pub struct Ruled {
    pub answer: Answer,
    /// The most stages of a build, or the latest stage that refused one.
    pub deepest: usize,
    /// A round that ended with unions in blocks that were not begun.
    pub not_begun: bool,
    /// Whether every build that the merge makes, of a partition or a union, is the same by both word rules: whole without parting, or refused
    /// with 6 or 8. Then the merge is.
    pub decided: bool,
}

fn spread(r: &mut Random, case: Case, many: usize) -> Merge {
    let records = case.split().len();
    let count = if many < 4 { many } else { r.between(many / 2, many) };
    let mut parts = vec![Vec::new(); count];
    for record in 0..records {
        parts[r.between(0, count - 1)].push(record as u32);
        if r.chance(3) {
            parts[r.between(0, count - 1)].push(record as u32);
        }
    }
    Merge { case, parts, extra: r.pick(&[0, 0, 0, 1, 2, 255]), beyond: [0; 3], wrong: None }
}

/// The case's records spread over some partitions; now and then one stands twice.
pub fn random(r: &mut Random, case: Case) -> Merge {
    let many = r.pick(&[1, 2, 3, 10, 30, 60, 60]);
    spread(r, case, many)
}

/// Partitions whose unions mostly fail: leaf outputs that fill over half of level 1, or deep outputs that take most of the words. With over
/// 28 left, a round ends before it has examined all.
pub fn crowded(r: &mut Random, height: u32) -> Merge {
    let half = 1usize << (height - 1);
    let count = if height < 8 { r.between(30, 60) } else { r.between(3, 12) };
    let (gates, each) = if r.chance(40) {
        let leaves = 2 * half + r.between(0, half / 2);
        (random::scattered(r, leaves, 0, 1, 0), half / 2 + r.between(0, 1))
    } else {
        let gate_count = count + r.between(0, 60);
        let (leaves, near) = (r.between(3, 8), r.pick(&[4, 20]));
        (random::scattered(r, leaves, gate_count, near, 20), half >> 5)
    };
    let pins = gates.len() / 2 - 1;
    let records: Vec<u32> = (1..=pins).flat_map(|pin| [1, r.literal(pin)]).collect();
    // Deep pins first, then drawn anew.
    let mut order: Vec<u32> = (0..pins as u32).rev().collect();
    let (each, mut at, mut parts) = (each.min(pins), 0, Vec::new());
    for _ in 0..count {
        if at + each > pins {
            r.shuffle(&mut order);
            at = 0;
        }
        parts.push(order[at..at + each].to_vec());
        at += each;
    }
    let case = random::with(r, height, gates, Vec::new(), records);
    Merge { case, parts, extra: r.pick(&[0, 0, 1, 255]), beyond: [0; 3], wrong: None }
}

/// One thing that the input rules of a merge forbid, or that only looks so.
fn damage(r: &mut Random, merge: &mut Merge) {
    let groups = merge.case.split().len() as u32;
    let which = r.between(0, merge.parts.len() - 1);
    match r.between(0, 8) {
        0 => merge.extra = r.pick(&[255, 256, 257, 1 << 31, 1 << 32, usize::MAX]),
        1 => merge.parts[which].push(groups + r.pick(&[0, 0, 1, 65_536])),
        2 => merge.parts[which].push(r.pick(&[0x8000_0000, EMPTY])),
        3 => merge.beyond[r.between(0, 2)] = r.pick(&[-1_000_000, -1, 1, 40]),
        4 => {
            let more = r.pick(&[1, 1, 2]);
            merge.beyond = [0, more, more];
        }
        5 => merge.wrong = Some((which, r.pick(&[0, 1, 2, 0x8000_0000, EMPTY]))),
        6 => merge.parts.clear(),
        7 => merge.parts.resize(r.pick(&[1_023, 1_024, 1_025, 3_000]), Vec::new()),
        _ => merge.case.beyond[3] = r.pick(&[-1, -8, -9, -16]),
    }
}

/// Merge number `index` of a seed at this height: up to 60 partitions below height 10, a few above.
pub fn drawn(seed: u64, index: u64, height: u32) -> Merge {
    let mut r = Random::new(seed.wrapping_mul(0x2545_f491_4f6c_dd1d) ^ index.rotate_left(20));
    let (most_gates, most_records) = if height < 10 { (200, 100) } else { (600, 40) };
    let mut merge = match r.between(0, 9) {
        0..=1 if height < 10 => crowded(&mut r, height),
        _ => {
            let small = |case: &Case| case.gate_count() <= most_gates && case.pins() < 4 * most_gates && case.split().len() <= most_records;
            let case = (0..).map(|_| random::case(r.next(), 0, height)).find(small).unwrap();
            let many = if height < 10 { r.pick(&[1, 2, 3, 10, 30, 60]) } else { r.pick(&[1, 2, 3, 6]) };
            spread(&mut r, case, many)
        }
    };
    if r.chance(12) {
        for _ in 0..r.pick(&[1, 1, 1, 2]) {
            if !merge.parts.is_empty() {
                damage(&mut r, &mut merge);
            }
        }
    }
    merge
}

/// The pins that a traversal from these records lists.
pub fn reach(case: &Case, records: &[Vec<u32>], chosen: &[usize]) -> usize {
    let given: HashSet<u32> = case.given.iter().copied().collect();
    let pins = |record: &Vec<u32>| record[1..].iter().map(|&n| if record[0] == 4 { n } else { n / 2 }).collect::<Vec<_>>();
    let mut open: Vec<u32> = chosen.iter().flat_map(|&c| pins(&records[c])).collect();
    let mut listed = HashSet::new();
    while let Some(pin) = open.pop() {
        if pin == 0 || !listed.insert(pin) || given.contains(&pin) {
            continue;
        }
        open.extend(case.gates[2 * pin as usize..][..2].iter().filter(|&&literal| literal != EMPTY).map(|literal| literal / 2));
    }
    listed.len()
}

/// The Rust's builds, as so many rooms would have them.
struct Builds<'a> {
    case: &'a Case,
    records: Vec<Vec<u32>>,
    graph: &'a Graph,
    rooms: usize,
    deepest: usize,
    decided: bool,
}

impl Builds<'_> {
    fn build(&mut self, records: &[usize]) -> Result<Part, (u32, usize)> {
        let (outcome, _) = published::build_records(self.case.height, self.graph, records);
        let taken = match &outcome {
            Outcome::Whole(stages) => stages.len(),
            Outcome::Refused { stage, .. } => *stage,
            Outcome::Panicked => panic!("the Rust panics on a partition"),
        };
        self.deepest = self.deepest.max(taken);
        // The Rust with one line changed has nothing to part from.
        self.decided &= self.graph.rust == Rust::Changed || match &outcome {
            Outcome::Whole(stages) => {
                let chosen: Vec<Vec<u32>> = records.iter().map(|&record| self.records[record].clone()).collect();
                parting(self.case, &chosen, stages).unwrap_or_else(|what| panic!("{what}")).is_none()
            }
            Outcome::Refused { number, .. } => *number != 7,
            Outcome::Panicked => unreachable!(),
        };
        match outcome {
            _ if taken > self.rooms => Err((9, self.rooms + 1)),
            Outcome::Whole(stages) => Ok(Part {
                records: records.to_vec(),
                stages: stages.len(),
                words: stages.iter().map(|stage| stage.words.len()).sum(),
                cells: stages.iter().map(|stage| published::filled(&stage.rows)).sum(),
            }),
            Outcome::Refused { number, stage } => Err((number, stage)),
            Outcome::Panicked => unreachable!(),
        }
    }
}

/// Whether the union of this rank is built: its block begins at 0, 4, 12, 28, 60.. and not above the limit.
fn begun(rank: usize, limit: usize) -> bool {
    let (mut start, mut size) = (0, 4);
    while start + size <= rank {
        start += size;
        size *= 2;
    }
    start <= limit
}

/// The scope document's merging over the Rust's builds, with so many rooms lent.
pub fn by_the_rules(merge: &Merge, graph: &Graph, rooms: usize) -> Ruled {
    let (case, records, given) = (&merge.case, merge.case.split(), merge.split());
    let mut builds = Builds { case, records: records.clone(), graph, rooms, deepest: 0, decided: true };
    let own: Vec<_> = given.iter().map(|part| builds.build(part)).collect();
    if let Some(part) = own.iter().position(Result::is_err) {
        let (number, stage) = *own[part].as_ref().unwrap_err();
        // The partitions before are accepted by the new rule too, and those behind don't matter.
        let decided = builds.decided || number == 6 || number == 8;
        return Ruled { answer: Answer::Refused { number, stage, part: part + 1 }, deepest: builds.deepest, not_begun: false, decided };
    }
    let mut parts: Vec<Part> = own.into_iter().map(Result::unwrap).collect();
    let most = parts.iter().map(|part| part.stages).max().unwrap() + merge.extra;
    let limit = (parts.len() / 8).max(20);
    let mut size: Vec<usize> = given.iter().map(|part| reach(case, &records, part)).collect();
    let (mut out, mut trials, mut not_begun) = (Vec::new(), 0, false);
    for i in 0..parts.len() {
        let mut barred = HashSet::new();
        let mut again = !parts[i].records.is_empty();
        while again {
            again = false;
            let mut ranked = Vec::new();
            for j in (i + 1..parts.len()).filter(|j| !parts[*j].records.is_empty() && !barred.contains(j)) {
                let union = [&parts[i].records[..], &parts[j].records].concat();
                let all = reach(case, &records, &union);
                ranked.push((all - size[i].max(size[j]), all, j, union));
            }
            ranked.sort();
            for (rank, (_, all, j, union)) in ranked.into_iter().enumerate() {
                if !begun(rank, limit) {
                    not_begun = true;
                    break;
                }
                trials += 1;
                match builds.build(&union) {
                    Ok(part) if part.stages <= most => {
                        parts[i] = part;
                        parts[j].records.clear();
                        size[i] = all;
                        again = true;
                        break;
                    }
                    _ => drop(barred.insert(j)),
                }
            }
        }
        if !parts[i].records.is_empty() {
            out.push(parts[i].clone());
        }
    }
    out.sort_by_key(|part| std::cmp::Reverse(part.stages));
    Ruled { answer: Answer::Whole { parts: out, trials }, deepest: builds.deepest, not_begun, decided: builds.decided }
}

/// What the Rust answers to a merge that passes the checks, with the unions that the rules examine; an error where the rules, over its own
/// builds, give other partitions.
pub fn answer(merge: &Merge, graph: &Graph) -> Result<Ruled, String> {
    let ruled = by_the_rules(merge, graph, usize::MAX);
    match (published::merge(merge.case.height, graph, &merge.split(), merge.extra), &ruled.answer) {
        (Merged::Panicked, _) => Err("the Rust panics on a merge that passes the checks".into()),
        (Merged::Refused, Answer::Refused { .. }) => Ok(ruled),
        (Merged::Whole(parts), Answer::Whole { parts: same, .. }) if parts == *same => Ok(ruled),
        _ => Err("the Rust gives other partitions than the rules over its own builds".into()),
    }
}

impl Merge {
    /// Indices, lengths, and how many stage numbers are lent.
    pub fn list(&self) -> (Vec<u32>, Vec<u32>, usize) {
        let size = |n: usize, by: i64| (n as i64 + by).max(0) as usize;
        let [more_indices, more_lengths, more_stages] = self.beyond;
        let mut indices = self.parts.concat();
        let mut lengths: Vec<u32> = self.parts.iter().map(|part| part.len() as u32).collect();
        indices.resize(size(indices.len(), more_indices), 0);
        lengths.resize(size(lengths.len(), more_lengths), 0);
        if let Some((part, length)) = self.wrong {
            lengths.get_mut(part).map(|l| *l = length);
        }
        (indices, lengths, size(self.parts.len(), more_stages))
    }

    /// The partitions of the list that is lent, if its lengths are right.
    pub fn split(&self) -> Vec<Vec<usize>> {
        let (indices, lengths, _) = self.list();
        let mut rest = &indices[..];
        let mut cut = |length: &u32| {
            let (part, behind) = rest.split_at(*length as usize);
            rest = behind;
            part.iter().map(|&index| index as usize).collect()
        };
        lengths.iter().map(&mut cut).collect()
    }

    pub fn work_size(&self) -> usize {
        let (indices, lengths, _) = self.list();
        self.case.work_size() + 8 * lengths.len() + 8 * indices.len()
    }

    /// What is lent where the Rust's builds take so many stages.
    pub fn sizes(&self, stages: usize) -> Sizes {
        let mut lent = self.case.sizes(stages);
        lent[3] = (self.work_size() as i64 + self.case.beyond[3]).max(0) as usize;
        lent
    }

    /// In the form of PROTOCOL.md, with the areas as a remark, and a list that the partitions don't give.
    pub fn text(&self, name: &str, lent: Option<Sizes>) -> String {
        let line = |part: &Vec<u32>| format!("part {}", joined(part)).trim_end().to_string() + "\n";
        let mut out = self.case.lines(name) + &format!("merge {}\n", self.extra) + &self.parts.iter().map(line).collect::<String>();
        if let Some([plan, words, counts, work]) = lent {
            let (indices, lengths, stages) = self.list();
            out += &format!("# lent: plan {plan} words {words} counts {counts} work {work}; gates {} numbers, old {}\n# list: {} indices, lengths {}, {stages} stage numbers\n",
                            self.case.gates.len(), self.case.old, indices.len(), joined(&lengths));
        }
        out + "end\n"
    }
}

impl Answer {
    pub fn text(&self, name: &str) -> String {
        let told = match self {
            Answer::Refused { number, stage, part } => format!("none {number} stage {stage} part {part}\n"),
            Answer::Whole { parts, trials } => {
                let line = |p: &Part| format!("part stages {} words {} recs {}\n", p.stages, p.words, joined(&p.records));
                format!("parts {}\n{}# trials {trials}\n", parts.len(), parts.iter().map(line).collect::<String>())
            }
        };
        format!("case {name}\n{told}end\n")
    }
}
