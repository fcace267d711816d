//! The published Rust, which has the old word rule, and the library, which has the new one, on the same jobs in the same rooms: what the old rule
//! accepts, the new one accepts with no more stages.
use crate::case::Case;
use crate::check;
use crate::compare::{compare, expected, stages_taken};
use crate::order;
use crate::placer::{self, Answer, Areas};
use crate::published::{self, Rust};
use crate::random::{self, Random};
use crate::shrink::shrink;
use std::time::Duration;

const SHRINKING: Duration = Duration::from_secs(120);

/// A build's answer and what it wrote.
pub struct Built {
    pub answer: Answer,
    pub plan: Vec<u32>,
    pub words: Vec<u32>,
    pub counts: Vec<u32>,
}

pub fn built(case: &Case, rooms: usize) -> Built {
    let (mut plan, mut words, mut counts) = (vec![1; rooms * case.stage_size()], vec![1; case.word_limit()], vec![1; rooms]);
    let mut work = vec![1; case.work_size()];
    let areas = Areas { plan: &mut plan, words: &mut words, counts: &mut counts, work: &mut work };
    let answer = placer::build(case.height, &case.gates, &case.given, &case.records, areas);
    Built { answer, plan, words, counts }
}

/// What both rules answer to a job, the old one first, and their rooms: what the old rule takes, and some more, or fewer.
fn both(case: &Case) -> ([Answer; 2], usize) {
    let (outcome, _) = published::build(case.height, &published::graph(Rust::Published, case));
    let rooms = (stages_taken(Some(&outcome)) as i64 + case.rooms).max(0) as usize;
    ([expected(0, 0, Some(&outcome), rooms), built(case, rooms).answer], rooms)
}

/// What is wrong with the claim, if anything.
fn broken(was: Answer, is: Answer) -> Option<String> {
    if (was.number == 6) != (is.number == 6) {
        return Some(format!("the reservation knows no word rule, yet the answers are {was:?} and {is:?}"));
    }
    if was.number == 0 && (is.number != 0 || is.stages > was.stages) {
        return Some(format!("the old rule gives {was:?}, the new one {is:?}"));
    }
    None
}

/// What both rules answer to a job, and what is wrong with it, if anything: the claim, or what oracle/run compares.
fn fault(case: &Case) -> ([Answer; 2], Option<String>) {
    let (answers, _) = both(case);
    let what = broken(answers[0], answers[1]).or_else(|| compare(case).err().map(|(what, _)| what));
    (answers, what)
}

#[derive(Default, Clone, Copy)]
struct Row {
    jobs: usize,
    old: usize,
    new: usize,
    /// Refused by the old rule alone, with 7, 8 and 9.
    saved: [usize; 3],
    fewer_stages: usize,
    fewer_words: usize,
    more_words: usize,
    equal: usize,
    /// Of the jobs that both accept, by the old rule and by the new.
    stages: [usize; 2],
    words: [usize; 2],
    /// Refused with 6 to 9, by the old rule and by the new.
    refused: [[usize; 4]; 2],
    shuffled: usize,
}

impl Row {
    fn add(&mut self, case: &Case, old: Answer, new: Answer) {
        self.jobs += 1;
        self.shuffled += !case.in_order() as usize;
        self.old += (old.number == 0) as usize;
        self.new += (new.number == 0) as usize;
        for (i, answer) in [old, new].iter().enumerate().filter(|(_, answer)| answer.number != 0) {
            self.refused[i][answer.number as usize - 6] += 1;
        }
        if new.number != 0 {
            return;
        }
        if old.number != 0 {
            self.saved[old.number as usize - 7] += 1;
            return;
        }
        self.fewer_stages += (new.stages < old.stages) as usize;
        self.fewer_words += (new.words < old.words) as usize;
        self.more_words += (new.words > old.words) as usize;
        self.equal += (new.stages == old.stages && new.words == old.words) as usize;
        for (i, answer) in [old, new].iter().enumerate() {
            self.stages[i] += answer.stages;
            self.words[i] += answer.words;
        }
    }

    fn sum(rows: &[Row]) -> Row {
        let mut all = Row::default();
        for row in rows {
            let both = [
                (&mut all.jobs, row.jobs), (&mut all.old, row.old), (&mut all.new, row.new), (&mut all.fewer_stages, row.fewer_stages),
                (&mut all.fewer_words, row.fewer_words), (&mut all.more_words, row.more_words), (&mut all.equal, row.equal),
                (&mut all.shuffled, row.shuffled),
            ];
            both.into_iter().for_each(|(sum, n)| *sum += n);
            (0..3).for_each(|i| all.saved[i] += row.saved[i]);
            (0..2).for_each(|i| all.stages[i] += row.stages[i]);
            (0..2).for_each(|i| all.words[i] += row.words[i]);
            (0..8).for_each(|i| all.refused[i / 4][i % 4] += row.refused[i / 4][i % 4]);
        }
        all
    }

    fn print(&self, name: &str) {
        let [seven, eight, nine] = self.saved;
        println!("| {name} | {} | {} | {} | {} ({seven}, {eight}, {nine}) | {} | {} | {} | {} |", self.jobs, self.old, self.new,
                 seven + eight + nine, self.fewer_stages, self.fewer_words, self.more_words, self.equal);
    }
}

/// A job of this height that passes the checks: half of them near a limit.
fn job(seed: u64, index: u64, height: u32) -> Case {
    let mut r = Random::new(seed.rotate_left(24) ^ index.wrapping_mul(0xd6e8_feb8_6659_fd93));
    loop {
        let case = match r.between(0, 3) {
            0 => random::limit(&mut r, height),
            1 => random::tight(&mut r, height),
            _ => random::case(r.next(), 0, height),
        };
        let case = order::any(r.next(), 0, case);
        if check::input(&case) == 0 {
            // Areas of the right sizes, so that both get to build.
            return Case { beyond: [0; 4], ..case };
        }
    }
}

fn differs(seed: u64, index: u64, case: &Case, what: &str) {
    println!("job {index} of seed {seed}: {what}");
    let least = shrink(case, &|c| check::input(c) == 0 && fault(c).1.is_some(), SHRINKING);
    println!("the smallest job found: {}", fault(&least).1.expect("the shrunk job is at fault"));
    let (_, lent) = both(&least);
    println!("rooms {lent}");
    print!("{}", least.text("shrunk", (lent as i64 - least.rooms).max(0) as usize));
}

/// So many jobs, heights in turn. Whether the claim held for all.
pub fn rules(count: u64, seed: u64, low: u32, high: u32) -> bool {
    let mut rows = [Row::default(); 14];
    let heights: Vec<u32> = (low..=high).collect();
    for index in 0..count {
        let height = heights[index as usize % heights.len()];
        let case = job(seed, index, height);
        let ([old, new], what) = fault(&case);
        if let Some(what) = what {
            differs(seed, index, &case, &what);
            return false;
        }
        rows[height as usize].add(&case, old, new);
    }
    println!("| height | jobs | old rule accepts | new rule accepts | only the new one (7, 8, 9 by the old) | both: fewer stages | fewer words | more words | the same of both |");
    println!("|---|---|---|---|---|---|---|---|---|");
    for &height in &heights {
        rows[height as usize].print(&height.to_string());
    }
    let all = Row::sum(&rows);
    all.print("all");
    for (rule, [six, seven, eight, nine]) in ["old", "new"].iter().zip(all.refused) {
        println!("refused by the {rule} rule: {six} with 6, {seven} with 7, {eight} with 8, {nine} with 9");
    }
    println!("jobs that both accept: {} stages by the old rule, {} by the new; {} words by the old rule, {} by the new",
             all.stages[0], all.stages[1], all.words[0], all.words[1]);
    println!("{} jobs had gates in another order; in every job what the old rule accepts is accepted by the new, with no more stages", all.shuffled);
    true
}

#[cfg(test)]
mod tests {
    use super::*;
    use crate::case::EMPTY;
    use crate::published::Outcome;

    /// The number, the refused stage and the words that each rule gives, the old one first; and that all is compared as it should be.
    fn given(height: u32, gates: &[u32], records: &[u32]) -> [(u32, usize, Vec<u32>); 2] {
        let case = Case { height, gates: gates.to_vec(), given: Vec::new(), records: records.to_vec(), rooms: 0, beyond: [0; 4], old: 0 };
        assert_eq!(fault(&case).1, None);
        let old = match published::build(height, &published::graph(Rust::Published, &case)).0 {
            Outcome::Whole(stages) => (0, 0, stages.iter().flat_map(|stage| stage.words.iter().map(|&word| word as u32)).collect()),
            Outcome::Refused { number, stage } => (number, stage, Vec::new()),
            Outcome::Panicked => unreachable!(),
        };
        let new = built(&case, 4);
        [old, (new.answer.number, new.answer.stage, new.words[..new.answer.words].to_vec())]
    }

    // The scope document's examples, and what the request for the new rule says of them.
    #[test]
    fn examples() {
        let (leaf, leaves) = ([EMPTY; 4], [EMPTY; 66]);
        let gates = [EMPTY, EMPTY, EMPTY, EMPTY, EMPTY, EMPTY, EMPTY, EMPTY, EMPTY, EMPTY, 2, 4, 6, 9, 10, 12];
        assert_eq!(given(6, &gates, &[1, 14]), [(0, 0, vec![1, 0]), (0, 0, vec![0])]);
        assert_eq!(given(6, &gates, &[1, 14, 1, 15]), [(7, 2, vec![]), (0, 0, vec![0])]);
        assert_eq!(given(13, &leaf, &[1, 2]), [(0, 0, (128..256).collect()), (0, 0, vec![128])]);
        let outputs = |count: u32| (1..=count).flat_map(|pin| [1, 2 * pin]).collect::<Vec<u32>>();
        assert_eq!(given(6, &leaves, &outputs(31)), [(0, 0, vec![1]), (0, 0, vec![1])]);
        assert_eq!(given(6, &leaves, &outputs(32)), [(8, 1, vec![]), (8, 1, vec![])]);
    }
}
