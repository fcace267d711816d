//! Random builds and merges until the time or the counts are used up, with a tally of what agreed.
use crate::case::Case;
use crate::check;
use crate::compare::{compare, Agreed, Decided};
use crate::compare_merge;
use crate::merge::{self, Merge};
use crate::order;
use crate::random::{self, Random};
use crate::shrink::shrink;
use std::collections::BTreeMap;
use std::time::{Duration, Instant};

const SHRINKING: Duration = Duration::from_secs(120);

/// By height (0 for one outside 6 to 13) and number.
#[derive(Default)]
struct Outcomes(BTreeMap<(u32, u32), usize>);

impl Outcomes {
    fn add(&mut self, height: u32, number: u32) {
        *self.0.entry((if number == 1 { 0 } else { height }, number)).or_default() += 1;
    }

    fn count(&self, low: u32, high: u32) -> usize {
        self.0.iter().filter(|((height, _), _)| (low..=high).contains(height)).map(|(_, n)| n).sum()
    }

    fn print(&self, what: &str) {
        for height in [0, 6, 7, 8, 9, 10, 11, 12, 13] {
            let told: Vec<String> = self.0.iter().filter(|((h, _), _)| *h == height)
                .map(|((_, number), n)| if *number == 0 { format!("{n} {what}") } else { format!("{n} with {number}") })
                .collect();
            if !told.is_empty() {
                let name = if height == 0 { "other heights".into() } else { format!("height {height}") };
                println!("{name}: {}", told.join(", "));
            }
        }
    }

    /// How many cases agree, and where.
    fn sum(&self, what: &str) {
        println!("{} {what} agree: {} at heights 6 to 9, {} at 10 to 12, {} at 13", self.0.values().sum::<usize>(),
                 self.count(6, 9), self.count(10, 12), self.count(13, 13));
    }
}

/// Cases whose gates are not in order, and those refused for a loop.
#[derive(Default)]
struct Orders {
    shuffled: usize,
    whole: usize,
    looped: usize,
    given: usize,
}

impl Orders {
    fn add(&mut self, case: &Case, number: u32) {
        if number == 23 {
            self.looped += 1;
            self.given += !check::loop_without_given(case) as usize;
        } else if !(1..=5).contains(&number) && number != 10 && !case.in_order() {
            self.shuffled += 1;
            self.whole += (number == 0) as usize;
        }
    }

    fn print(&self, whole: &str) {
        println!("gates in another order {}, of these {} {whole}; refused with 23 {}, of these {} with given pins on every loop",
                 self.shuffled, self.whole, self.looped, self.given);
    }
}

/// How much of the builds is compared, so that nobody takes a short comparison for a long one.
#[derive(Default)]
struct Depth {
    unasked: usize,
    /// Builds and their stages.
    whole: [usize; 2],
    /// Builds, and stages whose cells and whose words are compared, of how many.
    part: [usize; 4],
    /// Whose stage where the rules part is the last one.
    to_the_end: usize,
    /// By number.
    refusals: BTreeMap<u32, usize>,
    bounds: BTreeMap<u32, usize>,
    /// Those that pass the checks, the plans among them, and their stages.
    changed: [usize; 3],
}

fn by_number(counts: &BTreeMap<u32, usize>) -> String {
    let told: Vec<String> = counts.iter().map(|(number, n)| format!("{n} with {number}")).collect();
    if told.is_empty() { "none".into() } else { told.join(", ") }
}

impl Depth {
    fn add(&mut self, agreed: &Agreed) {
        match agreed.decided {
            Decided::Unasked => self.unasked += 1,
            Decided::Whole => {
                self.whole[0] += 1;
                self.whole[1] += agreed.stages;
            }
            Decided::UpTo(stage) => {
                for (sum, n) in self.part.iter_mut().zip([1, stage, stage - 1, agreed.stages]) {
                    *sum += n;
                }
                self.to_the_end += (stage == agreed.stages) as usize;
            }
            Decided::Refusal => *self.refusals.entry(agreed.number).or_default() += 1,
            Decided::Bounds => *self.bounds.entry(agreed.number).or_default() += 1,
        }
        if agreed.decided != Decided::Unasked {
            for (sum, n) in self.changed.iter_mut().zip([1, (agreed.number == 0) as usize, agreed.stages]) {
                *sum += n;
            }
        }
    }

    fn print(&self) {
        let sum = |counts: &BTreeMap<u32, usize>| counts.values().sum::<usize>();
        let [part, cells, words, stages] = self.part;
        println!("beside the published Rust, which has the old word rule:");
        println!("  the whole plan is compared: {} builds with {} stages, where the word rules never part", self.whole[0], self.whole[1]);
        println!("  the plan is compared in part, up to the stage where the word rules part: {part} builds, cells of {cells} and words of {words} of their {stages} stages; in {} builds that stage is the last", self.to_the_end);
        println!("  no plan is compared, the refusal is: {} builds ({})", sum(&self.refusals), by_number(&self.refusals));
        println!("  no plan is compared, and the answer only within bounds: {} builds where the Rust refuses with 7 or the rooms end where the rules part (the library's answers: {})",
                 sum(&self.bounds), by_number(&self.bounds));
        println!("  it isn't asked: {} builds that the checks refuse", self.unasked);
        println!("beside the Rust with one line changed: {} builds compared whole, {} plans with {} stages among them", self.changed[0], self.changed[1], self.changed[2]);
    }
}

#[derive(Default)]
struct Tally {
    outcomes: Outcomes,
    orders: Orders,
    depth: Depth,
    taken_back: usize,
    twice: usize,
    several: usize,
    most_stages: usize,
    given: usize,
    kinds: [usize; 5],
    /// Over 10,000 gates, at height 13.
    large: usize,
}

impl Tally {
    fn add(&mut self, case: &Case, agreed: &Agreed) {
        self.outcomes.add(case.height, agreed.number);
        self.orders.add(case, agreed.number);
        self.depth.add(agreed);
        if (1..=5).contains(&agreed.number) || agreed.number == 23 {
            return;
        }
        self.taken_back += agreed.taken_back as usize;
        self.twice += agreed.twice as usize;
        self.several += (agreed.stages > 1) as usize;
        self.most_stages = self.most_stages.max(agreed.stages);
        self.given += !case.given.is_empty() as usize;
        let records = case.split();
        for kind in 1..=4 {
            self.kinds[kind] += records.iter().any(|record| record[0] as usize == kind) as usize;
        }
        self.large += (case.height == 13 && case.gate_count() > 10_000) as usize;
    }

    fn print(&self) {
        self.outcomes.print("whole");
        println!("among them: {} with several stages (at most {}), {} with pins taken back, {} with a word twice in a stage, {} with given pins",
                 self.several, self.most_stages, self.taken_back, self.twice, self.given);
        println!("with outputs {}, flip-flops {}, memories {}, staged pins {}; height 13 with over 10,000 gates {}",
                 self.kinds[1], self.kinds[2], self.kinds[3], self.kinds[4], self.large);
        self.orders.print("whole");
        self.depth.print();
        self.outcomes.sum("builds");
    }
}

#[derive(Default)]
struct MergeTally {
    outcomes: Outcomes,
    orders: Orders,
    partitions: usize,
    most: usize,
    left: usize,
    trials: usize,
    failed: usize,
    not_begun: usize,
    /// Merged and refused, both compared whole with the published Rust; not so; and not asked.
    whole: [usize; 2],
    bounds: usize,
    unasked: usize,
}

impl MergeTally {
    fn add(&mut self, merge: &Merge, agreed: &compare_merge::Agreed) {
        self.outcomes.add(merge.case.height, agreed.number);
        self.orders.add(&merge.case, agreed.number);
        match agreed.decided {
            compare_merge::Decided::Unasked => self.unasked += 1,
            compare_merge::Decided::Whole => self.whole[(agreed.number != 0) as usize] += 1,
            compare_merge::Decided::Bounds => self.bounds += 1,
        }
        if agreed.number != 0 {
            return;
        }
        self.partitions += agreed.partitions;
        self.most = self.most.max(agreed.partitions);
        self.left += agreed.left;
        self.trials += agreed.trials;
        self.failed += agreed.failed as usize;
        self.not_begun += agreed.not_begun as usize;
    }

    fn print(&self) {
        self.outcomes.print("merged");
        println!("{} partitions (at most {} in a merge) became {}; {} unions examined; {} merges with unions that fail, {} with a block not begun",
                 self.partitions, self.most, self.left, self.trials, self.failed, self.not_begun);
        self.orders.print("merged");
        let [merged, refused] = self.whole;
        println!("beside the published Rust, which has the old word rule:");
        println!("  compared whole: {merged} merges, and {refused} refused, where no build that decides them parts");
        println!("  nothing of the partitions is compared: {} merges with a build that parts or that the Rust refuses with 7; only that what it accepts is accepted", self.bounds);
        println!("  it isn't asked: {} merges that the checks refuse", self.unasked);
        println!("beside the Rust with one line changed: {} merges compared whole", merged + refused + self.bounds);
        self.outcomes.sum("merges");
    }
}

/// Low heights are the quickest, so they come most often; only those from `low` to `high` count.
fn height(seed: u64, index: u64, low: u32, high: u32) -> u32 {
    let mut r = Random::new(seed.rotate_left(32) ^ index);
    let often = [6, 6, 6, 6, 6, 6, 6, 7, 7, 7, 7, 7, 7, 8, 8, 8, 8, 8, 9, 9, 9, 10, 11, 12, 13, 13];
    r.pick(&often.into_iter().filter(|k| (low..=high).contains(k)).collect::<Vec<_>>())
}

fn differs(seed: u64, index: u64, case: &Case, what: &str) {
    println!("difference at case {index} of seed {seed}: {what}");
    let least = shrink(case, &|c| compare(c).is_err(), SHRINKING);
    let (what, stages) = compare(&least).err().expect("the shrunk case differs");
    println!("the smallest case found: {what}");
    print!("{}", least.text("shrunk", stages));
}

fn merge_differs(seed: u64, index: u64, merge: &Merge, what: &str) {
    println!("difference at merge {index} of seed {seed}: {what}");
    let least = shrink(merge, &|m| compare_merge::compare(m).is_err(), SHRINKING);
    let (what, lent) = compare_merge::compare(&least).err().expect("the shrunk merge differs");
    println!("the smallest merge found: {what}");
    print!("{}", least.text("shrunk", Some(lent)));
}

/// Builds and merges in turns that take as long, until `seconds` or the `counts` of both are used up. Whether all agreed.
pub fn run(seconds: u64, counts: [u64; 2], seed: u64, low: u32, high: u32) -> bool {
    let start = Instant::now();
    let (mut tally, mut merges) = (Tally::default(), MergeTally::default());
    let (mut done, mut taken) = ([0; 2], [Duration::ZERO; 2]);
    let mut difference: Option<Box<dyn Fn()>> = None;
    while difference.is_none() && done != counts && start.elapsed() <= Duration::from_secs(seconds) {
        let kind = if done[0] == counts[0] { 1 } else if done[1] == counts[1] { 0 } else { (taken[1] < taken[0]) as usize };
        let (index, from) = (done[kind], Instant::now());
        if kind == 0 {
            let case = order::any(seed, index, random::case(seed, index, height(seed, index, low, high)));
            match compare(&case) {
                Ok(agreed) => tally.add(&case, &agreed),
                Err((what, _)) => difference = Some(Box::new(move || differs(seed, index, &case, &what))),
            }
        } else {
            let mut merge = merge::drawn(seed, index, height(seed, !index, low, high));
            merge.case = order::any(seed, !index, merge.case);
            match compare_merge::compare(&merge) {
                Ok(agreed) => merges.add(&merge, &agreed),
                Err((what, _)) => difference = Some(Box::new(move || merge_differs(seed, index, &merge, &what))),
            }
        }
        taken[kind] += from.elapsed();
        done[kind] += 1;
    }
    if done[0] > 0 {
        tally.print();
    }
    if done[1] > 0 {
        merges.print();
    }
    if let Some(tell) = &difference {
        tell();
    }
    difference.is_none()
}
