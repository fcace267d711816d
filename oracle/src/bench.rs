//! The published Rust and the library on the same large inputs, in turns, and the ratio of their medians.
use crate::case::Case;
use crate::check;
use crate::compare::compare;
use crate::merge;
use crate::placer::{self, Areas};
use crate::published::{self, Rust};
use crate::random::{self, Random};
use std::time::Instant;

const HEIGHT: u32 = 13;

/// The last `count` of the pins up to `last` that no gate uses are outputs. The Rust's time grows with the square of what they reach.
pub fn outputs(gates: Vec<u32>, last: usize, count: usize) -> Case {
    let pins: Vec<usize> = random::tops(&gates).into_iter().filter(|&pin| pin <= last).collect();
    let records = pins[pins.len().saturating_sub(count)..].iter().flat_map(|&pin| [1, 2 * pin as u32]).collect();
    Case { height: HEIGHT, gates, given: Vec::new(), records, rooms: 0, beyond: [0; 4], old: 1 }
}

fn inputs() -> Vec<(&'static str, Case)> {
    let r = &mut Random::new(2024);
    vec![
        ("20,000 gates, near operands", outputs(random::scattered(r, 2000, 20_000, 1000, 0), 20_000, 200)),
        ("20,000 gates, far operands", outputs(random::scattered(r, 2000, 20_000, 1000, 20), 20_000, 200)),
        ("60,000 gates, near operands", outputs(random::scattered(r, 3000, 60_000, 3000, 0), 30_000, 100)),
        ("60,000 gates, far operands", outputs(random::scattered(r, 3000, 60_000, 3000, 20), 40_000, 200)),
        ("a chain of 10,000 gates", outputs(random::chain(r, 64, 10_000), usize::MAX, 1)),
        ("64 adders of 16 bits", outputs(random::adders(16, 64), usize::MAX, 1000)),
    ]
}

pub fn median(mut seconds: Vec<f64>) -> f64 {
    seconds.sort_by(|a, b| a.partial_cmp(b).unwrap());
    seconds[seconds.len() / 2]
}

fn measure(case: &Case, stages: usize, turns: usize) -> (f64, f64) {
    let graph = published::graph(Rust::Published, case);
    let mut areas = case.sizes(stages).map(|size| vec![1u32; size]);
    let (mut theirs, mut ours) = (Vec::new(), Vec::new());
    for _ in 0..turns {
        theirs.push(published::timed(case.height, &graph));
        let [plan, words, counts, work] = &mut areas;
        let lent = Areas { plan, words, counts, work };
        let start = Instant::now();
        placer::build(case.height, &case.gates, &case.given, &case.records, lent);
        ours.push(start.elapsed().as_secs_f64());
    }
    (median(theirs), median(ours))
}

fn reach(case: &Case) -> usize {
    let records = case.split();
    merge::reach(case, &records, &(0..records.len()).collect::<Vec<_>>())
}

/// Whether both sides agree on every input.
pub fn bench(turns: usize) -> bool {
    println!("height {HEIGHT}, medians of {turns} turns, both sides in turn");
    println!("cleared first: no area is cleared for the library, which clears what it is lent within its time; the Rust takes new memory within its own");
    for (name, case) in inputs() {
        assert_eq!(check::input(&case), 0);
        match compare(&case) {
            Err((what, _)) => {
                println!("{name}: a difference: {what}");
                return false;
            }
            Ok(agreed) => {
                let stages = agreed.stages;
                let (theirs, ours) = measure(&case, stages, turns);
                println!("{name}, {} pins reached: answer {}, {stages} stages: Rust {theirs:.3} s, library {ours:.3} s, ratio {:.1}",
                         reach(&case), agreed.number, theirs / ours);
            }
        }
    }
    true
}
