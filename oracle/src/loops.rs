//! Small graphs with and without loops: the library's answer against the closure of the whole graph.
use crate::case::{Case, EMPTY};
use crate::check;
use crate::order;
use crate::placer::{self, Areas, Groups};
use crate::random::Random;

const HEIGHT: u32 = 6;
const ROOMS: usize = 4;
/// A row of the closure is a number of 64 bits.
const MOST: usize = 40;

/// The smallest pin that is reached from itself, by Warshall's closure; 0 if there is none. A row has a bit a pin.
fn closed(gates: &[u32]) -> usize {
    let pins = gates.len() / 2;
    let mut rows = vec![0u64; pins];
    for pin in 1..pins {
        for side in 0..2 {
            let operand = gates[2 * pin + side] / 2;
            if (operand as usize) < pins {
                rows[pin] |= 1 << operand;
            }
        }
    }
    for through in 0..pins {
        for from in 0..pins {
            if rows[from] >> through & 1 == 1 {
                rows[from] |= rows[through];
            }
        }
    }
    (1..pins).find(|&pin| rows[pin] >> pin & 1 == 1).unwrap_or(0)
}

/// What is to come: 3 where an operand is no pin, then 23 and the pin, then 4 and 5; None for what the build itself gives.
fn wanted(case: &Case) -> (Option<u32>, usize) {
    let pins = case.pins() as u32;
    let bad = |&literal: &u32| literal != EMPTY && (literal / 2 == 0 || literal / 2 > pins);
    if case.gates.iter().any(bad) {
        return (Some(3), 0);
    }
    match closed(&case.gates) {
        0 if case.records.iter().skip(1).step_by(2).any(|&pin| pin > pins) => (Some(4), 0),
        0 if case.given.iter().any(|&pin| pin > pins) => (Some(5), 0),
        0 => (None, 0),
        pin => (Some(23), pin),
    }
}

/// The numbers and pins that a build and a merge of one partition answer, and whether either changed what is lent though it checked the input
/// alone.
fn asked(case: &Case) -> ([(u32, usize); 2], bool) {
    let (pieces, stage) = (case.records.len() / 2, case.stage_size());
    let mut areas = [vec![7u32; ROOMS * stage], vec![7; case.word_limit()], vec![7; ROOMS], vec![7; case.work_size() + 8 + 8 * pieces]];
    let mut list: [Vec<u32>; 3] = [(0..pieces as u32).collect(), vec![pieces as u32], vec![7]];
    let (lent, listed) = (areas.clone(), list.clone());
    let checks = |number: u32| (1..=5).contains(&number) || number == 23;
    let [plan, words, counts, work] = &mut areas;
    let built = placer::build(case.height, &case.gates, &case.given, &case.records, Areas { plan, words, counts, work });
    let mut changed = checks(built.number) && areas != lent;
    areas.clone_from(&lent);
    let [plan, words, counts, work] = &mut areas;
    let [indices, lengths, stages] = &mut list;
    let groups = Groups { indices, lengths, stages };
    let merged = placer::merge(case.height, &case.gates, &case.given, &case.records, groups, 0, Areas { plan, words, counts, work });
    changed |= checks(merged.number) && (areas != lent || list != listed);
    ([(built.number, built.pin), (merged.number, merged.pin)], changed)
}

#[derive(Default)]
struct Tally {
    graphs: usize,
    looped: usize,
    given: usize,
    shuffled: usize,
    others: usize,
}

impl Tally {
    /// Err says what differs.
    fn compare(&mut self, case: &Case) -> Result<(), String> {
        let (number, pin) = wanted(case);
        let (told, changed) = asked(case);
        for (what, (got, shown)) in ["build", "merge"].iter().zip(told) {
            let right = match number {
                Some(number) => got == number,
                None => got == 0 || (6..=9).contains(&got),
            };
            if !right || shown != pin {
                return Err(format!("the {what} answers {got} and pin {shown}, not {number:?} and pin {pin}"));
            }
        }
        if changed {
            return Err("what is lent was changed".into());
        }
        if number != Some(3) && check::loop_pin(&case.gates) != pin {
            return Err(format!("the search of oracle/run finds pin {}, not {pin}", check::loop_pin(&case.gates)));
        }
        self.graphs += 1;
        match number {
            Some(23) => {
                self.looped += 1;
                self.given += !check::loop_without_given(case) as usize;
            }
            Some(_) => self.others += 1,
            None => self.shuffled += !case.in_order() as usize,
        }
        Ok(())
    }

    fn print(&self, what: &str) {
        println!("{what}: {} graphs agree: {} with loops ({} with given pins on every loop), {} without loops whose gates are not in order, {} refused with 3, 4 or 5",
                 self.graphs, self.looped, self.given, self.shuffled, self.others);
    }
}

fn case(gates: Vec<u32>, given: Vec<u32>, records: Vec<u32>) -> Case {
    Case { height: HEIGHT, gates, given, records, rooms: 0, beyond: [0; 4], old: 0 }
}

/// Graph number `index` of so many pins: each pin is a leaf, or a gate on any two. None past the last.
fn counted(pins: usize, index: usize) -> Option<Case> {
    let (mut rest, mut gates) = (index, vec![EMPTY; 2]);
    for _ in 0..pins {
        let which = rest % (pins * pins + 1);
        rest /= pins * pins + 1;
        gates.extend(match which {
            0 => [EMPTY; 2],
            _ => [2 * ((which - 1) / pins + 1) as u32, 2 * ((which - 1) % pins + 1) as u32],
        });
    }
    if rest == 0 { Some(case(gates, Vec::new(), vec![4, 1])) } else { None }
}

/// A graph of a few pins: some leaves, operands below the gate or anywhere, pins then by other numbers or not; given pins; staged pins as records.
fn drawn(r: &mut Random) -> Case {
    let pins = if r.chance(95) { r.between(1, 12) } else { r.between(13, MOST) };
    let (leaves, anywhere, given) = (r.pick(&[5, 15, 30, 50, 70]), r.pick(&[0, 2, 5, 10, 30, 100]), r.pick(&[0, 0, 30, 100]));
    let mut gates = vec![EMPTY; 2];
    for pin in 1..=pins {
        let operand = |r: &mut Random| {
            let most = if r.chance(anywhere) { pins } else { pin - 1 };
            let operand = r.between(1, most.max(1));
            r.literal(operand)
        };
        let leaf = r.chance(leaves) || (pin == 1 && !r.chance(anywhere));
        let gate = if leaf { [EMPTY; 2] } else { [operand(r), operand(r)] };
        gates.extend(gate);
    }
    let mut given: Vec<u32> = (1..=pins as u32).filter(|_| r.chance(given)).collect();
    let mut records: Vec<u32> = (0..r.between(0, 3)).flat_map(|_| [4, r.between(0, pins) as u32]).collect();
    // What 3, 4 or 5 refuses.
    if r.chance(3) {
        let at = r.between(2, gates.len() - 1);
        gates[at] = r.pick(&[0, 1, 2 * pins as u32 + 2]);
    }
    if r.chance(10) {
        records.extend([4, pins as u32 + 1]);
    }
    if r.chance(10) {
        given.push(pins as u32 + 1);
    }
    let mut case = case(gates, given, records);
    if r.chance(50) {
        order::shuffle(r, &mut case);
    }
    case
}

fn differs(case: &Case, what: &str) -> bool {
    println!("difference: {what}");
    print!("{}", case.text("loops", ROOMS));
    false
}

/// Every graph of one to `most` pins, then so many random ones. Whether all agreed.
pub fn loops(count: u64, seed: u64, most: usize) -> bool {
    let mut all = Tally::default();
    for pins in 1..=most {
        for case in (0..).map_while(|index| counted(pins, index)) {
            if let Err(what) = all.compare(&case) {
                return differs(&case, &what);
            }
        }
    }
    all.print(&format!("every graph of one to {most} pins"));
    let (mut r, mut random) = (Random::new(seed), Tally::default());
    for _ in 0..count {
        let case = drawn(&mut r);
        if let Err(what) = random.compare(&case) {
            return differs(&case, &what);
        }
    }
    random.print(&format!("random graphs of seed {seed}"));
    true
}
