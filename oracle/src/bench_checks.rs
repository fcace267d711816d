//! The library's time for the checks of the largest graphs: worst cases of loops, which are refused, and a graph in order and shuffled.
use crate::bench::{median, outputs};
use crate::case::{Case, EMPTY};
use crate::check;
use crate::order;
use crate::placer::{self, Answer, Areas};
use crate::random::{self, Random};
use std::time::Instant;

const PINS: usize = 65_535;
/// The checks take milliseconds, so they are measured so many times a turn.
const AGAIN: usize = 15;
/// Graphs drawn at random.
const ANY: usize = 100;

/// Each pin on the pin that `next` names, 0 for a leaf.
fn paths(next: &dyn Fn(usize) -> usize) -> Vec<u32> {
    let gate = |pin: usize| match next(pin) {
        0 => [EMPTY; 2],
        next => [2 * next as u32; 2],
    };
    (0..=PINS).flat_map(|pin| if pin == 0 { [EMPTY; 2] } else { gate(pin) }).collect()
}

/// Graphs with loops. Pins are looked at from the smallest on, and a gate's first operand first.
fn looped() -> Vec<(&'static str, Vec<u32>)> {
    let r = &mut Random::new(2024);
    let last = PINS;
    let mut anywhere = vec![EMPTY; 2];
    for _ in 0..PINS {
        let operands = [r.between(1, PINS), r.between(1, PINS)];
        anywhere.extend(operands.map(|operand| r.literal(operand)));
    }
    // Loops of two, each on the next as well.
    let mut linked = vec![EMPTY; 2];
    for pin in 1..=PINS {
        let other = if pin == last { last } else if pin % 2 == 1 { pin + 1 } else { pin - 1 };
        linked.extend([2 * other as u32, 2 * (pin + 2).min(last) as u32]);
    }
    vec![
        ("a chain into a loop of its last two pins", paths(&|pin| if pin == last { last - 1 } else { pin + 1 })),
        ("a chain between two loops", paths(&|pin| match pin {
            _ if pin == last => last - 1,
            _ if pin == last - 1 => 1,
            _ if pin == last - 2 => last - 3,
            _ => pin + 1,
        })),
        ("a chain of loops of two pins", linked),
        ("a loop whose smallest pin is reached last", paths(&|pin| if pin <= 2 { last } else { pin - 1 })),
        ("loops of two pins", paths(&|pin| if pin == last { last } else if pin % 2 == 1 { pin + 1 } else { pin - 1 })),
        ("every gate on itself", paths(&|pin| pin)),
        ("one loop, rising", paths(&|pin| pin % last + 1)),
        ("one loop, falling", paths(&|pin| if pin == 1 { last } else { pin - 1 })),
        ("gates on any two pins", anywhere),
    ]
}

/// A graph of any shape: some leaves, operands near below the gate, or now and then above it; shuffled or not.
fn any(r: &mut Random) -> Vec<u32> {
    let (leaves, above, near) = (r.pick(&[0, 1, 20, 60]), r.pick(&[0, 0, 1, 3, 30]), r.pick(&[1, 3, 100, PINS]));
    let mut gates = vec![EMPTY; 2];
    for pin in 1..=PINS {
        let leaf = pin == 1 || r.chance(leaves);
        let operands = [(); 2].map(|_| {
            let up = above > 0 && r.between(1, 10_000) <= above;
            let operand = if up { r.between(pin, PINS) } else { r.between(pin.saturating_sub(near).max(1), (pin - 1).max(1)) };
            r.literal(operand)
        });
        gates.extend(if leaf { [EMPTY; 2] } else { operands });
    }
    let mut case = outputs(gates, 0, 0);
    if r.chance(50) {
        order::shuffle(r, &mut case);
    }
    case.gates
}

/// The seconds of one build, and its answer.
fn once(case: &Case, areas: &mut [Vec<u32>; 4]) -> (f64, Answer) {
    let [plan, words, counts, work] = areas;
    let lent = Areas { plan, words, counts, work };
    let start = Instant::now();
    let answer = placer::build(case.height, &case.gates, &case.given, &case.records, lent);
    (start.elapsed().as_secs_f64(), answer)
}

fn measure(case: &Case, stages: usize, times: usize) -> (f64, Answer) {
    let mut areas = case.sizes(stages).map(|size| vec![1u32; size]);
    let answer = once(case, &mut areas).1;
    (median((0..times).map(|_| once(case, &mut areas).0).collect()), answer)
}

/// A given pin above the last: 5, right after the graph's and the records' checks.
fn refused_by_5(case: &Case) -> Case {
    Case { given: vec![case.pins() as u32 + 1], ..case.clone() }
}

/// Whether the answers are those to expect.
pub fn bench(turns: usize) -> bool {
    let (mut right, mut worst) = (true, 0.0f64);
    println!("checks of {PINS} pins, the library alone, medians of {} turns", AGAIN * turns);
    for (name, gates) in looped() {
        for shuffled in [false, true] {
            let mut case = outputs(gates.clone(), 0, 0);
            if shuffled {
                order::shuffle(&mut Random::new(1), &mut case);
            }
            let (seconds, answer) = measure(&case, 1, AGAIN * turns);
            worst = worst.max(seconds);
            let pin = check::loop_pin(&case.gates);
            right &= answer == Answer { number: 23, stages: 0, words: 0, stage: 0, pin, cells: 0 };
            println!("{name}{}: answer {}, pin {}: {:.2} ms", if shuffled { ", shuffled" } else { "" }, answer.number, answer.pin, 1e3 * seconds);
        }
    }
    println!("the slowest of these: {:.2} ms", 1e3 * worst);
    let (r, mut looped, mut slowest) = (&mut Random::new(7), 0, 0.0f64);
    for _ in 0..ANY {
        let case = refused_by_5(&outputs(any(r), 0, 0));
        let (seconds, answer) = measure(&case, 1, 3);
        slowest = slowest.max(seconds);
        let pin = check::loop_pin(&case.gates);
        looped += (pin > 0) as usize;
        right &= (answer.number, answer.pin) == (if pin > 0 { 23 } else { 5 }, pin);
    }
    println!("{ANY} graphs of any shape, {looped} of them with loops: the slowest {:.2} ms", 1e3 * slowest);
    let r = &mut Random::new(2024);
    let case = outputs(random::scattered(r, 3000, PINS - 3000, 1000, 0), PINS, 400);
    let mut shuffled = case.clone();
    order::shuffle(r, &mut shuffled);
    for (name, case) in [("in order", case), ("shuffled", shuffled)] {
        // As many rooms as it takes.
        let stages = (0..).map(|n| 8 << n).find(|&rooms| measure(&case, rooms, 1).1.number != 9).unwrap();
        let stages = measure(&case, stages, 1).1.stages;
        let (whole, answer) = measure(&case, stages, turns);
        let (checks, refused) = measure(&refused_by_5(&case), stages, AGAIN * turns);
        right &= answer.number == 0 && refused.number == 5;
        println!("an accepted graph, {name}: answer {}, {} stages: whole build {whole:.3} s; checks alone {:.2} ms", answer.number, answer.stages, 1e3 * checks);
    }
    right
}
