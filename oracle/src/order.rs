//! Graphs whose gates stand in any order: pins by other numbers, and back edges that may close a loop.
use crate::case::{Case, EMPTY};
use crate::random::Random;

/// The case with pin p as pin `to[p]`; pins past the last keep their numbers.
fn moved(case: &Case, to: &[u32]) -> Case {
    let mut out = case.renamed(&|pin| to.get(pin as usize).copied().unwrap_or(pin));
    let gates = out.gates.clone();
    for (&to, gate) in to.iter().zip(gates.chunks_exact(2)) {
        out.gates[2 * to as usize..][..2].copy_from_slice(gate);
    }
    out
}

/// Every pin but 0 by a number drawn at random.
pub fn shuffle(r: &mut Random, case: &mut Case) {
    let mut to: Vec<u32> = (0..case.gates.len() as u32 / 2).collect();
    if !to.is_empty() {
        r.shuffle(&mut to[1..]);
    }
    *case = moved(case, &to);
}

/// The case with operands below their gates, pins else in the order that they had; as it was if there is a loop, or an operand that is no pin.
pub fn ordered(case: &Case) -> Case {
    let pins = case.gates.len() / 2;
    let (mut to, mut next) = (vec![u32::MAX; pins], 0);
    // Turn by turn, the pins whose operands have their numbers.
    let mut turn = true;
    while turn {
        turn = false;
        for pin in 0..pins {
            let has = |&literal: &u32| literal == EMPTY || to.get(literal as usize / 2).map_or(false, |&to| to != u32::MAX);
            if to[pin] == u32::MAX && case.gates[2 * pin..2 * pin + 2].iter().all(has) {
                to[pin] = next;
                next += 1;
                turn = true;
            }
        }
    }
    // Pin 0 is a leaf or the graph is refused.
    if next as usize == pins && to.first() == Some(&0) { moved(case, &to) } else { case.clone() }
}

/// An operand of a gate becomes a pin some steps above it, or any pin. Now and then one of the two is given: a loop through it is a loop too.
pub fn back_edge(r: &mut Random, case: &mut Case) {
    let pins = case.gates.len() / 2;
    let is_gate = |gates: &[u32], pin: usize| 0 < pin && pin < pins && gates[2 * pin..2 * pin + 2] != [EMPTY; 2];
    let gates: Vec<usize> = (1..pins).filter(|&pin| is_gate(&case.gates, pin)).collect();
    if gates.is_empty() {
        return;
    }
    let top = r.pick(&gates);
    let mut end = top;
    for _ in 0..r.pick(&[0, 1, 2, 5, 50]) {
        let below = case.gates[2 * end + r.between(0, 1)] as usize / 2;
        if !is_gate(&case.gates, below) {
            break;
        }
        end = below;
    }
    let above = if r.chance(25) { r.between(1, pins - 1) } else { top };
    case.gates[2 * end + r.between(0, 1)] = r.literal(above);
    if r.chance(40) {
        case.given.push(r.pick(&[end, above]) as u32);
    }
}

/// Half of the cases shuffled, a few with back edges. Drawn apart from the case, which stays the one that is recorded.
pub fn any(seed: u64, index: u64, mut case: Case) -> Case {
    let mut r = Random::new(seed.rotate_left(48) ^ index.wrapping_mul(0x9fb2_1c65_1e98_df25));
    if r.chance(50) {
        shuffle(&mut r, &mut case);
    }
    if r.chance(6) {
        for _ in 0..r.pick(&[1, 1, 1, 2, 4]) {
            back_edge(&mut r, &mut case);
        }
    }
    case
}
