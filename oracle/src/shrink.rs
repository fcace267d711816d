//! Makes a case, or a merge, smaller as long as it still fails.
use crate::case::{Case, EMPTY, LEAST};
use crate::merge::Merge;
use crate::order;
use std::time::{Duration, Instant};

/// Spans of a list to leave out: halves first, then ever smaller ones.
fn spans(n: usize) -> Vec<(usize, usize)> {
    let (mut out, mut size) = (Vec::new(), n);
    while size > 0 {
        out.extend((0..n).step_by(size).map(|from| (from, (from + size).min(n))));
        size /= 2;
    }
    out
}

fn without<T: Clone>(items: &[T], (from, to): (usize, usize)) -> Vec<T> {
    [&items[..from], &items[to..]].concat()
}

/// The case without the pins that nothing names.
fn renumbered(case: &Case) -> Case {
    let pins = case.gates.len() / 2;
    let mut used = vec![false; pins];
    let mut mark = |pin: u32| {
        if let Some(u) = used.get_mut(pin as usize) {
            *u = true
        }
    };
    mark(0);
    case.gates.iter().filter(|&&literal| literal != EMPTY).for_each(|&literal| mark(literal / 2));
    case.given.iter().for_each(|&pin| mark(pin));
    for record in case.split() {
        record[1..].iter().for_each(|&number| mark(if record[0] == 4 { number } else { number / 2 }));
    }
    let mut kept = 0;
    let number: Vec<u32> = used.iter().map(|&u| { kept += u as u32; kept.wrapping_sub(1) }).collect();
    // A pin past the last stays as far past it.
    let mut out = case.renamed(&|pin| number.get(pin as usize).copied().unwrap_or_else(|| pin - (pins as u32 - kept)));
    let kept = |p: usize| p >= pins || used[p];
    out.gates = out.gates.chunks(2).enumerate().filter(|(p, _)| kept(*p)).flat_map(|(_, gate)| gate.to_vec()).collect();
    out
}

/// What can be made smaller: all that is one step smaller, the largest steps first.
pub trait Shrinks: Clone + PartialEq {
    fn steps(&self) -> Vec<Self>;
}

/// Keeps what a change makes of a case, if it changes it.
fn keep<T: Clone + PartialEq>(out: &mut Vec<T>, case: &T, change: &dyn Fn(&mut T)) {
    let mut next = case.clone();
    change(&mut next);
    if next != *case {
        out.push(next);
    }
}

impl Shrinks for Case {
    fn steps(&self) -> Vec<Case> {
        case_steps(self)
    }
}

impl Shrinks for Merge {
    fn steps(&self) -> Vec<Merge> {
        merge_steps(self)
    }
}

fn case_steps(case: &Case) -> Vec<Case> {
    let mut out = Vec::new();
    let mut step = |change: &dyn Fn(&mut Case)| keep(&mut out, case, change);
    let records = case.split();
    for span in spans(records.len()) {
        step(&|c| c.records = without(&records, span).concat());
    }
    for span in spans(case.given.len()) {
        step(&|c| c.given = without(&case.given, span));
    }
    step(&|c| c.gates.truncate(c.gates.len() / 2 * 2));
    step(&|c| *c = renumbered(c));
    step(&|c| *c = order::ordered(c));
    for (from, to) in spans(case.gates.len() / 2) {
        step(&|c| c.gates[2 * from..2 * to].fill(EMPTY));
    }
    step(&|c| c.height -= (c.height > LEAST) as u32);
    step(&|c| c.rooms = 0);
    step(&|c| c.old = 0);
    for area in 0..4 {
        step(&|c| c.beyond[area] = 0);
    }
    for i in 0..case.gates.len().min(400) {
        step(&|c| c.gates[i] &= if c.gates[i] == EMPTY { EMPTY } else { !1 });
    }
    out
}

/// The merge without these records; the indices of the others fall, those past the last too.
fn without_records(merge: &Merge, records: &[Vec<u32>], (from, to): (usize, usize)) -> Merge {
    let mut out = merge.clone();
    out.case.records = without(records, (from, to)).concat();
    for part in &mut out.parts {
        part.retain(|&index| !(from..to).contains(&(index as usize)));
        part.iter_mut().filter(|index| **index as usize >= to).for_each(|index| *index -= (to - from) as u32);
    }
    out
}

fn merge_steps(merge: &Merge) -> Vec<Merge> {
    let mut out = Vec::new();
    let mut step = |change: &dyn Fn(&mut Merge)| keep(&mut out, merge, change);
    for span in spans(merge.parts.len()) {
        step(&|m| m.parts = without(&merge.parts, span));
    }
    let records = merge.case.split();
    for span in spans(records.len()) {
        step(&|m| *m = without_records(m, &records, span));
    }
    for (p, part) in merge.parts.iter().enumerate() {
        for span in spans(part.len()) {
            step(&|m| m.parts[p] = without(part, span));
        }
    }
    for i in 0..3 {
        step(&|m| m.beyond[i] = 0);
    }
    step(&|m| m.wrong = None);
    step(&|m| m.extra = 0);
    step(&|m| m.extra /= 2);
    // Those with other records would change what the indices name.
    for case in case_steps(&merge.case).into_iter().filter(|case| case.split().len() == records.len()) {
        step(&|m| m.case = case.clone());
    }
    out
}

/// The smallest case found in the time at hand.
pub fn shrink<T: Shrinks>(case: &T, fails: &dyn Fn(&T) -> bool, most: Duration) -> T {
    let (start, mut best) = (Instant::now(), case.clone());
    while let Some(next) = best.steps().into_iter().take_while(|_| start.elapsed() < most).find(|c| fails(c)) {
        best = next;
    }
    best
}

#[cfg(test)]
mod tests {
    use super::*;
    use crate::check;
    use crate::random;

    #[test]
    fn keeps_only_what_fails() {
        // Fails with a flip-flop at a gate: one gate, one record, two pins are needed.
        let fails = |c: &Case| {
            c.split().iter().any(|r| r[0] == 2 && r.len() == 3 && c.gates.get(r[2] as usize & !1).map_or(false, |&l| l != EMPTY))
        };
        let mut shrunk = 0;
        for index in 0..300 {
            let case = order::any(1, index, random::case(1, index, 7));
            if fails(&case) {
                let least = shrink(&case, &fails, Duration::from_secs(60));
                assert_eq!((least.split().len(), least.gate_count(), least.height, least.given.len()), (1, 1, 6, 0), "case {index}");
                shrunk += 1;
            }
        }
        assert!(shrunk > 20);
    }

    #[test]
    fn keeps_only_the_loop() {
        // Fails with a loop: one gate on itself is enough, nothing else is needed.
        let fails = |c: &Case| check::input(c) == 23;
        let mut shrunk = 0;
        for index in 0..600 {
            let case = order::any(1, index, random::case(1, index, 6));
            if fails(&case) {
                let least = shrink(&case, &fails, Duration::from_secs(60));
                // Every gate that is left is on the one loop.
                let opened = |pin: usize| {
                    let mut gates = least.gates.clone();
                    gates[2 * pin..2 * pin + 2].fill(EMPTY);
                    check::loop_pin(&gates) == 0
                };
                let gates: Vec<usize> = (1..=least.pins()).filter(|&pin| least.gates[2 * pin] != EMPTY).collect();
                assert!(gates.into_iter().all(opened), "case {index}");
                assert_eq!((least.records.len(), least.given.len()), (0, 0), "case {index}");
                shrunk += 1;
            }
        }
        assert!(shrunk > 20);
    }

    #[test]
    fn puts_gates_in_order_again() {
        // Fails with two gates, one on the other: shuffled or not, it comes out in order.
        let fails = |c: &Case| check::input(c) == 0 && c.gates.chunks(2).any(|gate| gate.iter().any(|&l| l != EMPTY && c.gates[l as usize & !1] != EMPTY));
        let mut shrunk = 0;
        for index in 0..100 {
            let case = order::any(1, index, random::case(1, index, 6));
            if fails(&case) && !case.in_order() {
                let least = shrink(&case, &fails, Duration::from_secs(60));
                assert_eq!((least.in_order(), least.gate_count()), (true, 2), "case {index}");
                shrunk += 1;
            }
        }
        assert!(shrunk > 20);
    }

    #[test]
    fn keeps_only_the_partitions_that_fail() {
        // Fails with a gate's output in the second of two partitions that are not empty.
        let fails = |m: &Merge| {
            let (records, full) = (m.case.split(), m.parts.iter().filter(|part| !part.is_empty()).collect::<Vec<_>>());
            let gate = |r: &Vec<u32>| r[0] == 1 && r.len() == 2 && m.case.gates.get(r[1] as usize & !1).map_or(false, |&l| l != EMPTY);
            full.len() > 1 && full[1].iter().any(|&index| records.get(index as usize).map_or(false, gate))
        };
        let mut shrunk = 0;
        for index in 0..60 {
            let mut merge = crate::merge::drawn(1, index, 6);
            merge.case = order::any(1, index, merge.case);
            if fails(&merge) {
                let least = shrink(&merge, &fails, Duration::from_secs(60));
                let kept = (least.parts.len(), least.list().0.len(), least.case.split().len() <= 2, least.case.gate_count(), least.extra);
                assert_eq!(kept, (2, 2, true, 1, 0), "merge {index}");
                shrunk += 1;
            }
        }
        assert!(shrunk > 10);
    }
}
