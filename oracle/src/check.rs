//! The scope document's refusals 1 to 5 and 10, read off its table, and 23, a loop of gates.
use crate::case::{record_size, Case, Sizes, EMPTY, GREATEST, LEAST};
use crate::merge::Merge;

const MOST_PINS: usize = 65_535;
const MOST_NUMBERS: usize = 65_536;
const MOST_PARTITIONS: usize = 1_024;
const MOST_EXTRA: usize = 255;

fn sizes_fit(case: &Case, lent: Sizes, needed: usize) -> bool {
    let [plan, words, counts, work] = lent;
    plan % case.stage_size() == 0
        && words >= case.word_limit()
        && counts >= plan / case.stage_size()
        && work >= needed
}

fn graph_fits(gates: &[u32]) -> bool {
    let named = |literal: u32| literal / 2 > 0 && (literal as usize / 2) < gates.len() / 2;
    if gates.is_empty() || gates.len() % 2 != 0 || gates.len() / 2 - 1 > MOST_PINS {
        return false;
    }
    gates.chunks(2).enumerate().all(|(pin, gate)| {
        (gate[0] == EMPTY && gate[1] == EMPTY) || (pin > 0 && named(gate[0]) && named(gate[1]))
    })
}

/// Takes away the pins with nothing left behind them, again and again; `before` has each pin that another is behind of.
fn peel(behind: &[Vec<usize>], before: &[Vec<usize>], left: &mut [bool]) {
    let mut count: Vec<usize> = behind.iter().map(|pins| pins.iter().filter(|&&pin| left[pin]).count()).collect();
    let mut next: Vec<usize> = (0..left.len()).filter(|&pin| left[pin] && count[pin] == 0).collect();
    while let Some(pin) = next.pop() {
        left[pin] = false;
        for &user in before[pin].iter().filter(|&&user| left[user]) {
            count[user] -= 1;
            if count[user] == 0 {
                next.push(user);
            }
        }
    }
}

/// The smallest pin on a loop of gates, given or not, of a graph that 3 lets pass; 0 if there is none.
pub fn loop_pin(gates: &[u32]) -> usize {
    let pins = gates.len() / 2;
    let (mut operands, mut users) = (vec![Vec::new(); pins], vec![Vec::new(); pins]);
    for (pin, gate) in gates.chunks(2).enumerate().filter(|(_, gate)| *gate != [EMPTY; 2]) {
        for &literal in gate {
            operands[pin].push(literal as usize / 2);
            users[literal as usize / 2].push(pin);
        }
    }
    // What is left is on a loop, or between two: each is searched from, the smallest first.
    let mut left = vec![true; pins];
    peel(&operands, &users, &mut left);
    peel(&users, &operands, &mut left);
    let on_loop = |pin: usize| {
        let (mut seen, mut next) = (vec![false; pins], operands[pin].clone());
        while let Some(operand) = next.pop() {
            if left[operand] && !seen[operand] {
                seen[operand] = true;
                next.extend(&operands[operand]);
            }
        }
        seen[pin]
    };
    (1..pins).find(|&pin| left[pin] && on_loop(pin)).unwrap_or(0)
}

/// Whether a loop is left when the given pins are leaves.
pub fn loop_without_given(case: &Case) -> bool {
    let mut gates = case.gates.clone();
    for &pin in case.given.iter().filter(|&&pin| pin as usize <= case.pins()) {
        gates[2 * pin as usize..][..2].fill(EMPTY);
    }
    loop_pin(&gates) > 0
}

fn records_fit(records: &[u32], pins: usize) -> bool {
    if records.len() > MOST_NUMBERS {
        return false;
    }
    let mut at = 0;
    while at < records.len() {
        let kind = records[at];
        let size = match record_size(kind) {
            Some(size) if at + size <= records.len() => size,
            _ => return false,
        };
        let pin = |number: u32| if kind == 4 { number } else { number / 2 };
        if records[at + 1..at + size].iter().any(|&number| pin(number) as usize > pins) {
            return false;
        }
        at += size;
    }
    true
}

/// The first of 1, 3, 23, 4 and 5 that applies, whatever is lent; 0 if none does.
pub fn input(case: &Case) -> u32 {
    if !(LEAST..=GREATEST).contains(&case.height) {
        1
    } else if !graph_fits(&case.gates) {
        3
    } else if loop_pin(&case.gates) > 0 {
        23
    } else if !records_fit(&case.records, case.pins()) {
        4
    } else if case.given.iter().any(|&pin| pin as usize > case.pins()) {
        5
    } else {
        0
    }
}

/// The first of 1, 2, 3, 23, 4 and 5 that applies; 0 if none does.
pub fn number(case: &Case, lent: Sizes) -> u32 {
    match input(case) {
        1 => 1,
        _ if !sizes_fit(case, lent, case.work_size()) => 2,
        number => number,
    }
}

/// The pin shown with a refusal.
pub fn pin_shown(number: u32, gates: &[u32]) -> usize {
    if number == 23 {
        loop_pin(gates)
    } else {
        0
    }
}

fn list_fits(merge: &Merge) -> bool {
    let (indices, lengths, stages) = merge.list();
    lengths.len() == stages && lengths.iter().map(|&length| length as usize).sum::<usize>() == indices.len()
}

fn merge_fits(merge: &Merge) -> bool {
    let (indices, lengths, _) = merge.list();
    let groups = merge.case.split().len();
    (1..=MOST_PARTITIONS).contains(&lengths.len()) && merge.extra <= MOST_EXTRA && indices.iter().all(|&index| (index as usize) < groups)
}

/// The first of 1, 2, 3, 23, 4, 5 and 10 that applies to a merge; 0 if none does.
pub fn merge_number(merge: &Merge, lent: Sizes) -> u32 {
    match input(&merge.case) {
        1 => 1,
        _ if !list_fits(merge) || !sizes_fit(&merge.case, lent, merge.work_size()) => 2,
        0 if !merge_fits(merge) => 10,
        number => number,
    }
}

/// Whether none of 1 to 5, 23 and 10 applies, whatever areas are lent.
pub fn merge_input(merge: &Merge) -> bool {
    input(&merge.case) == 0 && list_fits(merge) && merge_fits(merge)
}
