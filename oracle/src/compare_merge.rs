//! One merge to the library, to the published Rust and to the Rust with one line changed, and what must be the same.
use crate::case::{Sizes, EMPTY};
use crate::check;
use crate::compare::AROUND;
use crate::merge::{self, Answer, Merge, Ruled};
use crate::placer::{self, Areas, Groups, Merged};
use crate::published::{self, Rust};
use crate::random::Random;
use std::panic::{catch_unwind, AssertUnwindSafe};

const NAMES: [&str; 7] = ["indices", "lengths", "stages", "plan", "words", "counts", "work"];

/// All that is lent, in the order of the names, with the numbers around it.
type Lent = [Vec<u32>; 7];

/// What a merge that agreed was like.
pub struct Agreed {
    pub number: u32,
    pub partitions: usize,
    pub left: usize,
    pub trials: usize,
    /// A union failed.
    pub failed: bool,
    /// A block was not begun.
    pub not_begun: bool,
    pub decided: Decided,
}

fn refused(number: u32, stage: usize, refused: usize) -> Merged {
    Merged { number, stages: 0, words: 0, stage, partitions: 0, trials: 0, refused, pin: 0, cells: 0 }
}

fn expected(answer: &Answer) -> Merged {
    match answer {
        Answer::Refused { number, stage, part } => refused(*number, *stage, *part),
        Answer::Whole { parts, trials } => Merged {
            number: 0,
            stages: parts.iter().map(|part| part.stages).sum(),
            words: parts.iter().map(|part| part.words).sum(),
            stage: 0,
            partitions: parts.len(),
            trials: *trials,
            refused: 0,
            pin: 0,
            cells: parts.iter().map(|part| part.cells).sum(),
        },
    }
}

/// What is lent as the library must leave it, out of what it held.
fn left(merge: &Merge, number: u32, answer: Option<&Answer>, lent: Sizes, before: &Lent) -> Lent {
    let mut after = before.clone();
    if (1..=5).contains(&number) || number == 23 || number == 10 {
        return after;
    }
    let mut put = |area: usize, numbers: Vec<u32>| after[area][AROUND..AROUND + numbers.len()].copy_from_slice(&numbers);
    put(3, vec![EMPTY; lent[0]]);
    put(4, vec![EMPTY; merge.case.word_limit()]);
    put(5, vec![0; lent[0] / merge.case.stage_size()]);
    put(6, vec![0; merge.work_size()]);
    if let (0, Some(Answer::Whole { parts, .. })) = (number, answer) {
        let filled = |numbers: Vec<usize>| {
            let mut all: Vec<u32> = numbers.into_iter().map(|n| n as u32).collect();
            all.resize(merge.list().1.len(), 0);
            all
        };
        put(0, parts.iter().flat_map(|part| part.records.iter().map(|&record| record as u32)).collect());
        put(1, filled(parts.iter().map(|part| part.records.len()).collect()));
        put(2, filled(parts.iter().map(|part| part.stages).collect()));
    }
    after
}

fn inner(numbers: &mut [u32]) -> &mut [u32] {
    let end = numbers.len() - AROUND;
    &mut numbers[AROUND..end]
}

/// What the library made of a merge: its answer, and all that is lent.
fn library(merge: &Merge, before: &Lent) -> (Merged, Lent) {
    let mut after = before.clone();
    let [indices, lengths, stages, plan, words, counts, work] = &mut after;
    let groups = Groups { indices: inner(indices), lengths: inner(lengths), stages: inner(stages) };
    let areas = Areas { plan: inner(plan), words: inner(words), counts: inner(counts), work: inner(work) };
    let case = &merge.case;
    let answer = placer::merge(case.height, &case.gates, &case.given, &case.records, groups, merge.extra, areas);
    (answer, after)
}

/// The library's answer to a merge in so many rooms, with the indices, lengths and stages that it leaves.
pub fn merged(merge: &Merge, rooms: usize) -> (Merged, [Vec<u32>; 3]) {
    let (answer, mut after) = library(merge, &filled(merge, merge.sizes(rooms)));
    (answer, [0, 1, 2].map(|area| inner(&mut after[area]).to_vec()))
}

/// The list and the areas with random numbers in and around them.
fn filled(merge: &Merge, lent: Sizes) -> Lent {
    let mut r = Random::new(merge.case.old);
    let (indices, lengths, stages) = merge.list();
    let sizes = [indices.len(), lengths.len(), stages, lent[0], lent[1], lent[2], lent[3]];
    let mut out = sizes.map(|size| (0..size + 2 * AROUND).map(|_| r.next() as u32).collect::<Vec<_>>());
    out[0][AROUND..AROUND + indices.len()].copy_from_slice(&indices);
    out[1][AROUND..AROUND + lengths.len()].copy_from_slice(&lengths);
    out
}

/// How much of a merge the published Rust decides.
#[derive(Clone, Copy, Debug, PartialEq)]
pub enum Decided {
    /// Nothing: the checks refuse the merge, and it isn't asked.
    Unasked,
    /// All: each build that the merge makes is the same by both rules, or the refusal is.
    Whole,
    /// That the merge is not refused, or in no partition before the one that the Rust refuses.
    Bounds,
}

/// What a Rust makes of a merge, in rooms that follow from its own builds or are given.
fn ruled(rust: Rust, merge: &Merge, rooms: Option<usize>) -> Result<Ruled, String> {
    let graph = published::graph(rust, &merge.case);
    catch_unwind(AssertUnwindSafe(|| {
        let ruled = merge::answer(merge, &graph)?;
        let rooms = rooms.unwrap_or_else(|| rooms_of(merge, ruled.deepest));
        // With fewer rooms than the Rust's builds take, the rules alone tell what is to come.
        Ok(if rooms < ruled.deepest { Ruled { deepest: ruled.deepest, ..merge::by_the_rules(merge, &graph, rooms) } } else { ruled })
    }))
    .unwrap_or_else(|_| Err("the Rust panics on a partition or a union, or its stages are not as its rules are read".into()))
}

fn rooms_of(merge: &Merge, stages: usize) -> usize {
    merge.sizes(stages)[0] / merge.case.stage_size()
}

/// What is not as a Rust that decides all has it, if anything.
fn differs(merge: &Merge, ruled: &Ruled, lent: Sizes, before: &Lent, given: &Merged, after: &Lent) -> Option<String> {
    let wanted = expected(&ruled.answer);
    if *given != wanted {
        return Some(format!("the answer is {given:?}, not {wanted:?}"));
    }
    changed(&left(merge, wanted.number, Some(&ruled.answer), lent, before), after)
}

/// The first number of what is lent that is not right.
fn changed(right: &Lent, after: &Lent) -> Option<String> {
    for area in 0..right.len() {
        if let Some(i) = (0..right[area].len()).find(|&i| right[area][i] != after[area][i]) {
            return Some(format!("{} {} is {}, not {}", NAMES[area], i as i64 - AROUND as i64, after[area][i], right[area][i]));
        }
    }
    None
}

/// What doesn't follow from the published Rust's answer where it doesn't decide all: what it accepts the new rule accepts.
fn out_of_bounds(answer: &Answer, given: &Merged) -> Option<String> {
    let first = match answer {
        Answer::Whole { .. } => usize::MAX,
        Answer::Refused { part, .. } => *part,
    };
    // The partition that the Rust refuses is not refused with 6, since the Rust would have done so too.
    let later = given.refused > first || given.refused == first && given.number != 6;
    if given.number == 0 || (6..=9).contains(&given.number) && later {
        return None;
    }
    Some(format!("the answer is {given:?}, where the Rust {}", if first == usize::MAX { "merges".into() } else { format!("refuses partition {first}") }))
}

/// Err says what differs, and what the areas' sizes are.
pub fn compare(merge: &Merge) -> Result<Agreed, (String, Sizes)> {
    let at_first = merge.sizes(1);
    let valid = check::merge_input(merge);
    let theirs = if valid { Some(ruled(Rust::Published, merge, None).map_err(|what| (what, at_first))?) } else { None };
    let lent = merge.sizes(theirs.as_ref().map_or(1, |ruled| ruled.deepest));
    let fail = |what: String| (what, lent);
    let rooms = lent[0] / merge.case.stage_size();
    let other = if valid { Some(ruled(Rust::Changed, merge, Some(rooms)).map_err(fail)?) } else { None };
    let before = filled(merge, lent);
    let copy = merge.clone();
    let (given, after) = library(merge, &before);
    if copy != *merge {
        return Err(fail("an input was changed".into()));
    }
    let checked = check::merge_number(merge, lent);
    let mut agreed = Agreed { number: given.number, partitions: merge.list().1.len(), left: given.partitions, trials: given.trials, failed: false, not_begun: false, decided: Decided::Unasked };
    let (theirs, other) = match (theirs, other) {
        (Some(theirs), Some(other)) if checked == 0 => (theirs, other),
        _ => {
            let wanted = Merged { pin: check::pin_shown(checked, &merge.case.gates), ..refused(checked, 0, 0) };
            return match changed(&before, &after) {
                _ if given != wanted => Err(fail(format!("the answer is {given:?}, not {wanted:?}"))),
                Some(what) => Err(fail(what)),
                None => Ok(agreed),
            };
        }
    };
    let (decided, wrong) = if theirs.decided {
        (Decided::Whole, differs(merge, &theirs, lent, &before, &given, &after))
    } else {
        (Decided::Bounds, out_of_bounds(&theirs.answer, &given))
    };
    if let Some(what) = wrong {
        return Err(fail(format!("beside the published Rust: {what}")));
    }
    if let Some(what) = differs(merge, &other, lent, &before, &given, &after) {
        return Err(fail(format!("beside the Rust with one line changed: {what}")));
    }
    let full = merge.parts.iter().filter(|part| !part.is_empty()).count();
    agreed.decided = decided;
    agreed.failed = given.number == 0 && given.trials > full - given.partitions;
    agreed.not_begun = given.number == 0 && other.not_begun;
    Ok(agreed)
}

#[cfg(test)]
mod tests {
    use super::*;

    #[test]
    fn what_follows_where_a_build_parts() {
        let whole = Answer::Whole { parts: Vec::new(), trials: 0 };
        let second = Answer::Refused { number: 7, stage: 3, part: 2 };
        let odd = |answer: &Answer, number: u32, part: usize| out_of_bounds(answer, &refused(number, 1, part)).is_some();
        assert!(!odd(&whole, 0, 0) && odd(&whole, 7, 1) && odd(&whole, 9, 4));
        assert!(!odd(&second, 0, 0) && !odd(&second, 7, 2) && !odd(&second, 8, 2) && !odd(&second, 6, 3) && !odd(&second, 9, 3));
        assert!(odd(&second, 6, 2) && odd(&second, 7, 1) && odd(&second, 10, 3));
    }
}
