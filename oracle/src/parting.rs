//! Where the two word rules finish a stage differently, read off the published Rust's own cells and words.
//!
//! They do exactly where a run is idle: nothing is untouched, no needed waiting pin is left, and the Rust writes the run all the same. Up to that
//! stage waiting lists, cells and words are the same under both rules, and the cells of that stage too.
use crate::case::Case;
use crate::published::Stage;
use std::collections::HashSet;

const NONE: usize = usize::MAX;
const RUN: usize = 32;
/// A run with fewer filled cells is sparse.
const SPARSE: usize = 10;

/// What rules 8 to 10 came to in a stage.
struct Ended {
    /// The endpoints that it realised, in that order.
    realised: Vec<usize>,
    idle: bool,
}

/// The endpoints of these records, each once, in order: the first waiting list.
fn endpoints(records: &[Vec<u32>]) -> Vec<usize> {
    let (mut met, mut out) = (HashSet::new(), Vec::new());
    for record in records {
        for &number in &record[1..] {
            let pin = if record[0] == 4 { number } else { number / 2 } as usize;
            if pin > 0 && met.insert(pin) {
                out.push(pin);
            }
        }
    }
    out
}

/// The words set aside for memories and duplicates.
fn reserved(records: &[Vec<u32>]) -> usize {
    let (mut pins, mut asked) = (HashSet::new(), HashSet::new());
    for record in records.iter().filter(|record| record[0] != 3) {
        // A pin is asked for by an enable literal and its own inversion; outputs and staged pins have constant true for enable.
        let (pin, way) = match record[0] {
            2 => (record[2] / 2, 2 * record[1] + record[2] % 2),
            4 => (record[1], 2),
            _ => (record[1] / 2, 2 + record[1] % 2),
        };
        pins.insert(pin);
        asked.insert((pin, way));
    }
    records.iter().filter(|record| record[0] == 3).count() + (asked.len() - pins.len() + 31) / 32
}

/// Which cells of level 1 rules 2 to 7 filled: the first lower cell of a filled cell of level 2, and the second where that one doesn't copy.
fn laid(stage: &Stage) -> Vec<bool> {
    let (ones, twos) = (&stage.rows[1], &stage.rows[2]);
    (0..ones.len()).map(|cell| match twos[cell % twos.len()] {
        NONE => false,
        upper => cell < twos.len() || ones[cell - twos.len()] != upper,
    }).collect()
}

/// The words of the cells above level 0 that hold one of these pins, each once, level 1 upward.
fn words_of(stage: &Stage, pins: &HashSet<usize>) -> Vec<usize> {
    let mut out = Vec::new();
    for row in &stage.rows[1..] {
        for (cell, _) in row.iter().enumerate().filter(|(_, pin)| pins.contains(pin)) {
            let word = (row.len() + cell) / RUN;
            if !out.contains(&word) {
                out.push(word);
            }
        }
    }
    out
}

/// Rules 8 to 10 over a stage as it was left, with so many words still to be had; an error where it can't have come about by them.
fn ended(stage: &Stage, waiting: &[usize], room: usize) -> Result<Ended, String> {
    let (ones, laid) = (&stage.rows[1], laid(stage));
    let tree: HashSet<usize> = stage.rows[2..].iter().flatten().copied().chain((0..ones.len()).filter(|&cell| laid[cell]).map(|cell| ones[cell])).collect();
    let put: HashSet<usize> = (0..ones.len()).filter(|&cell| !laid[cell]).map(|cell| ones[cell]).collect();
    let waits: HashSet<usize> = waiting.iter().copied().collect();
    let needed: Vec<usize> = waiting.iter().copied().filter(|pin| !tree.contains(pin) && put.contains(pin)).collect();
    let untouched = waiting.iter().any(|pin| !tree.contains(pin) && !put.contains(pin));
    let filled = |start: usize| laid[start..start + RUN].iter().filter(|&&is| is).count();
    let mut runs: Vec<(usize, usize)> = (0..ones.len()).step_by(RUN).map(|start| (filled(start), start)).filter(|run| run.0 < SPARSE).collect();
    runs.sort();
    let (mut words, mut met, mut realised, mut next, mut idle) = (Vec::new(), HashSet::new(), Vec::new(), 0, false);
    let mut realise = |pin: usize| {
        if met.insert(pin) {
            realised.push(pin);
        }
    };
    for (filled, start) in runs {
        if untouched && needed.len() - next < RUN - filled {
            break;
        }
        idle |= next == needed.len();
        for cell in start..start + RUN {
            if next == needed.len() {
                break;
            }
            if laid[cell] {
                if waits.contains(&ones[cell]) {
                    realise(ones[cell]);
                }
            } else if ones[cell] == needed[next] {
                realise(needed[next]);
                next += 1;
            } else {
                return Err(format!("cell {cell} of level 1 doesn't hold the waiting pin {} that is next", needed[next]));
            }
        }
        words.push((ones.len() + start) / RUN);
    }
    if !stage.words.starts_with(&words) {
        return Err(format!("the words {:?} don't begin with those of the sparse runs, {words:?}", stage.words));
    }
    let more = &stage.words[words.len()..];
    if untouched {
        return if more.is_empty() { Ok(Ended { realised, idle }) } else { Err("last words, though a pin is untouched".into()) };
    }
    let ends: Vec<usize> = waiting.iter().copied().filter(|pin| tree.contains(pin)).collect();
    let last = words_of(stage, &ends.iter().copied().filter(|pin| !realised.contains(pin)).collect());
    let fit = words.len() + last.len() <= room;
    if more != if fit { &last[..] } else { &[] } {
        return Err(format!("the last words are {more:?}; {} of {last:?} fit", if fit { "all" } else { "not all" }));
    }
    if fit {
        let known: HashSet<usize> = realised.iter().copied().collect();
        realised.extend(ends.into_iter().filter(|pin| !known.contains(pin)));
    }
    Ok(Ended { realised, idle })
}

/// The first of a whole build's stages that the word rules finish differently, counted from 1. An error where the stages can't have come about by the
/// rules as they are read here: that is a difference too.
pub fn parting(case: &Case, records: &[Vec<u32>], stages: &[Stage]) -> Result<Option<usize>, String> {
    let (mut waiting, mut room) = (endpoints(records), case.word_limit() - reserved(records));
    let mut parted = None;
    for (at, stage) in (1..).zip(stages) {
        let wrong = |what: String| format!("stage {at} of the Rust is not as its rules are read: {what}");
        if waiting.is_empty() {
            return Err(wrong("nobody waits".into()));
        }
        let Ended { realised, idle } = ended(stage, &waiting, room).map_err(wrong)?;
        room = room.checked_sub(stage.words.len()).ok_or_else(|| wrong("too many words".into()))?;
        for pin in realised {
            let place = waiting.iter().position(|&other| other == pin).ok_or_else(|| wrong(format!("pin {pin} doesn't wait")))?;
            waiting.swap_remove(place);
        }
        if idle {
            parted = parted.or(Some(at));
        }
    }
    match (waiting.is_empty(), parted) {
        (false, _) => Err("somebody waits behind the Rust's last stage".into()),
        // Behind an idle run only pins of the tree wait, and the next stage has room for all of them.
        (_, Some(at)) if stages.len() > at + 1 => Err(format!("the rules part in stage {at}, and the Rust has {} stages", stages.len())),
        (_, parted) => Ok(parted),
    }
}

#[cfg(test)]
mod tests {
    use super::*;
    use crate::case::EMPTY;
    use crate::check;
    use crate::published::{self, Outcome, Rust};
    use crate::random;

    fn built(case: &Case) -> Option<Vec<Stage>> {
        match published::build(case.height, &published::graph(Rust::Published, case)).0 {
            Outcome::Whole(stages) => Some(stages),
            _ => None,
        }
    }

    fn read(case: &Case, stages: &[Stage]) -> Result<Option<usize>, String> {
        parting(case, &case.split(), stages)
    }

    // The scope document's examples that the Rust builds.
    #[test]
    fn examples() {
        let parted = |height: u32, gates: &[u32], records: Vec<u32>| {
            let case = Case { height, gates: gates.to_vec(), given: Vec::new(), records, rooms: 0, beyond: [0; 4], old: 0 };
            read(&case, &built(&case).unwrap())
        };
        let gates = [EMPTY, EMPTY, EMPTY, EMPTY, EMPTY, EMPTY, EMPTY, EMPTY, EMPTY, EMPTY, 2, 4, 6, 9, 10, 12];
        assert_eq!(parted(6, &gates, vec![1, 14]), Ok(Some(1)));
        assert_eq!(parted(13, &[EMPTY; 4], vec![1, 2]), Ok(Some(1)));
        // The one run is written for its pins.
        assert_eq!(parted(6, &[EMPTY; 66], (1..=31).flat_map(|pin| [1, 2 * pin]).collect()), Ok(None));
    }

    // Stages that the rules can't have made are told from those that they can.
    #[test]
    fn nothing_else_is_read() {
        let mut told = [0; 3];
        for index in 0..600 {
            let case = random::case(3, index, 7);
            let stages = if check::input(&case) == 0 { built(&case) } else { None };
            let mut stages = match stages {
                Some(stages) if !stages.is_empty() => stages,
                _ => continue,
            };
            let parted = read(&case, &stages).unwrap();
            if let Some(at) = parted {
                // A word less, of an idle run or of the last.
                let word = stages[at - 1].words.pop().unwrap();
                assert!(read(&case, &stages).is_err(), "case {index}");
                stages[at - 1].words.push(word);
                told[0] += 1;
            }
            if let Some(at) = stages.iter().position(|stage| stage.words.len() > 1 && stage.words[0] != stage.words[1]) {
                stages[at].words.swap(0, 1);
                assert!(read(&case, &stages).is_err(), "case {index}");
                stages[at].words.swap(0, 1);
                told[1] += 1;
            }
            // The last stage missing: somebody waits.
            stages.pop();
            assert!(read(&case, &stages).is_err(), "case {index}");
            told[2] += 1;
        }
        assert!(told.iter().all(|&n| n > 50), "{told:?}");
    }
}
