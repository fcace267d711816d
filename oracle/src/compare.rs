//! One case to the library, to the published Rust and to the Rust with one line changed, and what must be the same.
use crate::case::{Case, Sizes, EMPTY};
use crate::check;
use crate::parting::parting;
use crate::placer::{self, Answer, Areas, Cell};
use crate::published::{self, Outcome, Rust, Stage};
use crate::random::Random;

const NAMES: [&str; 4] = ["plan", "words", "counts", "work"];

/// Numbers around each lent area, which the library must not reach.
pub const AROUND: usize = 16;

/// How much of a case the published Rust decides.
#[derive(Clone, Copy, Debug, PartialEq)]
pub enum Decided {
    /// Nothing: the checks refuse the case, and it isn't asked.
    Unasked,
    /// All: the plan with every stage, since the rules never part.
    Whole,
    /// The cells up to and with the stage where the rules part, and the words before it.
    UpTo(usize),
    /// A refusal that is the same by both rules: nothing of a plan.
    Refusal,
    /// What follows from its refusal with 7, or from rooms that end where the rules part: nothing of a plan, and the answer within bounds.
    Bounds,
}

/// What a case that agreed was like.
pub struct Agreed {
    pub number: u32,
    pub stages: usize,
    pub taken_back: bool,
    /// A word stands twice in a stage.
    pub twice: bool,
    pub decided: Decided,
}

/// The pin of a cell, which is all that the Rust has of it; an empty one stays the empty mark.
pub fn pin_of(cell: u32) -> u32 {
    Cell(cell).pin().unwrap_or(EMPTY)
}

/// The cell of a filled position of a stage of pins: above level 0 it copies where its first lower cell holds its pin, else it ANDs, inverted as its
/// gate says.
fn cell_of(case: &Case, pins: &[u32], position: usize) -> Cell {
    let (pin, row) = (pins[position], 1 << (usize::BITS - 1 - position.leading_zeros()));
    if 2 * row == pins.len() || pins[position + row] == pin {
        return Cell::plain(pin);
    }
    let gate = &case.gates[2 * pin as usize..][..2];
    Cell::and(pin, gate[0] % 2 == 1, gate[1] % 2 == 1)
}

/// The first cell of a plan that does something else than the graph says of its pins.
fn misdone(case: &Case, pins: &[u32], cells: &[u32]) -> Option<String> {
    let size = case.stage_size();
    for (stage, (pins, cells)) in pins.chunks(size).zip(cells.chunks(size)).enumerate() {
        for position in (1..size).filter(|&position| pins[position] != EMPTY) {
            let right = cell_of(case, pins, position);
            if Cell(cells[position]) != right {
                return Some(format!("cell {position} of stage {} is {}, not {}", stage + 1, cells[position], right.0));
            }
        }
    }
    None
}

/// A stage of the Rust by position, empty cells as the empty mark.
fn pins_of(case: &Case, stage: &Stage) -> Vec<u32> {
    let mut out = vec![EMPTY; case.stage_size()];
    for row in &stage.rows {
        for (cell, &pin) in row.iter().enumerate().filter(|(_, &pin)| pin != usize::MAX) {
            out[row.len() + cell] = pin as u32;
        }
    }
    out
}

/// The areas as the library must leave them, out of what they held; of a built plan the pins.
fn left(case: &Case, number: u32, outcome: Option<&Outcome>, lent: Sizes, before: &[Vec<u32>; 4]) -> [Vec<u32>; 4] {
    let mut after = before.clone();
    if (1..=5).contains(&number) || number == 23 {
        return after;
    }
    let counted = [lent[0], case.word_limit(), lent[0] / case.stage_size(), case.work_size()];
    let empty = [EMPTY, EMPTY, 0, 0];
    for area in 0..4 {
        after[area][AROUND..AROUND + counted[area]].fill(empty[area]);
    }
    if let (0, Some(Outcome::Whole(stages))) = (number, outcome) {
        let mut written = AROUND;
        for (s, stage) in stages.iter().enumerate() {
            after[0][AROUND + s * case.stage_size()..][..case.stage_size()].copy_from_slice(&pins_of(case, stage));
            for &word in &stage.words {
                after[1][written] = word as u32;
                written += 1;
            }
            after[2][AROUND + s] = stage.words.len() as u32;
        }
    }
    after
}

/// The answer to expect: the checks, then the Rust's, with the rooms that it doesn't have.
pub fn expected(checked: u32, pin: usize, outcome: Option<&Outcome>, rooms: usize) -> Answer {
    let refused = |number, stage| Answer { number, stages: 0, words: 0, stage, pin, cells: 0 };
    match outcome {
        _ if checked != 0 => refused(checked, 0),
        Some(Outcome::Whole(stages)) if stages.len() > rooms => refused(9, rooms + 1),
        Some(Outcome::Refused { stage, .. }) if *stage > rooms => refused(9, rooms + 1),
        Some(Outcome::Refused { number, stage }) => refused(*number, *stage),
        Some(Outcome::Whole(stages)) => {
            let (words, cells) = (stages.iter().map(|s| s.words.len()).sum(), stages.iter().map(|s| published::filled(&s.rows)).sum());
            Answer { number: 0, stages: stages.len(), words, stage: 0, pin, cells }
        }
        _ => unreachable!(),
    }
}

/// What the library made of a case, or a Rust would have left in as many rooms: the answer, and the areas with the numbers around them.
struct Left {
    answer: Answer,
    areas: [Vec<u32>; 4],
}

/// A case with all that is lent.
struct Lending<'a> {
    case: &'a Case,
    lent: Sizes,
    rooms: usize,
    before: [Vec<u32>; 4],
    /// The check that refuses it, or 0.
    checked: u32,
}

impl Lending<'_> {
    fn new(case: &Case, lent: Sizes) -> Lending<'_> {
        let mut r = Random::new(case.old);
        let before = lent.map(|size| (0..size + 2 * AROUND).map(|_| r.next() as u32).collect::<Vec<_>>());
        Lending { case, lent, rooms: lent[0] / case.stage_size(), before, checked: check::number(case, lent) }
    }

    fn library(&self) -> Left {
        let (case, lent, mut areas) = (self.case, self.lent, self.before.clone());
        let [plan, words, counts, work] = &mut areas;
        let inner = Areas {
            plan: &mut plan[AROUND..AROUND + lent[0]],
            words: &mut words[AROUND..AROUND + lent[1]],
            counts: &mut counts[AROUND..AROUND + lent[2]],
            work: &mut work[AROUND..AROUND + lent[3]],
        };
        let answer = placer::build(case.height, &case.gates, &case.given, &case.records, inner);
        Left { answer, areas }
    }

    /// As the library must leave it where a Rust decides all; of a built plan the pins.
    fn by(&self, outcome: Option<&Outcome>) -> Left {
        let answer = expected(self.checked, check::pin_shown(self.checked, &self.case.gates), outcome, self.rooms);
        Left { answer, areas: left(self.case, answer.number, outcome, self.lent, &self.before) }
    }

    /// What is not as a Rust that decides all has it, if anything; of a built plan's cells the pins.
    fn differs(&self, found: &Left, right: &Left) -> Option<String> {
        if found.answer != right.answer {
            return Some(format!("the answer is {:?}, not {:?}", found.answer, right.answer));
        }
        let (built, plan) = (right.answer.number == 0, AROUND..AROUND + self.lent[0]);
        for area in 0..4 {
            let pins = |at: usize, number: u32| if built && area == 0 && plan.contains(&at) { pin_of(number) } else { number };
            let odd = |&at: &usize| right.areas[area][at] != pins(at, found.areas[area][at]);
            if let Some(at) = (0..right.areas[area].len()).find(odd) {
                return Some(format!("{} {} is {}, not {}", NAMES[area], at as i64 - AROUND as i64, found.areas[area][at], right.areas[area][at]));
            }
        }
        None
    }

    /// The pins and words of each stage; None where the counts are no counts of the words.
    fn stages<'a>(&self, found: &'a Left) -> Option<Vec<(Vec<u32>, &'a [u32])>> {
        let [plan, words, counts, _] = &found.areas;
        let (size, mut at, mut out) = (self.case.stage_size(), AROUND, Vec::new());
        for stage in 0..found.answer.stages {
            let to = at.checked_add(*counts.get(AROUND + stage)? as usize)?;
            let cells = plan.get(AROUND + stage * size..AROUND + (stage + 1) * size)?;
            out.push((cells.iter().map(|&cell| pin_of(cell)).collect(), words.get(at..to)?));
            at = to;
        }
        Some(out)
    }

    /// What is not as the published Rust's stages have it up to the one where the rules part, if anything. There the words differ, or the build ends
    /// sooner: the Rust's idle runs are never written.
    fn parts(&self, found: &Left, theirs: &[Stage], parted: usize) -> Option<String> {
        let ours = match self.stages(found) {
            Some(ours) => ours,
            None => return Some("the counts are not those of the words".into()),
        };
        for (at, (stage, (pins, words))) in (1..=parted).zip(theirs.iter().zip(&ours)) {
            let right = pins_of(self.case, stage);
            if let Some(position) = (0..right.len()).find(|&position| right[position] != pins[position]) {
                return Some(format!("position {position} of stage {at} holds {}, not {}; the rules part in stage {parted}", pins[position], right[position]));
            }
            let same = words.iter().map(|&word| word as usize).eq(stage.words.iter().copied());
            if at < parted && !same {
                return Some(format!("the words of stage {at} are {words:?}, not {:?}; the rules part in stage {parted}", stage.words));
            }
            if at == parted && same && ours.len() == theirs.len() {
                return Some(format!("stage {at} ends as in the Rust, with idle runs"));
            }
        }
        None
    }

    /// How much the published Rust decides, or what is not as it must be. `parted` is the stage where the rules part, 0 if they never do.
    fn beside(&self, found: &Left, outcome: &Outcome, parted: usize) -> Result<Decided, String> {
        let (answer, rooms) = (&found.answer, self.rooms);
        let whole = |decided| match self.differs(found, &self.by(Some(outcome))) {
            None => Ok(decided),
            Some(what) => Err(what),
        };
        match outcome {
            Outcome::Whole(stages) if parted == 0 => whole(if stages.len() > rooms { Decided::Refusal } else { Decided::Whole }),
            // No stage before that one ends the build, so it has no room by either rule.
            Outcome::Whole(_) if rooms < parted => whole(Decided::Refusal),
            Outcome::Whole(stages) => {
                let most = stages.len();
                match answer.number {
                    0 if answer.stages >= parted && answer.stages <= most.min(rooms) => match self.parts(found, stages, parted) {
                        None => Ok(Decided::UpTo(parted)),
                        Some(what) => Err(what),
                    },
                    // The Rust takes one stage more. Whether the new rule does too depends on words that the Rust never writes.
                    9 if rooms < most && answer.stage == rooms + 1 => Ok(Decided::Bounds),
                    _ => Err(format!("the answer is {answer:?} in {rooms} rooms, where the Rust takes {most} stages and the rules part in stage {parted}")),
                }
            }
            // Words are no matter of 8, nor of 6; and the stage behind an idle run is never refused with 8.
            Outcome::Refused { number: 6 | 8, .. } => whole(Decided::Refusal),
            // The stages before are the same, but that the last of them may end the build where the Rust's idle runs left it no words to. If this one
            // passes, the Rust's has idle runs, so at most one more follows.
            Outcome::Refused { stage, .. } if rooms + 1 < *stage => whole(Decided::Refusal),
            Outcome::Refused { stage, .. } => {
                let within = match answer.number {
                    0 => (stage - 1..=stage + 1).contains(&answer.stages) && answer.stages <= rooms,
                    7 => (*stage..=stage + 1).contains(&answer.stage) && answer.stage <= rooms,
                    8 => answer.stage == *stage && answer.stage <= rooms,
                    9 => rooms <= *stage && answer.stage == rooms + 1,
                    _ => false,
                };
                if within { Ok(Decided::Bounds) } else { Err(format!("the answer is {answer:?} in {rooms} rooms, where the Rust refuses stage {stage} with 7")) }
            }
            Outcome::Panicked => Err("the Rust panics on an input that passes the checks".into()),
        }
    }
}

/// The stages that a Rust takes, or the one that it refuses; 1 where it isn't asked.
pub fn stages_taken(outcome: Option<&Outcome>) -> usize {
    match outcome {
        Some(Outcome::Whole(stages)) => stages.len(),
        Some(Outcome::Refused { stage, .. }) => *stage,
        _ => 1,
    }
}

fn twice(words: &[usize]) -> bool {
    (1..words.len()).any(|i| words[..i].contains(&words[i]))
}

/// Err says what differs, and the stages that the case's sizes are counted from.
pub fn compare(case: &Case) -> Result<Agreed, (String, usize)> {
    let valid = check::input(case) == 0;
    let asked = |rust| if valid { Some(published::build(case.height, &published::graph(rust, case))) } else { None };
    let (published, changed) = (asked(Rust::Published), asked(Rust::Changed));
    let (theirs, other) = (published.as_ref().map(|built| &built.0), changed.as_ref().map(|built| &built.0));
    let taken = stages_taken(theirs);
    let fail = |what: String| (what, taken);
    if let Some(Outcome::Panicked) = other {
        return Err(fail("the Rust with one line changed panics on an input that passes the checks".into()));
    }
    let parted = match theirs {
        Some(Outcome::Whole(stages)) => parting(case, &case.split(), stages).map_err(fail)?.unwrap_or(0),
        _ => 0,
    };
    let lending = Lending::new(case, case.sizes(taken));
    let copy = case.clone();
    let found = lending.library();
    if copy != *case {
        return Err(fail("an input was changed".into()));
    }
    let right = lending.by(other);
    let decided = match theirs {
        Some(theirs) if lending.checked == 0 => {
            // The reading of the Rust's stages must hold for the Rust with one line changed, which shares none of it.
            lending.beside(&right, theirs, parted).map_err(|what| fail(format!("the Rust with one line changed beside the published one: {what}")))?;
            lending.beside(&found, theirs, parted).map_err(|what| fail(format!("beside the published Rust: {what}")))?
        }
        _ => Decided::Unasked,
    };
    if let Some(what) = lending.differs(&found, &right) {
        return Err(fail(if valid { format!("beside the Rust with one line changed: {what}") } else { what }));
    }
    if right.answer.number == 0 {
        let plan = AROUND..AROUND + lending.lent[0];
        if let Some(what) = misdone(case, &right.areas[0][plan.clone()], &found.areas[0][plan]) {
            return Err(fail(what));
        }
    }
    let twice = match other {
        Some(Outcome::Whole(stages)) if right.answer.number == 0 => stages.iter().any(|stage| twice(&stage.words)),
        _ => false,
    };
    let taken_back = changed.as_ref().map_or(false, |(_, seen)| seen.reversed > 0);
    Ok(Agreed { number: right.answer.number, stages: right.answer.stages, taken_back, twice, decided })
}
