//! The placer, for Rust: builds, also explained, merges, folds, replays, plans checked and mended, listings, plan sheets, job files and AIGER files. Link
//! `libentries.a`, which `ffi/library` writes (x86-64, Linux).
//! No crate beyond `core` is needed. Every function takes any numbers and slices, and answers or refuses; none panics.
//!
//! A room is the memory of one stage: `stage_size(height)` numbers of the plan and one of the counts. A build fills as many as it has stages.
//! Lend D + 1 rooms, and a refusal is about capacity (`OverReserved`, `OverWords` or `NoCell`), never about rooms (`NoRoom`). D is the most
//! gates on a way from an endpoint down to a leaf or a given pin, and `depth` tells it.
//!
//! The library keeps nothing between calls, so threads may call it at once. Where the gates are not in order (a gate has an operand above it) a
//! build, depth or merge takes up to 1 MiB of its thread's stack, else a few kilobytes; reading an AIGER file takes 600 kB more, writing one 70 kB, a
//! replay 330 kB, reading a plan sheet 64 kB, checking a plan 1 MiB, a replay over one too; mending one takes up to 2 MiB in all, an
//! explanation up to 1 MiB.

use core::fmt;

/// The version of this file and of the library that it is for: CHANGELOG.md.
pub const VERSION: &str = "0.10.0";

/// An empty cell of a plan, an unused word, and each literal of a leaf.
pub const EMPTY: u32 = u32::MAX;

/// Why a call was refused. All but `OverReserved` to `NoRoom` and `ShortLines` leave every slice as it was; after those plan and words are `EMPTY`, counts
/// and work 0. `WrongPlan` and `ShortList` leave the work of a plan mended 0.
#[derive(Clone, Copy, Debug, PartialEq, Eq)]
#[repr(u32)]
pub enum Refusal {
    /// The height is not 6 to 13.
    NoHeight = 1,
    /// A slice has the wrong size.
    WrongSize = 2,
    /// More than 65,535 pins, none at all, or a gate whose operands aren't above 0 and at most N; pin 0 is no gate.
    WrongGraph = 3,
    /// A record is of an unknown kind, cut, or names a pin above N; or there are more than 65,536 numbers of records.
    WrongRecord = 4,
    /// A given pin is above N.
    WrongGiven = 5,
    /// Memories and duplicate activations need more words than may be reserved.
    OverReserved = 6,
    /// The stage writes more words than are left.
    OverWords = 7,
    /// Level 1 has no cell for a needed pin of the stage, or none would stay empty.
    NoCell = 8,
    /// Pins wait, and no room is left for the stage.
    NoRoom = 9,
    /// A merge of no partitions or more than 1,024, a group index out of range, or more than 255 extra stages.
    WrongGroups = 10,
    /// The bytes are no job file, or no file holds the job.
    NoJob = 11,
    /// The bytes are no AIGER file, or it is cut; the answer has the place of the first bad line, or the file's length.
    NoAiger = 12,
    /// A latch has a reset value other than 0; the answer has the place of its line.
    Reset = 13,
    /// No AIGER file holds the job.
    NotAiger = 14,
    /// The bytes are no plan sheet, no sheet holds the plan, or its graph doesn't say what a pin of sheet 1 does.
    NoSheet = 15,
    /// A plan sheet of an unknown number, or of number 1 where no graph is lent.
    NewSheet = 16,
    /// A slice for what comes out is too short: of a plan sheet, or a replay's out or end.
    Short = 17,
    /// A replay has a memory or a given pin.
    NotPlain = 18,
    /// A driven pin is no leaf, or is driven twice.
    NotDriven = 19,
    /// Driven pins, starting bits or recording have not the length that records and lines state.
    WrongLength = 20,
    /// The list is too short for the lines of an explanation.
    ShortLines = 21,
    /// A plan made elsewhere, or a mended one, has a fault; the answer has the place of the first.
    WrongPlan = 22,
    /// A loop of gates, given or not; the answer shows the smallest pin on any.
    Loop = 23,
    /// The list is too short for the changes of a plan mended.
    ShortList = 24,
    /// The old word rule is asked for, which nothing is built by any more.
    OldRule = 25,
}

impl Refusal {
    /// What a number that was answered says; 0, and a number that no call answers, is none.
    pub const fn of(number: u32) -> Option<Refusal> {
        Some(match number {
            1 => Refusal::NoHeight,
            2 => Refusal::WrongSize,
            3 => Refusal::WrongGraph,
            4 => Refusal::WrongRecord,
            5 => Refusal::WrongGiven,
            6 => Refusal::OverReserved,
            7 => Refusal::OverWords,
            8 => Refusal::NoCell,
            9 => Refusal::NoRoom,
            10 => Refusal::WrongGroups,
            11 => Refusal::NoJob,
            12 => Refusal::NoAiger,
            13 => Refusal::Reset,
            14 => Refusal::NotAiger,
            15 => Refusal::NoSheet,
            16 => Refusal::NewSheet,
            17 => Refusal::Short,
            18 => Refusal::NotPlain,
            19 => Refusal::NotDriven,
            20 => Refusal::WrongLength,
            21 => Refusal::ShortLines,
            22 => Refusal::WrongPlan,
            23 => Refusal::Loop,
            24 => Refusal::ShortList,
            25 => Refusal::OldRule,
            _ => return None,
        })
    }

    /// A line for people.
    pub const fn describe(self) -> &'static str {
        match self {
            Refusal::NoHeight => "the height is not 6 to 13",
            Refusal::WrongSize => "a lent area has the wrong size",
            Refusal::WrongGraph => "the number of pins or a gate breaks the rules",
            Refusal::WrongRecord => "a record is unknown, cut, over size or names a pin above N",
            Refusal::WrongGiven => "a given pin is above N",
            Refusal::OverReserved => "more words to reserve than may be",
            Refusal::OverWords => "the stage writes more words than are left",
            Refusal::NoCell => "level 1 has no cell left for a pin of the stage",
            Refusal::NoRoom => "no room is left for the stage",
            Refusal::WrongGroups => "the partitions, group indices or extra stages of a merge",
            Refusal::NoJob => "no job file, or no file for the job",
            Refusal::NoAiger => "no AIGER file, or one that is cut",
            Refusal::Reset => "a latch has a reset value other than 0",
            Refusal::NotAiger => "no AIGER file holds the job",
            Refusal::NoSheet => "no plan sheet, or no sheet for the plan",
            Refusal::NewSheet => "a plan sheet of an unknown number, or of number 1 without its graph",
            Refusal::Short => "an area for what comes out is too short",
            Refusal::NotPlain => "a memory or a given pin, which no recording replays",
            Refusal::NotDriven => "a driven pin is no leaf, or is driven twice",
            Refusal::WrongLength => "driven pins, starting bits or recording have another length than stated",
            Refusal::ShortLines => "the list is too short for the explanation's lines",
            Refusal::WrongPlan => "the plan has a fault",
            Refusal::Loop => "a loop of gates",
            Refusal::ShortList => "the list is too short for the changes",
            Refusal::OldRule => "the old word rule, which nothing is built by any more",
        }
    }
}

impl fmt::Display for Refusal {
    fn fmt(&self, f: &mut fmt::Formatter<'_>) -> fmt::Result {
        write!(f, "refused {}: {}", *self as u32, self.describe())
    }
}

/// What stands at a position of a plan: `EMPTY`, or the sum of its pin and of what it does: 65,536 where it ANDs its two lower cells, then 131,072 where
/// it takes the first of them inverted and 262,144 where it takes the second. A filled cell that doesn't AND is its pin alone: at level 0 it loads the
/// pin, above it copies its first lower cell. So a plan is folded, packed and drawn without its graph.
#[derive(Clone, Copy, Debug, PartialEq, Eq)]
pub struct Cell(pub u32);

impl Cell {
    /// One that holds nothing.
    pub const NONE: Cell = Cell(EMPTY);

    /// One that loads or copies a pin from 1 to 65,535.
    pub const fn plain(pin: u32) -> Cell {
        Cell(pin)
    }

    /// One of such a pin that ANDs.
    pub const fn and(pin: u32, first_inverted: bool, second_inverted: bool) -> Cell {
        Cell(pin | 1 << 16 | (first_inverted as u32) << 17 | (second_inverted as u32) << 18)
    }

    /// Ask this first: the low 16 bits of `EMPTY` are a pin's too.
    pub const fn is_empty(self) -> bool {
        self.0 == EMPTY
    }

    /// None for an empty cell.
    pub const fn pin(self) -> Option<u32> {
        if self.is_empty() { None } else { Some(self.0 % 65_536) }
    }

    /// Whether it ANDs its two lower cells; if not, it loads, copies or is empty.
    pub const fn ands(self) -> bool {
        !self.is_empty() && self.0 >> 16 & 1 == 1
    }

    /// Whether it takes its first lower cell inverted; only a cell that ANDs does.
    pub const fn first_inversion(self) -> bool {
        !self.is_empty() && self.0 >> 17 & 1 == 1
    }

    /// And its second.
    pub const fn second_inversion(self) -> bool {
        !self.is_empty() && self.0 >> 18 & 1 == 1
    }
}

// Sizes, in elements. What does not fit is `usize::MAX`, which no memory has; so is any size for a height that is none.

/// A stage, which is a room of the plan.
pub const fn stage_size(height: u32) -> usize {
    if height < 6 || height > 13 { usize::MAX } else { 2 << height }
}

/// The plan for so many rooms: exactly a multiple of a stage. Counts have at least a number a room.
pub const fn plan_size(height: u32, rooms: usize) -> usize {
    rooms.saturating_mul(stage_size(height))
}

/// The least size of the words.
pub const fn words_size(height: u32) -> usize {
    if height < 6 || height > 13 { usize::MAX } else { 1 << (height - 5) }
}

/// The least size of a build's work, by the lengths of gates and records.
pub const fn build_work_size(gates: usize, records: usize) -> usize {
    (gates / 2).saturating_mul(16).saturating_add(records.saturating_mul(8)).saturating_add(512)
}

/// The least size of a merge's work, by the lengths of gates, records, indices and lengths.
pub const fn merge_work_size(gates: usize, records: usize, indices: usize, lengths: usize) -> usize {
    build_work_size(gates, records).saturating_add(indices.saturating_add(lengths).saturating_mul(8))
}

/// The least size of a fold's work, a number for each pin that a cell may hold. Its result has at least the plan's, and its bits may have any.
pub const FOLD_WORK: usize = 65_536;

/// The least size of a replay's tape, by the length of the plan; over a plan that is handed in, of its stages.
pub const fn replay_tape_size(plan: usize) -> usize {
    plan
}

/// The least size of a replay's slots, by the lengths of records and plan.
pub const fn replay_slots_size(records: usize, plan: usize) -> usize {
    plan.saturating_add(records)
}

/// The least size of a replay's bits, in bytes, by the lengths of gates and plan.
pub const fn replay_bits_size(gates: usize, plan: usize) -> usize {
    (gates / 2).saturating_add(plan / 2)
}

/// The least size of the work of a replay over a plan that is handed in, by the lengths of gates and records.
pub const fn replay_plan_work_size(gates: usize, records: usize) -> usize {
    (gates / 2).saturating_add(records)
}

/// The numbers of a change in the list of a plan mended.
pub const CHANGE: usize = 4;

/// The least size of the work of a plan mended, by the length of the plan, which it has a copy of.
pub const fn mend_work_size(plan: usize) -> usize {
    plan
}

/// A list that is always long enough for a plan mended of so many stages: a change at every position.
pub const fn mend_list_size(height: u32, stages: usize) -> usize {
    plan_size(height, stages).saturating_mul(CHANGE)
}

/// The numbers of a line in the list of an explanation.
pub const LINE: usize = 6;

/// A list that is always long enough for an explanation: a line for each level from 2 on of each room, and one for the refusal.
pub const fn explain_size(height: u32, rooms: usize) -> usize {
    if height < 6 || height > 13 {
        return usize::MAX;
    }
    rooms.saturating_mul(height as usize - 1).saturating_add(1).saturating_mul(LINE)
}

/// Bytes that hold any listing of so many stages and words, and any refusal's line: 17 a position, 11 a word, and what stands around them.
pub const fn listing_size(height: u32, stages: usize, words: usize) -> usize {
    let stage = stage_size(height).saturating_mul(17).saturating_add(48);
    stages.saturating_mul(stage).saturating_add(words.saturating_mul(11)).saturating_add(64)
}

/// Bytes that hold the plan sheet of any build with so many stages: 4, one a word that may be written, and 20 * 2^(height - 2) a stage.
pub const fn sheet_size(height: u32, stages: usize) -> usize {
    let stage = if height < 6 || height > 13 { usize::MAX } else { 20 << (height - 2) };
    stages.saturating_mul(stage).saturating_add(words_size(height)).saturating_add(4)
}

/// No job file has more bytes.
pub const JOB_BYTES: usize = 8192;
/// No job of a file has more numbers of gates,
pub const JOB_GATES: usize = 1002;
/// of given pins,
pub const JOB_GIVEN: usize = 4096;
/// and of records.
pub const JOB_RECORDS: usize = 512;

/// No AIGER file that is read has more numbers of gates,
pub const AIGER_GATES: usize = 131_072;
/// of records,
pub const AIGER_RECORDS: usize = 65_536;
/// and of latches.
pub const AIGER_LATCHES: usize = 21_845;

/// Bytes that hold the AIGER file of any job with so many numbers of gates and records: a line a leaf or gate, of at most three literals of six
/// digits, and a line a record.
pub const fn aiger_size(gates: usize, records: usize) -> usize {
    (gates / 2).saturating_mul(21).saturating_add(records.saturating_mul(7)).saturating_add(64)
}

/// Which sparse runs rule 8 writes once nothing is untouched, by the numbers that the entries know them by.
#[derive(Clone, Copy, Debug, PartialEq, Eq)]
#[repr(u32)]
pub enum WordRule {
    /// None after the last needed waiting pin: the rule of `build`, `explain` and `merge`.
    NeededRuns = 0,
    /// Every one, idle runs too, as the published Rust does: the old rule, which nothing is built by any more. It is named so that who asks for it is told:
    /// `OldRule`, before any other refusal, and every slice stays as it was. Plans and sheets that were made by it are taken as any other.
    EveryRun = 1,
}

/// The numbers that a build answers: 0 and the plan's stages, words and filled cells, or what refuses it and where; with 23 the smallest pin on any
/// loop.
#[derive(Clone, Copy, Debug, Default, PartialEq, Eq)]
pub struct Answer {
    pub number: u32,
    pub stages: usize,
    pub words: usize,
    pub stage: usize,
    pub pin: usize,
    pub cells: usize,
}

/// The numbers that an explanation answers: those of the build, and how many lines the list has, 0 with `ShortLines`.
#[derive(Clone, Copy, Debug, PartialEq, Eq)]
pub struct Explained {
    pub answer: Answer,
    pub lines: usize,
}

/// A line of an explanation. Stages count from 1.
#[derive(Clone, Copy, Debug, PartialEq, Eq)]
pub enum Line {
    /// A pin, and the three counts by which rule 7 takes it back, needed + max(filled, distinct) >= 2^(height - 1): the needed pins, the filled cells of
    /// level 1, the distinct pins above level 0.
    TakenBack { stage: u32, pin: u32, needed: u32, filled: u32, distinct: u32 },
    /// 6: the words reserved for so many memories and duplicates, over 2^(height - 5) - 1; else four times the memories and the duplicates, over
    /// 2^(height - 5).
    OverReserved { limit: u32, count: u32, memories: u32, duplicates: u32 },
    /// 7: the words that the stage wants, and those that are left.
    OverWords { stage: u32, left: u32, wanted: u32 },
    /// 8: the filled cells of level 1 and the needed pins left, over 2^(height - 1) - 1, since one cell stays empty.
    NoCell { stage: u32, limit: u32, filled: u32, needed: u32 },
}

impl Line {
    /// The line that six numbers of the list are; none where the first is no kind of line.
    pub const fn of(numbers: [u32; LINE]) -> Option<Line> {
        Some(match numbers {
            [1, stage, pin, needed, filled, distinct] => Line::TakenBack { stage, pin, needed, filled, distinct },
            [6, _, limit, count, memories, duplicates] => Line::OverReserved { limit, count, memories, duplicates },
            [7, stage, left, wanted, ..] => Line::OverWords { stage, left, wanted },
            [8, stage, limit, _, filled, needed] => Line::NoCell { stage, limit, filled, needed },
            _ => return None,
        })
    }
}

/// The lines at the front of a list, as many as the explanation answered.
pub fn lines(list: &[u32], count: usize) -> impl Iterator<Item = Line> + '_ {
    list.chunks_exact(LINE).take(count).filter_map(|numbers| Line::of(numbers.try_into().ok()?))
}

/// The areas that a build or a merge writes; the plan's numbers are cells. Each counts at its own size; numbers past it are never changed.
pub struct Areas<'a> {
    pub plan: &'a mut [u32],
    pub words: &'a mut [u32],
    pub counts: &'a mut [u32],
    pub work: &'a mut [u32],
}

/// The numbers that a merge answers: 0, the sums of the stages, words and filled cells, the partitions left and the unions examined; or what refuses it,
/// in which stage, and which partition from 1; with 23 the smallest pin on any loop.
#[derive(Clone, Copy, Debug, Default, PartialEq, Eq)]
pub struct Merged {
    pub number: u32,
    pub stages: usize,
    pub words: usize,
    pub stage: usize,
    pub partitions: usize,
    pub trials: usize,
    pub refused: usize,
    pub pin: usize,
    pub cells: usize,
}

/// The partitions that a merge is handed and leaves: the indices of their records from 0, partition after partition; a length and a
/// number of stages for each. It changes only when the merge is accepted.
pub struct Groups<'a> {
    pub indices: &'a mut [u32],
    pub lengths: &'a mut [u32],
    pub stages: &'a mut [u32],
}

/// The numbers that `depth` answers: 0 and D, or what refuses it and 0; with 23 the smallest pin on any loop.
#[derive(Clone, Copy, Debug, PartialEq, Eq)]
pub struct Depth {
    pub number: u32,
    pub depth: usize,
    pub pin: usize,
}

/// The numbers that `reserved` answers: 0, the records' memories and duplicate activations and the words set aside for them, or what refuses it and 0
/// each; with 23 the smallest pin on any loop.
#[derive(Clone, Copy, Debug, PartialEq, Eq)]
pub struct Reserved {
    pub number: u32,
    pub memories: usize,
    pub duplicates: usize,
    pub words: usize,
    pub pin: usize,
}

/// What a circuit is run on: the leaf that each flip-flop drives, a starting bit each (0 or not 0), and so many lines of a recording, a byte for each
/// leaf that no flip-flop drives, in pin order.
#[derive(Clone, Copy)]
pub struct Recording<'a> {
    pub driven: &'a [u32],
    pub start: &'a [u8],
    pub lines: usize,
    pub bits: &'a [u8],
}

/// What a run gives: 0 or 1 for each literal or pin of the records, line after line, and the flip-flops' bits after the last. No refusal changes it.
pub struct Run<'a> {
    pub out: &'a mut [u8],
    pub end: &'a mut [u8],
}

/// The areas that a replay needs beside a build's; scratch, 0 afterwards.
pub struct Tape<'a> {
    pub tape: &'a mut [u32],
    pub slots: &'a mut [u32],
    pub bits: &'a mut [u8],
}

/// A plan that is handed in: so many stages of cells, the words of all stages, and how many each has. Cells and counts past the stages are not looked at;
/// the words may have any length, and one that isn't there is no word.
#[derive(Clone, Copy)]
pub struct Plan<'a> {
    pub cells: &'a [u32],
    pub words: &'a [u32],
    pub counts: &'a [u32],
    pub stages: usize,
}

/// The numbers that checking a plan answers, and a replay over one: 0, or what refuses it; with 22 the first fault's stage, from 1, and its position, both 0
/// for a reservation that is over or an endpoint that is missing; with 23 the smallest pin on any loop. What does not apply is 0.
#[derive(Clone, Copy, Debug, PartialEq, Eq)]
pub struct Checked {
    pub number: u32,
    pub stage: usize,
    pub position: usize,
    pub pin: usize,
}

/// A plan that is to be mended: as `Plan`, but that after 0 its cells are the mended ones.
pub struct Damaged<'a> {
    pub cells: &'a mut [u32],
    pub words: &'a [u32],
    pub counts: &'a [u32],
    pub stages: usize,
}

/// The numbers that mending a plan answers: 0 and how many changes the list has, or what refuses it; with 22 the place of the mended plan's first fault, as
/// of `Checked`; with 23 the smallest pin on any loop. What does not apply is 0.
#[derive(Clone, Copy, Debug, PartialEq, Eq)]
pub struct Mended {
    pub number: u32,
    pub stage: usize,
    pub position: usize,
    pub pin: usize,
    pub count: usize,
}

/// A place of the plan that mending changed: the stage, from 1, the position, and the cell before and after.
#[derive(Clone, Copy, Debug, PartialEq, Eq)]
pub struct Change {
    pub stage: u32,
    pub position: u32,
    pub old: Cell,
    pub new: Cell,
}

/// The changes at the front of a list, as many as mending answered.
pub fn changes(list: &[u32], count: usize) -> impl Iterator<Item = Change> + '_ {
    list.chunks_exact(CHANGE).take(count).map(|numbers| Change { stage: numbers[0], position: numbers[1], old: Cell(numbers[2]), new: Cell(numbers[3]) })
}

/// The number that a fold answers: 0, or what refuses it, `NoHeight` or `WrongSize`.
#[derive(Clone, Copy, Debug, PartialEq, Eq)]
pub struct Folded {
    pub number: u32,
}

/// The numbers that a listing and a file written answer: 0 and how many bytes were written, or what refuses it and 0.
#[derive(Clone, Copy, Debug, PartialEq, Eq)]
pub struct Written {
    pub number: u32,
    pub length: usize,
}

/// The numbers that reading a plan sheet answers: 0, the height, the stages and the words in all; or what refuses it and 0.
#[derive(Clone, Copy, Debug, PartialEq, Eq)]
pub struct Sheet {
    pub number: u32,
    pub height: u32,
    pub stages: usize,
    pub words: usize,
}

/// The numbers that reading a job file answers: 0, the height and how many numbers each slice has of the job; or what refuses it and 0.
#[derive(Clone, Copy, Debug, PartialEq, Eq)]
pub struct Job {
    pub number: u32,
    pub height: u32,
    pub gates: usize,
    pub given: usize,
    pub records: usize,
}

/// The numbers that reading an AIGER file answers: 0 and how many numbers each slice has of it; or what refuses it, with 12 and 13 the place of the
/// line's first byte, from 0, or the file's length, with 23 the smallest pin on any loop. What does not apply is 0.
#[derive(Clone, Copy, Debug, PartialEq, Eq)]
pub struct Aiger {
    pub number: u32,
    pub place: usize,
    pub pin: usize,
    pub gates: usize,
    pub records: usize,
    pub latches: usize,
}

#[rustfmt::skip]
extern "C" {
    fn placer_build_by(
        rule: u32,
        height: u32,
        gates: *const u32, gates_len: usize,
        given: *const u32, given_len: usize,
        records: *const u32, records_len: usize,
        plan: *mut u32, plan_len: usize,
        words: *mut u32, words_len: usize,
        counts: *mut u32, counts_len: usize,
        work: *mut u32, work_len: usize,
        answer: *mut usize, answer_len: usize,
    ) -> u32;

    fn explain_build_by(
        rule: u32,
        height: u32,
        gates: *const u32, gates_len: usize,
        given: *const u32, given_len: usize,
        records: *const u32, records_len: usize,
        plan: *mut u32, plan_len: usize,
        words: *mut u32, words_len: usize,
        counts: *mut u32, counts_len: usize,
        work: *mut u32, work_len: usize,
        list: *mut u32, list_len: usize,
        answer: *mut usize, answer_len: usize,
    ) -> u32;

    fn placer_depth(
        gates: *const u32, gates_len: usize,
        given: *const u32, given_len: usize,
        records: *const u32, records_len: usize,
        work: *mut u32, work_len: usize,
        answer: *mut usize, answer_len: usize,
    ) -> u32;

    fn placer_reserved(
        gates: *const u32, gates_len: usize,
        given: *const u32, given_len: usize,
        records: *const u32, records_len: usize,
        work: *mut u32, work_len: usize,
        answer: *mut usize, answer_len: usize,
    ) -> u32;

    fn merge_partitions_by(
        rule: u32,
        height: u32,
        gates: *const u32, gates_len: usize,
        given: *const u32, given_len: usize,
        records: *const u32, records_len: usize,
        indices: *mut u32, indices_len: usize,
        lengths: *mut u32, lengths_len: usize,
        stages: *mut u32, stages_len: usize,
        extra: usize,
        plan: *mut u32, plan_len: usize,
        words: *mut u32, words_len: usize,
        counts: *mut u32, counts_len: usize,
        work: *mut u32, work_len: usize,
        answer: *mut usize, answer_len: usize,
    ) -> u32;

    fn fold_plan(
        height: u32,
        plan: *const u32, plan_len: usize,
        bits: *const u32, bits_len: usize,
        result: *mut u32, result_len: usize,
        work: *mut u32, work_len: usize,
        answer: *mut usize, answer_len: usize,
    ) -> u32;

    fn replay_recording(
        height: u32,
        gates: *const u32, gates_len: usize,
        given: *const u32, given_len: usize,
        records: *const u32, records_len: usize,
        driven: *const u32, driven_len: usize,
        start: *const u8, start_len: usize,
        lines: usize,
        recording: *const u8, recording_len: usize,
        out: *mut u8, out_len: usize,
        end: *mut u8, end_len: usize,
        plan: *mut u32, plan_len: usize,
        words: *mut u32, words_len: usize,
        counts: *mut u32, counts_len: usize,
        work: *mut u32, work_len: usize,
        tape: *mut u32, tape_len: usize,
        slots: *mut u32, slots_len: usize,
        bits: *mut u8, bits_len: usize,
        answer: *mut usize, answer_len: usize,
    ) -> u32;

    #[link_name = "check_plan"]
    fn check_plan_entry(
        height: u32,
        gates: *const u32, gates_len: usize,
        given: *const u32, given_len: usize,
        records: *const u32, records_len: usize,
        plan: *const u32, plan_len: usize,
        words: *const u32, words_len: usize,
        counts: *const u32, counts_len: usize,
        stages: usize,
        answer: *mut usize, answer_len: usize,
    ) -> u32;

    #[link_name = "replay_plan"]
    fn replay_plan_entry(
        height: u32,
        gates: *const u32, gates_len: usize,
        given: *const u32, given_len: usize,
        records: *const u32, records_len: usize,
        driven: *const u32, driven_len: usize,
        start: *const u8, start_len: usize,
        lines: usize,
        recording: *const u8, recording_len: usize,
        out: *mut u8, out_len: usize,
        end: *mut u8, end_len: usize,
        plan: *const u32, plan_len: usize,
        words: *const u32, words_len: usize,
        counts: *const u32, counts_len: usize,
        stages: usize,
        work: *mut u32, work_len: usize,
        tape: *mut u32, tape_len: usize,
        slots: *mut u32, slots_len: usize,
        bits: *mut u8, bits_len: usize,
        answer: *mut usize, answer_len: usize,
    ) -> u32;

    #[link_name = "mend_plan"]
    fn mend_plan_entry(
        height: u32,
        gates: *const u32, gates_len: usize,
        given: *const u32, given_len: usize,
        records: *const u32, records_len: usize,
        plan: *mut u32, plan_len: usize,
        words: *const u32, words_len: usize,
        counts: *const u32, counts_len: usize,
        stages: usize,
        list: *mut u32, list_len: usize,
        work: *mut u32, work_len: usize,
        answer: *mut usize, answer_len: usize,
    ) -> u32;

    #[link_name = "list_answer"]
    fn list_answer_entry(
        height: u32,
        number: u32,
        stages: usize,
        stage: usize,
        pin: u32,
        plan: *const u32, plan_len: usize,
        words: *const u32, words_len: usize,
        counts: *const u32, counts_len: usize,
        out: *mut u8, out_len: usize,
        answer: *mut usize, answer_len: usize,
    ) -> u32;

    #[link_name = "write_sheet"]
    fn write_sheet_entry(
        height: u32,
        stages: usize,
        plan: *const u32, plan_len: usize,
        words: *const u32, words_len: usize,
        counts: *const u32, counts_len: usize,
        bytes: *mut u8, bytes_len: usize,
        answer: *mut usize, answer_len: usize,
    ) -> u32;

    #[link_name = "read_sheet"]
    fn read_sheet_entry(
        gates: *const u32, gates_len: usize,
        bytes: *const u8, bytes_len: usize,
        plan: *mut u32, plan_len: usize,
        words: *mut u32, words_len: usize,
        counts: *mut u32, counts_len: usize,
        answer: *mut usize, answer_len: usize,
    ) -> u32;

    #[link_name = "read_job"]
    fn read_job_entry(
        bytes: *const u8, bytes_len: usize,
        gates: *mut u32, gates_len: usize,
        given: *mut u32, given_len: usize,
        records: *mut u32, records_len: usize,
        answer: *mut usize, answer_len: usize,
    ) -> u32;

    #[link_name = "write_job"]
    fn write_job_entry(
        height: u32,
        gates: *const u32, gates_len: usize,
        given: *const u32, given_len: usize,
        records: *const u32, records_len: usize,
        bytes: *mut u8, bytes_len: usize,
        answer: *mut usize, answer_len: usize,
    ) -> u32;

    #[link_name = "read_aiger"]
    fn read_aiger_entry(
        bytes: *const u8, bytes_len: usize,
        gates: *mut u32, gates_len: usize,
        records: *mut u32, records_len: usize,
        latches: *mut u32, latches_len: usize,
        answer: *mut usize, answer_len: usize,
    ) -> u32;

    #[link_name = "write_aiger"]
    fn write_aiger_entry(
        gates: *const u32, gates_len: usize,
        given: *const u32, given_len: usize,
        records: *const u32, records_len: usize,
        latches: *const u32, latches_len: usize,
        bytes: *mut u8, bytes_len: usize,
        answer: *mut usize, answer_len: usize,
    ) -> u32;
}

/// Lays the gates under the records' endpoints into stages of a tree of this height. It takes any numbers and slices.
pub fn build(height: u32, gates: &[u32], given: &[u32], records: &[u32], areas: Areas<'_>) -> Answer {
    build_by(WordRule::NeededRuns, height, gates, given, records, areas)
}

/// As `build`, by the word rule that is asked for; `EveryRun` is refused with `OldRule`.
pub fn build_by(rule: WordRule, height: u32, gates: &[u32], given: &[u32], records: &[u32], areas: Areas<'_>) -> Answer {
    let mut answer = [0usize; 6];
    let Areas { plan, words, counts, work } = areas;
    // SAFETY: each pointer and length is a slice's, and no two that are written overlap, since each is borrowed mutably.
    let number = unsafe {
        placer_build_by(
            rule as u32,
            height,
            gates.as_ptr(), gates.len(),
            given.as_ptr(), given.len(),
            records.as_ptr(), records.len(),
            plan.as_mut_ptr(), plan.len(),
            words.as_mut_ptr(), words.len(),
            counts.as_mut_ptr(), counts.len(),
            work.as_mut_ptr(), work.len(),
            answer.as_mut_ptr(), answer.len(),
        )
    };
    Answer { number, stages: answer[1], words: answer[2], stage: answer[3], pin: answer[4], cells: answer[5] }
}

/// Builds as `build` does, and says why in `list`: a line for each pin that rule 7 takes back, in the order of the stages and, within one, as the rules reach
/// them; then, with 6, 7 and 8, the line that says what is over. `explain_size` numbers are always enough; where the lines don't fit it is refused with
/// `ShortLines`, the list as it was, the areas as after `OverReserved`.
pub fn explain(height: u32, gates: &[u32], given: &[u32], records: &[u32], areas: Areas<'_>, list: &mut [u32]) -> Explained {
    explain_by(WordRule::NeededRuns, height, gates, given, records, areas, list)
}

/// As `explain`, by the word rule that is asked for; `EveryRun` is refused with `OldRule`.
pub fn explain_by(rule: WordRule, height: u32, gates: &[u32], given: &[u32], records: &[u32], areas: Areas<'_>, list: &mut [u32]) -> Explained {
    let mut answer = [0usize; 7];
    let Areas { plan, words, counts, work } = areas;
    // SAFETY: as for `build_by`.
    let number = unsafe {
        explain_build_by(
            rule as u32,
            height,
            gates.as_ptr(), gates.len(),
            given.as_ptr(), given.len(),
            records.as_ptr(), records.len(),
            plan.as_mut_ptr(), plan.len(),
            words.as_mut_ptr(), words.len(),
            counts.as_mut_ptr(), counts.len(),
            work.as_mut_ptr(), work.len(),
            list.as_mut_ptr(), list.len(),
            answer.as_mut_ptr(), answer.len(),
        )
    };
    let [_, stages, words, stage, pin, cells, lines] = answer;
    Explained { answer: Answer { number, stages, words, stage, pin, cells }, lines }
}

/// D, for how many rooms to lend: a build of these gates, given pins and records with D + 1 rooms is never refused with `NoRoom`, at any height.
/// The work is a build's, and 0 afterwards.
pub fn depth(gates: &[u32], given: &[u32], records: &[u32], work: &mut [u32]) -> Depth {
    let mut answer = [0usize; 3];
    // SAFETY: as for `build_by`.
    let number = unsafe {
        placer_depth(
            gates.as_ptr(), gates.len(),
            given.as_ptr(), given.len(),
            records.as_ptr(), records.len(),
            work.as_mut_ptr(), work.len(),
            answer.as_mut_ptr(), answer.len(),
        )
    };
    Depth { number, depth: answer[1], pin: answer[2] }
}

/// What a build of these records sets aside, counted whole, whether or not it is more than may be reserved. The work is a build's, and 0 afterwards.
pub fn reserved(gates: &[u32], given: &[u32], records: &[u32], work: &mut [u32]) -> Reserved {
    let mut answer = [0usize; 5];
    // SAFETY: as for `build_by`.
    let number = unsafe {
        placer_reserved(
            gates.as_ptr(), gates.len(),
            given.as_ptr(), given.len(),
            records.as_ptr(), records.len(),
            work.as_mut_ptr(), work.len(),
            answer.as_mut_ptr(), answer.len(),
        )
    };
    Reserved { number, memories: answer[1], duplicates: answer[2], words: answer[3], pin: answer[4] }
}

/// Merges partitions while no union takes more stages than the greatest of them and `extra` more. It takes any numbers and slices.
pub fn merge(height: u32, gates: &[u32], given: &[u32], records: &[u32], groups: Groups<'_>, extra: usize, areas: Areas<'_>) -> Merged {
    merge_by(WordRule::NeededRuns, height, gates, given, records, groups, extra, areas)
}

/// As `merge`, by the word rule that is asked for; `EveryRun` is refused with `OldRule`.
#[allow(clippy::too_many_arguments)]
pub fn merge_by(rule: WordRule, height: u32, gates: &[u32], given: &[u32], records: &[u32], groups: Groups<'_>, extra: usize, areas: Areas<'_>) -> Merged {
    let mut answer = [0usize; 9];
    let Groups { indices, lengths, stages } = groups;
    let Areas { plan, words, counts, work } = areas;
    // SAFETY: as for `build_by`.
    let number = unsafe {
        merge_partitions_by(
            rule as u32,
            height,
            gates.as_ptr(), gates.len(),
            given.as_ptr(), given.len(),
            records.as_ptr(), records.len(),
            indices.as_mut_ptr(), indices.len(),
            lengths.as_mut_ptr(), lengths.len(),
            stages.as_mut_ptr(), stages.len(),
            extra,
            plan.as_mut_ptr(), plan.len(),
            words.as_mut_ptr(), words.len(),
            counts.as_mut_ptr(), counts.len(),
            work.as_mut_ptr(), work.len(),
            answer.as_mut_ptr(), answer.len(),
        )
    };
    let [_, stages, words, stage, partitions, trials, refused, pin, cells] = answer;
    Merged { number, stages, words, stage, partitions, trials, refused, pin, cells }
}

/// Folds any plan of cells, for the bits of leaves and given pins (a number a pin from pin 0 on, 0 or not 0; pin 0's and those past the last count for
/// 0), to 0 or 1 a position. Of a number that is no cell the low 19 bits count; a cell that lacks a lower cell that it needs folds to 0, and so do empty
/// ones and position 0. The work has `FOLD_WORK` numbers, 0 afterwards.
pub fn fold(height: u32, plan: &[u32], bits: &[u32], result: &mut [u32], work: &mut [u32]) -> Folded {
    let mut answer = [0usize; 1];
    // SAFETY: as for `build_by`.
    let number = unsafe {
        fold_plan(
            height,
            plan.as_ptr(), plan.len(),
            bits.as_ptr(), bits.len(),
            result.as_mut_ptr(), result.len(),
            work.as_mut_ptr(), work.len(),
            answer.as_mut_ptr(), answer.len(),
        )
    };
    Folded { number }
}

/// Builds the plan of a circuit and runs it clock by clock, a line of the recording each; at every clock the bits are those of the plain graph. A
/// recording cut into two runs, the second starting with the first one's end bits, gives the same bits.
#[allow(clippy::too_many_arguments)]
pub fn replay(height: u32, gates: &[u32], given: &[u32], records: &[u32], recording: Recording<'_>, run: Run<'_>, areas: Areas<'_>, tape: Tape<'_>) -> Answer {
    let mut answer = [0usize; 6];
    let Run { out, end } = run;
    let Areas { plan, words, counts, work } = areas;
    let Tape { tape, slots, bits } = tape;
    // SAFETY: as for `build_by`.
    let number = unsafe {
        replay_recording(
            height,
            gates.as_ptr(), gates.len(),
            given.as_ptr(), given.len(),
            records.as_ptr(), records.len(),
            recording.driven.as_ptr(), recording.driven.len(),
            recording.start.as_ptr(), recording.start.len(),
            recording.lines,
            recording.bits.as_ptr(), recording.bits.len(),
            out.as_mut_ptr(), out.len(),
            end.as_mut_ptr(), end.len(),
            plan.as_mut_ptr(), plan.len(),
            words.as_mut_ptr(), words.len(),
            counts.as_mut_ptr(), counts.len(),
            work.as_mut_ptr(), work.len(),
            tape.as_mut_ptr(), tape.len(),
            slots.as_mut_ptr(), slots.len(),
            bits.as_mut_ptr(), bits.len(),
            answer.as_mut_ptr(), answer.len(),
        )
    };
    Answer { number, stages: answer[1], words: answer[2], stage: answer[3], pin: answer[4], cells: answer[5] }
}

/// Checks a plan that may be anyone's: one that was loaded from a sheet, a colleague's, one that was changed. Accepted (0), each filled cell folds to its
/// pin's value in the graph, for any bits of leaves and given pins, and each endpoint pin but the constant stands in a written word. With `WrongPlan` the
/// place is that of the first fault by stage and position. Whatever a build leaves is accepted.
pub fn check_plan(height: u32, gates: &[u32], given: &[u32], records: &[u32], plan: Plan<'_>) -> Checked {
    let mut answer = [0usize; 4];
    // SAFETY: as for `build_by`.
    let number = unsafe {
        check_plan_entry(
            height,
            gates.as_ptr(), gates.len(),
            given.as_ptr(), given.len(),
            records.as_ptr(), records.len(),
            plan.cells.as_ptr(), plan.cells.len(),
            plan.words.as_ptr(), plan.words.len(),
            plan.counts.as_ptr(), plan.counts.len(),
            plan.stages,
            answer.as_mut_ptr(), answer.len(),
        )
    };
    Checked { number, stage: answer[1], position: answer[2], pin: answer[3] }
}

/// Runs a recording over such a plan, which is checked first: as `replay`, without a build. The work has `replay_plan_work_size` numbers, 0 afterwards, as
/// the tape's areas. No refusal changes a slice.
#[allow(clippy::too_many_arguments)]
pub fn replay_plan(height: u32, gates: &[u32], given: &[u32], records: &[u32], recording: Recording<'_>, run: Run<'_>, plan: Plan<'_>, work: &mut [u32], tape: Tape<'_>) -> Checked {
    let mut answer = [0usize; 4];
    let Run { out, end } = run;
    let Tape { tape, slots, bits } = tape;
    // SAFETY: as for `build_by`.
    let number = unsafe {
        replay_plan_entry(
            height,
            gates.as_ptr(), gates.len(),
            given.as_ptr(), given.len(),
            records.as_ptr(), records.len(),
            recording.driven.as_ptr(), recording.driven.len(),
            recording.start.as_ptr(), recording.start.len(),
            recording.lines,
            recording.bits.as_ptr(), recording.bits.len(),
            out.as_mut_ptr(), out.len(),
            end.as_mut_ptr(), end.len(),
            plan.cells.as_ptr(), plan.cells.len(),
            plan.words.as_ptr(), plan.words.len(),
            plan.counts.as_ptr(), plan.counts.len(),
            plan.stages,
            work.as_mut_ptr(), work.len(),
            tape.as_mut_ptr(), tape.len(),
            slots.as_mut_ptr(), slots.len(),
            bits.as_mut_ptr(), bits.len(),
            answer.as_mut_ptr(), answer.len(),
        )
    };
    Checked { number, stage: answer[1], position: answer[2], pin: answer[3] }
}

/// Mends a plan of which some cells came back wrong, by the graph and the given pins; its words are not mended. A plan that `check_plan` accepts stays as it
/// is. Any other is rebuilt stage by stage, in each from the top down, a cell's pin being what a cell above it says, else its own; what comes of it passes
/// `check_plan`, or it is refused with `WrongPlan` and the place. The list has each change, by stage and position, at its front: `mend_list_size` numbers are
/// always enough, and with fewer it may be refused with `ShortList`. No refusal changes plan or list. The work has `mend_work_size` numbers, 0 afterwards but
/// with 1 to 5 and 23, which leave it.
pub fn mend_plan(height: u32, gates: &[u32], given: &[u32], records: &[u32], plan: Damaged<'_>, list: &mut [u32], work: &mut [u32]) -> Mended {
    let mut answer = [0usize; 5];
    // SAFETY: as for `build_by`.
    let number = unsafe {
        mend_plan_entry(
            height,
            gates.as_ptr(), gates.len(),
            given.as_ptr(), given.len(),
            records.as_ptr(), records.len(),
            plan.cells.as_mut_ptr(), plan.cells.len(),
            plan.words.as_ptr(), plan.words.len(),
            plan.counts.as_ptr(), plan.counts.len(),
            plan.stages,
            list.as_mut_ptr(), list.len(),
            work.as_mut_ptr(), work.len(),
            answer.as_mut_ptr(), answer.len(),
        )
    };
    let [_, stage, position, pin, count] = answer;
    Mended { number, stage, position, pin, count }
}

/// The text of what a build answered and left, to the front of `out`: the listing of its plan, or a refusal's line. `listing_size` bytes are
/// enough; where they are too few the text is refused with 2, and `out` is as it was.
pub fn list_answer(height: u32, built: &Answer, plan: &[u32], words: &[u32], counts: &[u32], out: &mut [u8]) -> Written {
    let mut answer = [0usize; 2];
    // SAFETY: as for `build_by`.
    let number = unsafe {
        list_answer_entry(
            height,
            built.number,
            built.stages,
            built.stage,
            built.pin as u32, // a pin is at most 65,535
            plan.as_ptr(), plan.len(),
            words.as_ptr(), words.len(),
            counts.as_ptr(), counts.len(),
            out.as_mut_ptr(), out.len(),
            answer.as_mut_ptr(), answer.len(),
        )
    };
    Written { number, length: answer[1] }
}

/// The sheet of so many stages of a plan, as a build left them, to the front of `bytes`. `sheet_size` bytes hold the sheet of any build, which is never
/// refused with `NoSheet`.
pub fn write_sheet(height: u32, stages: usize, plan: &[u32], words: &[u32], counts: &[u32], bytes: &mut [u8]) -> Written {
    let mut answer = [0usize; 2];
    // SAFETY: as for `build_by`.
    let number = unsafe {
        write_sheet_entry(
            height,
            stages,
            plan.as_ptr(), plan.len(),
            words.as_ptr(), words.len(),
            counts.as_ptr(), counts.len(),
            bytes.as_mut_ptr(), bytes.len(),
            answer.as_mut_ptr(), answer.len(),
        )
    };
    Written { number, length: answer[1] }
}

/// The plan of a sheet's bytes, into slices that then stand as a build leaves them. Sheet 2 has the cells whole, and `gates` may be empty; a sheet 1, which
/// earlier versions wrote, has pins alone, and needs the gates that were built: without them it is refused with `NewSheet`. Lend a room a stage, a count a
/// room, and words at least `words_size(height)` and as many as the sheet has, of which there are fewer than bytes. With empty slices it only judges:
/// `Short` is then for what is a sheet.
pub fn read_sheet(gates: &[u32], bytes: &[u8], plan: &mut [u32], words: &mut [u32], counts: &mut [u32]) -> Sheet {
    let mut answer = [0usize; 4];
    // SAFETY: as for `build_by`.
    let number = unsafe {
        read_sheet_entry(
            gates.as_ptr(), gates.len(),
            bytes.as_ptr(), bytes.len(),
            plan.as_mut_ptr(), plan.len(),
            words.as_mut_ptr(), words.len(),
            counts.as_mut_ptr(), counts.len(),
            answer.as_mut_ptr(), answer.len(),
        )
    };
    let [_, height, stages, words] = answer;
    Sheet { number, height: height as u32, stages, words } // a height is at most 13
}

/// The job of a file's bytes, to the front of the slices. `JOB_GATES`, `JOB_GIVEN` and `JOB_RECORDS` numbers hold any.
pub fn read_job(bytes: &[u8], gates: &mut [u32], given: &mut [u32], records: &mut [u32]) -> Job {
    let mut answer = [0usize; 5];
    // SAFETY: as for `build_by`.
    let number = unsafe {
        read_job_entry(
            bytes.as_ptr(), bytes.len(),
            gates.as_mut_ptr(), gates.len(),
            given.as_mut_ptr(), given.len(),
            records.as_mut_ptr(), records.len(),
            answer.as_mut_ptr(), answer.len(),
        )
    };
    let [_, height, gates, given, records] = answer;
    Job { number, height: height as u32, gates, given, records } // a height is at most 10
}

/// The file of a job, to the front of `bytes`. `JOB_BYTES` bytes hold any.
pub fn write_job(height: u32, gates: &[u32], given: &[u32], records: &[u32], bytes: &mut [u8]) -> Written {
    let mut answer = [0usize; 2];
    // SAFETY: as for `build_by`.
    let number = unsafe {
        write_job_entry(
            height,
            gates.as_ptr(), gates.len(),
            given.as_ptr(), given.len(),
            records.as_ptr(), records.len(),
            bytes.as_mut_ptr(), bytes.len(),
            answer.as_mut_ptr(), answer.len(),
        )
    };
    Written { number, length: answer[1] }
}

/// The graph of an ASCII AIGER file (`aag`), its records and the latches' leaves, to the front of the slices. `AIGER_GATES`, `AIGER_RECORDS` and
/// `AIGER_LATCHES` numbers hold any.
pub fn read_aiger(bytes: &[u8], gates: &mut [u32], records: &mut [u32], latches: &mut [u32]) -> Aiger {
    let mut answer = [0usize; 6];
    // SAFETY: as for `build_by`.
    let number = unsafe {
        read_aiger_entry(
            bytes.as_ptr(), bytes.len(),
            gates.as_mut_ptr(), gates.len(),
            records.as_mut_ptr(), records.len(),
            latches.as_mut_ptr(), latches.len(),
            answer.as_mut_ptr(), answer.len(),
        )
    };
    let [_, place, pin, gates, records, latches] = answer;
    Aiger { number, place, pin, gates, records, latches }
}

/// The AIGER file of a job without given pins, whose flip-flops have enable literal 1, stand before the outputs and drive the `latches`, all
/// different leaves, to the front of `bytes`. `aiger_size` bytes are enough. Reading it gives the same job.
pub fn write_aiger(gates: &[u32], given: &[u32], records: &[u32], latches: &[u32], bytes: &mut [u8]) -> Written {
    let mut answer = [0usize; 2];
    // SAFETY: as for `build_by`.
    let number = unsafe {
        write_aiger_entry(
            gates.as_ptr(), gates.len(),
            given.as_ptr(), given.len(),
            records.as_ptr(), records.len(),
            latches.as_ptr(), latches.len(),
            bytes.as_mut_ptr(), bytes.len(),
            answer.as_mut_ptr(), answer.len(),
        )
    };
    Written { number, length: answer[1] }
}
