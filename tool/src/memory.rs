//! Memory that may be missing, and how much of it is lent.

use crate::end::{say, Done, End};
use crate::placer::{build_work_size, depth, plan_size, replay_bits_size, replay_slots_size, replay_tape_size, stage_size, words_size, Areas, Tape};
use std::mem::size_of;

fn missing<T>(count: usize) -> End {
    End::Stopped(format!("placer: no memory for {}", size(count.saturating_mul(size_of::<T>()))))
}

/// An area of so many elements.
pub fn area<T: Clone>(value: T, count: usize) -> Done<Vec<T>> {
    let mut area = Vec::new();
    area.try_reserve_exact(count).map_err(|_| missing::<T>(count))?;
    area.resize(count, value);
    Ok(area)
}

/// Room for so many more.
pub fn more<T>(area: &mut Vec<T>, count: usize) -> Done<()> {
    area.try_reserve(count).map_err(|_| missing::<T>(count))
}

/// A number of bytes as people write it.
pub fn size(bytes: usize) -> String {
    for (shift, unit) in [(30, "GiB"), (20, "MiB"), (10, "KiB")] {
        if bytes >> shift > 0 {
            let below = bytes & ((1 << shift) - 1);
            return format!("{}.{} {unit}", bytes >> shift, (below * 10) >> shift);
        }
    }
    format!("{bytes} bytes")
}

/// The number of bytes that a text stands for: digits, then K, M, G or T for powers of 1,024.
pub fn parse_size(text: &str) -> Result<usize, String> {
    let (digits, shift) = match text.char_indices().last() {
        Some((at, 'K' | 'k')) => (&text[..at], 10),
        Some((at, 'M' | 'm')) => (&text[..at], 20),
        Some((at, 'G' | 'g')) => (&text[..at], 30),
        Some((at, 'T' | 't')) => (&text[..at], 40),
        _ => (text, 0),
    };
    let number: usize = digits.parse().map_err(|_| "a number of bytes, as 512M or 1G".to_string())?;
    number.checked_mul(1 << shift).ok_or_else(|| "more bytes than there are".to_string())
}

/// What the user says of height, rooms and memory.
#[derive(clap::Args, Clone)]
pub struct Space {
    /// Height of the trees, 6 to 13 [default: 13, a job's own for a job]
    #[arg(long, value_name = "K")]
    pub height: Option<u32>,
    /// Rooms to lend, one a stage [default: D + 1, which are always enough]
    #[arg(long, value_name = "R")]
    pub rooms: Option<usize>,
    /// Memory for files and rooms, in bytes or with K, M, G
    #[arg(long, value_name = "SIZE", default_value = "1G", value_parser = parse_size)]
    pub memory: usize,
}

/// The graph, given pins and records that a call is about.
#[derive(Clone, Copy)]
pub struct Graph<'a> {
    pub gates: &'a [u32],
    pub given: &'a [u32],
    pub records: &'a [u32],
}

/// The areas of a build, lent again and again.
pub struct Lent {
    pub rooms: usize,
    pub plan: Vec<u32>,
    pub words: Vec<u32>,
    pub counts: Vec<u32>,
    pub work: Vec<u32>,
}

impl Lent {
    pub fn areas(&mut self) -> Areas<'_> {
        Areas { plan: &mut self.plan, words: &mut self.words, counts: &mut self.counts, work: &mut self.work }
    }
}

/// The areas of a replay beside those.
pub struct Taped {
    pub tape: Vec<u32>,
    pub slots: Vec<u32>,
    pub bits: Vec<u8>,
}

impl Taped {
    pub fn of(graph: Graph<'_>, plan: usize) -> Done<Taped> {
        Ok(Taped {
            tape: area(0, replay_tape_size(plan))?,
            slots: area(0, replay_slots_size(graph.records.len(), plan))?,
            bits: area(0, replay_bits_size(graph.gates.len(), plan))?,
        })
    }

    pub fn areas(&mut self) -> Tape<'_> {
        Tape { tape: &mut self.tape, slots: &mut self.slots, bits: &mut self.bits }
    }
}

/// What a plan is wanted for, by what a room then needs beside its cells: nothing, a replay's tape, a copy.
#[derive(Clone, Copy)]
pub enum For {
    Build,
    Replay,
    Mend,
}

/// What a room costs, in bytes.
fn room_bytes(height: u32, wanted: For) -> usize {
    let stage = stage_size(height);
    let plan = stage.saturating_mul(size_of::<u32>());
    let beside = match wanted {
        For::Build => 0,
        For::Replay => plan.saturating_mul(2).saturating_add(stage / 2),
        For::Mend => plan,
    };
    plan.saturating_add(beside).saturating_add(size_of::<u32>())
}

/// The rooms that are asked for, else `enough`; fewer where the memory allows no more, which is said.
pub fn rooms(name: &str, space: &Space, height: u32, enough: usize, wanted: For) -> usize {
    let asked = space.rooms.unwrap_or(enough);
    let held = (height >= 6 && height <= 13).then(|| space.memory / room_bytes(height, wanted)).unwrap_or(0);
    if asked > held && held > 0 {
        let take = size(asked.saturating_mul(room_bytes(height, wanted)));
        say(format!("placer: {name}: {asked} rooms take {take}; --memory allows {held}, which are lent"));
    } else if asked > held && stage_size(height) != usize::MAX {
        say(format!("placer: {name}: --memory allows no room of {}", size(room_bytes(height, wanted))));
    }
    asked.min(held)
}

/// The areas of a plan: cells, words and counts.
pub fn plan(height: u32, rooms: usize, words: usize) -> Done<(Vec<u32>, Vec<u32>, Vec<u32>)> {
    Ok((area(0, if rooms == 0 { 0 } else { plan_size(height, rooms) })?, area(0, words)?, area(0, rooms)?))
}

/// Lends what a build needs, with the rooms that are asked for, else D + 1; fewer where the memory allows no more, which is said.
pub fn lend(name: &str, space: &Space, height: u32, graph: Graph<'_>, work: usize, wanted: For) -> Done<Lent> {
    let mut work = area(0, work.max(build_work_size(graph.gates.len(), graph.records.len())))?;
    // what depth refuses a build refuses too, and then no room is needed
    let told = depth(graph.gates, graph.given, graph.records, &mut work);
    let enough = if told.number == 0 { told.depth.saturating_add(1) } else { 0 };
    let rooms = rooms(name, space, height, enough, wanted);
    let words = if stage_size(height) == usize::MAX { 0 } else { words_size(height) };
    let (plan, words, counts) = plan(height, rooms, words)?;
    Ok(Lent { rooms, plan, words, counts, work })
}
