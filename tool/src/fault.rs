//! What is wrong with a plan that the library refuses with 22, in words. The library has told the place of the first fault; this only looks there. Some faults
//! no sheet has, since reading it refuses them with 15: a filled position 0, a word that is none, a number that is no cell.

use crate::end::Done;
use crate::job::{Form, Job};
use crate::memory;
use crate::placer::{build_work_size, reserved, stage_size, words_size, Cell, EMPTY};
use crate::plan::Built;
use crate::why;
use std::fmt::Display;

/// A plan, and the graph that it is to be of.
struct Look<'a> {
    job: &'a Job,
    built: &'a Built,
}

/// Which row from the top a position stands in, from 0: the row begins at that power of two.
pub fn depth(position: usize) -> u32 {
    usize::BITS - 1 - (position | 1).leading_zeros()
}

/// Where the first lower cell of a position stands, and the second.
pub fn lower(position: usize) -> (usize, usize) {
    let row = 1usize << depth(position);
    (position + row, position + 2 * row)
}

/// A position as people find it in a tree: level and cell, both from 0.
pub fn place(height: u32, position: usize) -> String {
    format!("level {}, cell {} (position {position})", height - depth(position), position - (1usize << depth(position)))
}

fn literal(pin: impl Display, inverted: bool) -> String {
    format!("{}{pin}", if inverted { "not " } else { "" })
}

impl Look<'_> {
    /// The cells of a stage, from 1.
    fn stage(&self, stage: usize) -> &[u32] {
        let size = stage_size(self.built.height);
        self.built.lent.plan.chunks_exact(size).nth(stage - 1).unwrap_or(&[])
    }

    fn cell(&self, stage: usize, position: usize) -> Cell {
        self.stage(stage).get(position).map_or(Cell::NONE, |&cell| Cell(cell))
    }

    /// How many words a stage is to write.
    fn count(&self, stage: usize) -> usize {
        self.built.lent.counts.get(stage - 1).map_or(0, |&count| count as usize)
    }

    /// The words of a stage behind so many of the stages before; words that aren't there are left out.
    fn words(&self, stage: usize, before: usize) -> &[u32] {
        let rest = self.built.lent.words.get(before..).unwrap_or(&[]);
        &rest[..self.count(stage).min(rest.len())]
    }

    fn level(&self, position: usize) -> u32 {
        self.built.height - depth(position)
    }

    fn place(&self, position: usize) -> String {
        place(self.built.height, position)
    }

    /// The two literals of a pin that a gate drives.
    fn gate(&self, pin: u32) -> Option<[u32; 2]> {
        match self.job.gates.get(2 * pin as usize..2 * pin as usize + 2) {
            Some(&[first, second]) if [first, second] != [EMPTY, EMPTY] => Some([first, second]),
            _ => None,
        }
    }

    /// What the graph says of a pin.
    fn graph(&self, pin: u32) -> String {
        let given = if self.job.given.contains(&pin) { ", and given" } else { "" };
        match self.gate(pin) {
            Some(literals) => {
                let [first, second] = literals.map(|number| literal(format!("pin {}", number / 2), number % 2 == 1));
                format!("in the graph, {}, it is the AND of {first} and {second}{given}", self.job.name)
            }
            None => format!("in the graph, {}, it is a leaf{given}", self.job.name),
        }
    }

    /// Does a cell above level 0 of a stage hold a pin?
    fn held(&self, stage: usize, pin: u32) -> bool {
        (1..1usize << self.built.height).any(|position| self.cell(stage, position).pin() == Some(pin))
    }

    /// A cell of level 0 that may not load its pin.
    fn load(&self, stage: usize, pin: u32) -> String {
        if stage == 1 {
            return format!("it loads pin {pin}, which is neither a leaf nor given; {}", self.graph(pin));
        }
        let before = (1..stage - 1).rev().find(|&earlier| self.held(earlier, pin));
        let also = before.map_or(String::new(), |earlier| format!("; stage {earlier} does, but a stage loads from the one before it"));
        format!("it loads pin {pin}, which stage {} doesn't hold above level 0{also}", stage - 1)
    }

    /// A lower cell as an operand.
    fn operand(&self, stage: usize, position: usize, inverted: bool) -> String {
        match self.cell(stage, position).pin() {
            Some(pin) => literal(format!("pin {pin}"), inverted),
            None => literal(format!("the empty position {position}"), inverted),
        }
    }

    /// The fault of a filled cell.
    fn at_cell(&self, stage: usize, position: usize) -> Option<String> {
        let cell = self.cell(stage, position);
        let pin = cell.pin()?;
        let pins = (self.job.gates.len() / 2).saturating_sub(1);
        let (first, second) = lower(position);
        Some(if pin == 0 || pin as usize > pins {
            format!("it holds pin {pin}; the graph, {}, has pins 1 to {pins}", self.job.name)
        } else if cell.0 >> 19 > 0 || (cell.0 != pin && (!cell.ands() || self.level(position) == 0)) {
            format!("it holds the number {}, which is no cell of its level", cell.0)
        } else if self.level(position) == 0 {
            self.load(stage, pin)
        } else if !cell.ands() {
            let under = self.cell(stage, first).pin().map_or("is empty".to_string(), |other| format!("holds pin {other}"));
            format!("it copies pin {pin}, and its first lower cell, at position {first}, {under}; {}", self.graph(pin))
        } else if self.job.given.contains(&pin) || self.gate(pin).is_none() {
            let what = if self.job.given.contains(&pin) { "is given" } else { "is a leaf" };
            format!("it ANDs pin {pin}, which {what} and may only be loaded and copied")
        } else {
            let (one, other) = (self.operand(stage, first, cell.first_inversion()), self.operand(stage, second, cell.second_inversion()));
            format!("pin {pin} is here the AND of {one} and {other}; {}", self.graph(pin))
        })
    }

    /// Memories, duplicates and the words set aside for them.
    fn aside(&self) -> Done<(usize, usize, usize)> {
        let Job { gates, given, records, .. } = self.job;
        let mut work = memory::area(0, build_work_size(gates.len(), records.len()))?;
        let told = reserved(gates, given, records, &mut work);
        Ok((told.memories, told.duplicates, told.words))
    }

    /// The faults of a stage that belong to no cell.
    fn at_end(&self, stage: usize) -> Done<Vec<String>> {
        let mut found = Vec::new();
        let height = self.built.height;
        if !self.cell(stage, 0).is_empty() {
            found.push("position 0, which is no cell, is filled".to_string());
        }
        let row = 1usize << (height - 1);
        if (row..2 * row).all(|position| !self.cell(stage, position).is_empty()) {
            found.push(format!("level 1 has no empty cell: all {row} are filled"));
        }
        let limit = words_size(height);
        let before = (1..stage).map(|earlier| self.count(earlier)).sum();
        let words = self.words(stage, before);
        if let Some(word) = words.iter().find(|&&word| word as usize >= limit) {
            found.push(format!("word {word} is none; a tree's words are 0 to {}", limit - 1));
        }
        let wants = self.count(stage);
        if wants > words.len() {
            found.push(format!("it is to write {wants} words, and {} are there", words.len()));
        }
        let (_, _, aside) = self.aside()?;
        let left = limit.saturating_sub(aside).saturating_sub(before);
        if wants > left {
            let written = if before > 0 { format!(" and {before} written by the stages before") } else { String::new() };
            found.push(format!("it writes {wants} words, and {left} are left: of {limit} words {aside} are reserved{written}"));
        }
        Ok(found)
    }

    /// A record as people find it, by its index.
    fn record(&self, at: usize, kind: u32) -> String {
        const WORDS: [&str; 5] = ["", "output", "flipflop", "memory", "staged"];
        let word = WORDS.get(kind as usize).unwrap_or(&"");
        match &self.job.form {
            Form::Aiger(aag) => match aag.names.latches.iter().map(|name| ("latch", name)).chain(aag.names.outputs.iter().map(|name| ("output", name))).nth(at) {
                Some((what, name)) => format!("{what} {name}"),
                None => format!("record {}", at + 1),
            },
            Form::Text(text) => {
                let line = text.record_lines.get(at).map_or(String::new(), |line| format!(" in line {line}"));
                format!("record {} ({word}{line})", at + 1)
            }
            Form::File => format!("record {} ({word})", at + 1),
        }
    }

    /// Each endpoint pin that no written word holds, once, with the first record that names it.
    fn missing(&self) -> Done<Vec<(usize, u32, u32)>> {
        let mut done = memory::area(false, self.job.gates.len() / 2)?;
        let mut mark = |pin: u32| match done.get_mut(pin as usize) {
            Some(mark) => std::mem::replace(mark, true),
            None => true,
        };
        mark(0);
        let mut before = 0;
        for stage in 1..=self.built.answer.stages {
            for &word in self.words(stage, before) {
                let from = 32 * word as usize;
                for position in from..from + 32 {
                    self.cell(stage, position).pin().map(&mut mark);
                }
            }
            before += self.count(stage);
        }
        let mut found = Vec::new();
        for (at, (kind, numbers)) in self.job.records().enumerate() {
            for &number in numbers {
                let pin = if kind == 4 { number } else { number / 2 };
                if !mark(pin) {
                    memory::more(&mut found, 1)?;
                    found.push((at, kind, pin));
                }
            }
        }
        Ok(found)
    }

    /// Where a pin stands whose endpoint isn't written.
    fn stands(&self, pin: u32) -> String {
        for stage in 1..=self.built.answer.stages {
            let found = self.stage(stage).iter().position(|&cell| Cell(cell).pin() == Some(pin));
            if let Some(position) = found {
                let word = if self.level(position) == 0 { String::new() } else { format!(", in word {}, which that stage doesn't write", position / 32) };
                return format!("stage {stage} has it at {}{word}", self.place(position));
            }
        }
        "no stage has it".to_string()
    }

    /// The faults that belong to no stage.
    fn at_last(&self) -> Done<Vec<String>> {
        let mut found = Vec::new();
        let limit = words_size(self.built.height);
        let (memories, duplicates, aside) = self.aside()?;
        let cost = memories.saturating_mul(4).saturating_add(duplicates);
        if aside >= limit || cost > limit {
            found.push(format!(
                "more is reserved than may be: {memories} memories and {duplicates} duplicate activations take {aside} words, which must be below {limit}; four times the memories and the duplicates are {cost}, which must be at most {limit}"
            ));
        }
        let missing = self.missing()?;
        if let Some(&(at, kind, pin)) = missing.first() {
            let more = if missing.len() > 1 { format!("; {} more pins of records are written by none", missing.len() - 1) } else { String::new() };
            found.push(format!("{}: pin {pin} stands in no written word; {}{more}", self.record(at, kind), self.stands(pin)));
        }
        Ok(found)
    }
}

/// Of a plan that a sheet has, with the place of its first fault as the library answered it.
pub fn said(name: &str, job: &Job, built: &Built, stage: usize, position: usize) -> Done<String> {
    let look = Look { job, built };
    let (place, what) = match (stage, position) {
        (0, _) => ("all stages".to_string(), look.at_last()?),
        (_, 0) => (format!("stage {stage}"), look.at_end(stage)?),
        _ => (format!("stage {stage}, {}", look.place(position)), look.at_cell(stage, position).into_iter().collect()),
    };
    Ok(match what.is_empty() {
        false => format!("{name}: refused with 22: {place}: {}", what.join("; ")),
        true => why::numbered(name, 22),
    })
}
