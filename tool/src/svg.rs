//! A plan drawn, stage by stage, levels as rows: a small one as trees of labelled cells, a large one as a map of where the tree is filled.

use crate::end::Done;
use crate::files::Out;
use crate::job::{Form, Job};
use crate::memory;
use crate::placer::Cell;
use crate::plan::Built;
use std::fmt::Write;

const LOAD: (&str, &str) = ("#8fb5e3", "a load: a leaf, a given pin or what the stage before has");
const COPY: (&str, &str) = ("#d2d2d2", "a copy of its first lower cell");
const GATE: (&str, &str) = ("#f2b04e", "a gate: AND of both lower cells");
const WORD: (&str, &str) = ("#c0203a", "stands in a word that the stage writes");
const DOT: (&str, &str) = ("#ffffff", "a dot on a line: inverted there");
/// A stage with more filled cells is drawn as a map.
const SMALL: usize = 160;

#[derive(Clone, Copy, PartialEq, Eq)]
enum Kind {
    Empty,
    Load,
    Copy,
    Gate,
}

impl Kind {
    fn colour(self) -> &'static str {
        match self {
            Kind::Empty => "none",
            Kind::Load => LOAD.0,
            Kind::Copy => COPY.0,
            Kind::Gate => GATE.0,
        }
    }
}

/// One stage: its cells by position, its words.
struct Stage<'a> {
    number: usize,
    height: u32,
    cells: &'a [u32],
    words: &'a [u32],
}

/// The size of the row in which a position stands, which is where it begins.
fn row(position: usize) -> usize {
    if position == 0 {
        return 1;
    }
    1 << (usize::BITS - 1 - position.leading_zeros())
}

impl Stage<'_> {
    fn cell(&self, position: usize) -> Cell {
        self.cells.get(position).map_or(Cell::NONE, |&cell| Cell(cell))
    }

    fn pin(&self, position: usize) -> Option<u32> {
        self.cell(position).pin()
    }

    fn level(&self, position: usize) -> usize {
        (self.height as usize).saturating_sub(row(position).trailing_zeros() as usize)
    }

    fn kind(&self, position: usize) -> Kind {
        let cell = self.cell(position);
        match self.level(position) {
            _ if cell.is_empty() => Kind::Empty,
            0 => Kind::Load,
            _ if cell.ands() => Kind::Gate,
            _ => Kind::Copy,
        }
    }

    fn filled(&self) -> impl Iterator<Item = usize> + '_ {
        (1..self.cells.len()).filter(|&position| self.pin(position).is_some())
    }

    fn top(&self) -> usize {
        self.filled().map(|position| self.level(position)).max().unwrap_or(0)
    }

    /// The filled lower cells that a cell is made of.
    fn lower(&self, position: usize) -> Vec<(usize, usize)> {
        let all = match self.kind(position) {
            Kind::Gate => 2,
            Kind::Copy => 1,
            _ => 0,
        };
        (0..all).map(|k| (k, position + (k + 1) * row(position))).filter(|&(_, below)| self.pin(below).is_some()).collect()
    }

    fn written(&self, position: usize) -> bool {
        self.level(position) > 0 && self.words.iter().any(|&word| word as usize == position / 32)
    }
}

fn escaped(text: &str) -> String {
    let mut out = String::new();
    for c in text.chars() {
        match c {
            '<' => out.push_str("&lt;"),
            '>' => out.push_str("&gt;"),
            '&' => out.push_str("&amp;"),
            '"' => out.push_str("&quot;"),
            c if (c as u32) < 32 => out.push(' '),
            c => out.push(c),
        }
    }
    out
}

/// What a pin is called: the symbol of its input or latch.
fn pin_names(job: Option<&Job>) -> Vec<(u32, String)> {
    let mut names = Vec::new();
    if let Some(Form::Aiger(aag)) = job.map(|job| &job.form) {
        let inputs = aag.inputs.iter().zip(&aag.names.inputs);
        let latches = aag.latches.iter().zip(&aag.names.latches);
        names.extend(inputs.chain(latches).map(|(&pin, name)| (pin, name.clone())));
        names.sort();
    }
    names
}

fn name(names: &[(u32, String)], pin: u32) -> Option<&str> {
    names.binary_search_by_key(&pin, |&(pin, _)| pin).ok().map(|at| names[at].1.as_str())
}

const WIDE: f64 = 112.0;
const HIGH: f64 = 84.0;
const BOX: (f64, f64) = (98.0, 38.0);
const EDGE: f64 = 70.0;

/// Where the cells under a position stand from left to right, counted in columns; how many columns it takes.
fn places(stage: &Stage<'_>, position: usize, left: f64, at: &mut [f64]) -> f64 {
    let mut taken = 0.0;
    let lower = stage.lower(position);
    for &(_, below) in &lower {
        taken += places(stage, below, left + taken, at);
    }
    at[position] = if lower.is_empty() { left } else { left + (taken - 1.0) / 2.0 };
    if taken < 1.0 {
        1.0
    } else {
        taken
    }
}

/// A small stage, as trees of labelled cells. How wide and high it is.
fn trees(stage: &Stage<'_>, names: &[(u32, String)], down: f64, text: &mut String) -> Done<(f64, f64)> {
    let mut at = memory::area(0.0, stage.cells.len())?;
    let mut under = memory::area(false, stage.cells.len())?;
    for position in stage.filled() {
        for (_, below) in stage.lower(position) {
            under[below] = true;
        }
    }
    let mut columns = 0.0;
    for position in stage.filled() {
        if !under[position] {
            columns += places(stage, position, columns, &mut at);
        }
    }
    let top = stage.top();
    let x = |position: usize| EDGE + WIDE * at[position] + WIDE / 2.0;
    let y = |position: usize| down + BOX.1 / 2.0 + HIGH * (top - stage.level(position)) as f64;
    for level in 0..=top {
        let at = down + BOX.1 / 2.0 + HIGH * (top - level) as f64 + 5.0;
        let _ = writeln!(text, "<text x=\"8\" y=\"{at:.0}\" fill=\"#555555\">level {level}</text>");
    }
    for position in stage.filled() {
        let inverted = [stage.cell(position).first_inversion(), stage.cell(position).second_inversion()];
        for (k, below) in stage.lower(position) {
            let (x1, y1, x2, y2) = (x(position), y(position) + BOX.1 / 2.0, x(below), y(below) - BOX.1 / 2.0);
            let _ = writeln!(text, "<line x1=\"{x1:.1}\" y1=\"{y1:.1}\" x2=\"{x2:.1}\" y2=\"{y2:.1}\" stroke=\"#333333\"/>");
            if inverted[k] {
                let (cx, cy) = (x1 + (x2 - x1) * 0.14, y1 + (y2 - y1) * 0.14);
                let _ = writeln!(text, "<circle cx=\"{cx:.1}\" cy=\"{cy:.1}\" r=\"4\" fill=\"#ffffff\" stroke=\"#333333\"/>");
            }
        }
    }
    for position in stage.filled() {
        let pin = stage.pin(position).unwrap_or(0);
        let (left, high) = (x(position) - BOX.0 / 2.0, y(position) - BOX.1 / 2.0);
        let edge = if stage.written(position) { format!("stroke=\"{}\" stroke-width=\"3\"", WORD.0) } else { "stroke=\"#333333\"".to_string() };
        let colour = stage.kind(position).colour();
        let _ = writeln!(text, "<rect x=\"{left:.1}\" y=\"{high:.1}\" width=\"{}\" height=\"{}\" rx=\"4\" fill=\"{colour}\" {edge}/>", BOX.0, BOX.1);
        let called = match name(names, pin) {
            Some(name) if name.chars().count() > 14 => format!("{}..", escaped(&name.chars().take(12).collect::<String>())),
            Some(name) => escaped(name),
            None => format!("pin {pin}"),
        };
        let below_it = if name(names, pin).is_some() { format!("pin {pin} at {position}") } else { format!("at {position}") };
        let (middle, above, below) = (x(position), y(position) - 3.0, y(position) + 12.0);
        let _ = writeln!(text, "<text x=\"{middle:.1}\" y=\"{above:.1}\" text-anchor=\"middle\">{called}</text>");
        let _ = writeln!(text, "<text x=\"{middle:.1}\" y=\"{below:.1}\" text-anchor=\"middle\" font-size=\"10\" fill=\"#444444\">{below_it}</text>");
    }
    Ok((EDGE + WIDE * columns + 16.0, HIGH * top as f64 + BOX.1))
}

const MAP: f64 = 1024.0;
const ROW: f64 = 16.0;
const STEP: f64 = 24.0;

/// A large stage, as a map: each level a bar, its cells from left to right. How wide and high it is.
fn map(stage: &Stage<'_>, down: f64, text: &mut String) -> (f64, f64) {
    for level in (0..=stage.height as usize).rev() {
        let cells = 1usize << (stage.height as usize - level);
        let y = down + STEP * (stage.height as usize - level) as f64;
        let wide = MAP / cells as f64;
        let _ = writeln!(text, "<text x=\"8\" y=\"{:.0}\" fill=\"#555555\">level {level}</text>", y + ROW - 4.0);
        let _ = writeln!(
            text,
            "<rect x=\"{EDGE}\" y=\"{y}\" width=\"{MAP}\" height=\"{ROW}\" fill=\"#ffffff\" stroke=\"#999999\" stroke-width=\"0.5\"/>"
        );
        for kind in [Kind::Load, Kind::Copy, Kind::Gate] {
            let mut path = String::new();
            let mut from = 0;
            while from < cells {
                let is = |cell: usize| stage.kind(cells + cell) == kind;
                if !is(from) {
                    from += 1;
                    continue;
                }
                let mut to = from;
                while to < cells && is(to) {
                    to += 1;
                }
                let (left, length) = (EDGE + wide * from as f64, wide * (to - from) as f64);
                let _ = write!(path, "M{left:.3} {y}h{length:.3}v{ROW}h-{length:.3}z");
                from = to;
            }
            if !path.is_empty() {
                let _ = writeln!(text, "<path d=\"{path}\" fill=\"{}\"/>", kind.colour());
            }
        }
        for &word in stage.words {
            let (first, last) = (32 * word as usize, 32 * word as usize + 32);
            let (from, to) = (first.max(cells), last.min(2 * cells));
            if level > 0 && from < to {
                let (left, length) = (EDGE + wide * (from - cells) as f64, wide * (to - from) as f64);
                let _ = writeln!(text, "<rect x=\"{left:.3}\" y=\"{}\" width=\"{length:.3}\" height=\"4\" fill=\"{}\"/>", y + ROW + 1.0, WORD.0);
            }
        }
    }
    (EDGE + MAP + 16.0, STEP * (stage.height as f64 + 1.0))
}

fn legend(down: f64, text: &mut String) {
    for (k, (colour, what)) in [LOAD, COPY, GATE, WORD, DOT].iter().enumerate() {
        let y = down + 22.0 * k as f64;
        let _ = writeln!(text, "<rect x=\"8\" y=\"{y}\" width=\"20\" height=\"14\" rx=\"3\" fill=\"{colour}\" stroke=\"#333333\"/>");
        let _ = writeln!(text, "<text x=\"36\" y=\"{}\">{what}</text>", y + 12.0);
    }
}

/// The picture of a plan, by its cells. A job that it was made of gives names.
pub fn draw(name: &str, job: Option<&Job>, built: &Built, out: &mut Out) -> Done<()> {
    let names = pin_names(job);
    let mut text = String::new();
    let (mut wide, mut down) = (560.0f64, 70.0 + 22.0 * 5.0);
    legend(60.0, &mut text);
    let mut word = 0usize;
    let mut body = Vec::new();
    for (at, cells) in built.stages().enumerate() {
        let count = built.lent.counts.get(at).map_or(0, |&count| count as usize);
        let words = built.lent.words.get(word..word.saturating_add(count)).unwrap_or(&[]);
        word = word.saturating_add(count);
        let stage = Stage { number: at + 1, height: built.height, cells, words };
        let filled = stage.filled().count();
        let listed = if words.is_empty() { "none".to_string() } else { words.iter().map(|word| word.to_string()).collect::<Vec<_>>().join(" ") };
        let short: String = if listed.len() > 120 { format!("{}..", listed.chars().take(118).collect::<String>()) } else { listed };
        let _ = writeln!(
            text,
            "<text x=\"8\" y=\"{:.0}\" font-size=\"15\">stage {}: {filled} cells filled, words written: {short}</text>",
            down + 26.0,
            stage.number
        );
        let (w, h) = if filled <= SMALL { trees(&stage, &names, down + 44.0, &mut text)? } else { map(&stage, down + 44.0, &mut text) };
        wide = wide.max(w);
        down += 44.0 + h + 26.0;
        memory::more(&mut body, text.len())?;
        body.extend_from_slice(text.as_bytes());
        text.clear();
    }
    body.extend_from_slice(text.as_bytes());
    out.put(format!(
        "<svg xmlns=\"http://www.w3.org/2000/svg\" viewBox=\"0 0 {wide:.0} {down:.0}\" font-family=\"sans-serif\" font-size=\"12\">\n\
         <title>{}</title>\n<rect width=\"{wide:.0}\" height=\"{down:.0}\" fill=\"#ffffff\"/>\n\
         <text x=\"8\" y=\"30\" font-size=\"18\">{}: height {}, stages {}, words {}, cells filled {}</text>\n",
        escaped(name),
        escaped(name),
        built.height,
        built.answer.stages,
        built.answer.words,
        built.answer.cells
    ))?;
    out.put(&body)?;
    out.put("</svg>\n")
}
