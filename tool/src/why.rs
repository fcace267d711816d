//! What a refusal means and where it belongs, in words. The library has refused; this only finds the place.

use crate::aag::{Header, Line};
use crate::explain;
use crate::job::{Form, Job};
use crate::memory::Graph;
use crate::placer::{self, Aiger, Refusal, EMPTY};
use std::collections::HashMap;

fn line(name: &str, line: Option<usize>, number: u32, what: &str) -> String {
    match line {
        Some(line) => format!("{name}:{line}: refused with {number}: {what}"),
        None => format!("{name}: refused with {number}: {what}"),
    }
}

fn described(number: u32) -> &'static str {
    Refusal::of(number).map_or("for no reason that is known here", Refusal::describe)
}

/// The line of a place in a file, from 1 on.
fn line_at(bytes: &[u8], place: usize) -> usize {
    1 + bytes.iter().take(place).filter(|&&byte| byte == b'\n').count()
}

/// The beginning of a line, as it can be shown.
fn shown(bytes: &[u8], place: usize) -> String {
    let rest = bytes.get(place..).unwrap_or(&[]);
    let written = rest.split(|&byte| byte == b'\n').next().unwrap_or(&[]);
    let mut text: String = String::from_utf8_lossy(&written[..written.len().min(40)]).escape_debug().collect();
    if written.len() > 40 {
        text.push_str("..");
    }
    text
}

fn expected(bytes: &[u8], number: usize) -> String {
    let header = match Header::of(bytes) {
        Some(header) if number > 1 => header,
        _ => return "the header, 'aag M I L O A', M at least I + L + A".to_string(),
    };
    let most = header.variables.saturating_mul(2);
    match header.line(number) {
        Line::Header => "the header".to_string(),
        Line::Input => format!("an input: an even literal from 2 to {most} that nothing else defines"),
        Line::Latch => format!("a latch: an even literal from 2 to {most} that nothing else defines, and what it takes"),
        Line::Output => format!("an output: a literal up to {} that is defined", most.saturating_add(1)),
        Line::Gate => format!("a gate: an even literal from 2 to {most} that nothing else defines, and two literals that are"),
        Line::Symbol => format!("a symbol (i, l or o with a number that there is, and a name) or 'c' before comments, behind {} lines", number - 1),
    }
}

/// The line of the gate that a test picks, from what its literals are.
fn gate_line(bytes: &[u8], pick: impl Fn(&[u64]) -> bool) -> Option<(usize, String)> {
    let header = Header::of(bytes)?;
    for (at, written) in bytes.split(|&byte| byte == b'\n').enumerate() {
        match header.line(at + 1) {
            Line::Gate => {
                let text = std::str::from_utf8(written).ok()?;
                let literals: Vec<u64> = text.split(' ').filter_map(|word| word.parse().ok()).collect();
                if pick(&literals) {
                    return Some((at + 1, text.to_string()));
                }
            }
            Line::Symbol => return None,
            _ => {}
        }
    }
    None
}

/// Of an AIGER file that is not read.
pub fn aiger(name: &str, bytes: &[u8], read: &Aiger) -> String {
    let number = read.number;
    match number {
        12 if bytes.starts_with(b"aig ") => {
            line(name, Some(1), number, "this is a binary AIGER file; only ASCII ones are read (aigtoaig makes one of the other)")
        }
        12 if read.place >= bytes.len() => line(
            name,
            Some(line_at(bytes, bytes.len())),
            number,
            &format!("the file is cut: it ends after {} bytes, where more must stand", bytes.len()),
        ),
        12 => {
            let at = line_at(bytes, read.place);
            line(name, Some(at), number, &format!("'{}' is not {}", shown(bytes, read.place), expected(bytes, at)))
        }
        13 => line(name, Some(line_at(bytes, read.place)), number, "this latch has a reset value other than 0"),
        2 | 3 if Header::of(bytes).map_or(false, |header| header.variables > 65_535) => {
            line(name, Some(1), number, &format!("{} variables; at most 65535 are read", Header::of(bytes).map_or(0, |header| header.variables)))
        }
        3 => match gate_line(bytes, |literals| literals.iter().skip(1).any(|&literal| literal < 2)) {
            Some((at, text)) => line(name, Some(at), number, &format!("the gate '{text}' takes a constant; a gate takes variables")),
            None => line(name, None, number, described(number)),
        },
        23 => {
            let at = gate_line(bytes, |literals| literals.first() == Some(&(2 * read.pin as u64))).map(|(at, _)| at);
            line(name, at, number, &format!("variable {} is on a loop of gates, and none below it is", read.pin))
        }
        2 | 4 => line(name, Some(1), number, "the latches and outputs take more than 65536 numbers, three a latch and two an output"),
        _ => line(name, None, number, described(number)),
    }
}

/// The bits of bytes, most significant first, and what was to be taken where they end.
struct Bits<'a> {
    bytes: &'a [u8],
    at: usize,
}

impl Bits<'_> {
    fn take(&mut self, width: usize, what: impl Fn() -> String) -> Result<u32, String> {
        if self.at + width > 8 * self.bytes.len() {
            return Err(format!("the file is cut: after {} bytes it ends in {}", self.bytes.len(), what()));
        }
        let value = (self.at..self.at + width).fold(0, |value, bit| 2 * value + u32::from(self.bytes[bit / 8] >> (7 - bit % 8) & 1));
        self.at += width;
        Ok(value)
    }
}

/// Why bytes are no job file.
fn cause(bytes: &[u8]) -> Result<(), String> {
    if bytes.len() > 8192 {
        return Err("the file is longer than 8192 bytes".to_string());
    }
    let mut bits = Bits { bytes, at: 0 };
    let height = bits.take(4, || "the height".to_string())?;
    let pins = bits.take(16, || "the number of pins".to_string())?;
    for pin in 1..=pins {
        if bits.take(1, || format!("pin {pin} of {pins}"))? == 1 {
            bits.take(17, || format!("the gate at pin {pin}"))?;
            bits.take(17, || format!("the gate at pin {pin}"))?;
        }
    }
    let given = bits.take(16, || "the number of given pins".to_string())?;
    for i in 1..=given {
        bits.take(16, || format!("given pin {i} of {given}"))?;
    }
    let records = bits.take(16, || "the number of records".to_string())?;
    let mut numbers = 0;
    for i in 1..=records {
        let what = || format!("record {i} of {records}");
        let kind = bits.take(3, what)?;
        let (count, width) = match kind {
            1 => (1, 17),
            2 => (2, 17),
            3 => (91, 17),
            4 => (1, 16),
            _ => return Err(format!("record {i} has the unknown kind {kind}, of 1 to 4")),
        };
        numbers += 1 + count;
        for _ in 0..count {
            bits.take(width, what)?;
        }
    }
    let left = 8 * bytes.len() - bits.at;
    if left >= 8 {
        return Err(format!("{} bytes are left over behind the last record", left / 8));
    }
    if bits.take(left, String::new)? > 0 {
        return Err("the padding of the last byte is not zero".to_string());
    }
    if height > 10 {
        return Err(format!("height {height} is over a job file's 10"));
    }
    if pins > 500 {
        return Err(format!("{pins} pins are over a job file's 500"));
    }
    if numbers > 512 {
        return Err(format!("the records take {numbers} numbers, a kind and its literals each; a job file has 512"));
    }
    Ok(())
}

/// Of a job file that is not read.
pub fn job_file(name: &str, bytes: &[u8], number: u32) -> String {
    match cause(bytes) {
        Err(what) => line(name, None, number, &what),
        Ok(()) => line(name, None, number, described(number)),
    }
}

/// Where the first lower cell stands, which a copy copies: a row further.
fn first_lower(position: u32) -> u32 {
    position + (1 << (31 - position.leading_zeros()))
}

/// Which pin of a sheet 1's stage its graph says nothing of.
fn uncoded(stage: u32, height: u32, pins: &HashMap<u32, u32>, graph: &Job) -> Result<(), String> {
    let count = graph.gates.len() / 2;
    for position in 1..2u32 << height {
        let pin = match pins.get(&position) {
            Some(&pin) => pin,
            None => continue,
        };
        let what = || format!("position {position} of stage {stage} has pin {pin}");
        if pin as usize >= count {
            return Err(format!("{}; the graph, {}, has pins 1 to {}", what(), graph.name, count.saturating_sub(1)));
        }
        let copies = position >= 1 << height || pins.get(&first_lower(position)) == Some(&pin);
        if !copies && graph.gates.get(2 * pin as usize) == Some(&EMPTY) {
            return Err(format!("{}, which would AND and is a leaf of the graph, {}", what(), graph.name));
        }
    }
    Ok(())
}

/// Why bytes are no plan sheet of their number, 1 or 2.
fn sheet_cause(bytes: &[u8], graph: Option<&Job>) -> Result<(), String> {
    let mut bits = Bits { bytes, at: 0 };
    let number = bits.take(8, || "the sheet number".to_string())?;
    let height = bits.take(4, || "the height".to_string())?;
    if height < 6 || height > 13 {
        return Err(format!("height {height}; a tree's is 6 to 13"));
    }
    let stages = bits.take(16, || "the number of stages".to_string())?;
    let limit = 1 << (height - 5);
    for stage in 1..=stages {
        let count = bits.take(16, || format!("the word count of stage {stage} of {stages}"))?;
        for _ in 0..count {
            let word = bits.take(8, || format!("the words of stage {stage} of {stages}"))?;
            if word >= limit {
                return Err(format!("stage {stage} has word {word}; a tree's words are 0 to {}", limit - 1));
            }
        }
        let mut pins = HashMap::new();
        for position in 1..2u32 << height {
            let what = || format!("position {position} of stage {stage} of {stages}");
            if bits.take(1, what)? == 0 {
                continue;
            }
            let pin = bits.take(16, what)?;
            if pin == 0 {
                return Err(format!("position {position} of stage {stage} has pin 0"));
            }
            // AND, then its two inversions
            let does = if number == 1 { 0 } else { bits.take(3, what)? };
            if does > 0 && position >= 1 << height {
                return Err(format!("position {position} of stage {stage} stands at level 0, where a cell loads, and has an AND or an inversion"));
            }
            if does > 0 && does < 4 {
                return Err(format!("position {position} of stage {stage} copies, and has an inversion"));
            }
            if number == 1 {
                pins.insert(position, pin);
            }
        }
        if let Some(graph) = graph {
            uncoded(stage, height, &pins, graph)?;
        }
    }
    let left = 8 * bytes.len() - bits.at;
    if left >= 8 {
        return Err(format!("{} bytes are left over behind the last stage", left / 8));
    }
    if bits.take(left, String::new)? > 0 {
        return Err("the padding of the last byte is not zero".to_string());
    }
    Ok(())
}

/// Of a plan sheet that is not read, of so many stages with so many rooms lent, and a graph for one of number 1.
pub fn sheet(name: &str, bytes: &[u8], graph: Option<&Job>, number: u32, stages: usize, rooms: usize) -> String {
    match (number, bytes) {
        (15, _) => match sheet_cause(bytes, graph) {
            Err(what) => line(name, None, number, &what),
            Ok(()) => numbered(name, number),
        },
        (16, &[1, ..]) => line(name, None, number, "a plan sheet of number 1 has no inversions: name the chip or job that it was made of with --graph"),
        (16, &[first, ..]) => line(name, None, number, &format!("a plan sheet of number {first}; sheets 1 and 2 are known")),
        (17, _) => line(name, None, number, &format!("the sheet has {stages} stages, and {rooms} rooms are lent")),
        _ => numbered(name, number),
    }
}

/// A number, and what it means.
pub fn numbered(name: &str, number: u32) -> String {
    line(name, None, number, described(number))
}

fn bad_gate(graph: Graph<'_>) -> Option<(usize, String)> {
    let pins = (graph.gates.len() / 2).saturating_sub(1);
    for (pin, gate) in graph.gates.chunks_exact(2).enumerate() {
        if gate == [EMPTY, EMPTY] {
            continue;
        }
        for &literal in gate {
            if literal / 2 == 0 {
                return Some((pin, format!("the gate at pin {pin} takes literal {literal}, which is constant; a gate takes pins from 1 to {pins}")));
            }
            if literal as usize / 2 > pins {
                return Some((pin, format!("the gate at pin {pin} takes literal {literal}, of pin {}; there are pins 1 to {pins}", literal / 2)));
            }
        }
    }
    None
}

fn bad_record(job: &Job) -> Option<(usize, String)> {
    const WORDS: [&str; 5] = ["", "output", "flipflop", "memory", "staged"];
    let pins = (job.gates.len() / 2).saturating_sub(1);
    for (at, (kind, numbers)) in job.records().enumerate() {
        for &value in numbers {
            let pin = if kind == 4 { value } else { value / 2 };
            if pin as usize > pins {
                let literal = if kind == 4 { String::new() } else { format!("literal {value}, of ") };
                let word = WORDS.get(kind as usize).unwrap_or(&"");
                return Some((at, format!("record {}, {word}, names {literal}pin {pin}; there are pins 1 to {pins}", at + 1)));
            }
        }
    }
    None
}

/// Of lists that a call refuses, at a stage and pin that it answered, with so many rooms lent; with 6, 7 and 8 by the last of the lines that explain it.
pub fn lists(job: &Job, height: u32, number: u32, stage: usize, pin: usize, rooms: usize, lines: &[placer::Line]) -> String {
    let text = if let Form::Text(text) = &job.form { Some(text) } else { None };
    let pins = (job.gates.len() / 2).saturating_sub(1);
    let (at, what) = match number {
        1 => (None, format!("height {height}; a tree's is 6 to 13")),
        3 => match bad_gate(job.graph()) {
            Some((pin, what)) => (text.and_then(|text| text.gate_lines.get(pin)).copied(), what),
            None => (None, described(number).to_string()),
        },
        4 => match bad_record(job) {
            Some((at, what)) => (text.and_then(|text| text.record_lines.get(at)).copied(), what),
            None => (None, described(number).to_string()),
        },
        5 => match job.given.iter().position(|&pin| pin as usize > pins) {
            Some(at) => {
                let what = format!("pin {} is given; there are pins 1 to {pins}", job.given[at]);
                (text.and_then(|text| text.given_lines.get(at)).copied(), what)
            }
            None => (None, described(number).to_string()),
        },
        6..=8 => (None, lines.last().and_then(|line| explain::over(line, height)).unwrap_or_else(|| described(number).to_string())),
        9 => (None, format!("pins still wait after {} stages, and {rooms} rooms are lent", stage.saturating_sub(1))),
        23 => (text.and_then(|text| text.gate_lines.get(pin)).copied(), format!("pin {pin} is on a loop of gates, and no pin below it is")),
        _ => (None, described(number).to_string()),
    };
    line(&job.name, at.filter(|&at| at > 0), number, &what)
}
