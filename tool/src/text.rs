//! A job's text, as examples/jobs.py describes it: read into lists, with the line of each thing. Whether it is a good job the library says.

use crate::end::{Done, End};
use crate::memory;
use crate::placer::EMPTY;

/// The words of a text, each with the widths of its numbers in bits; a memory has 91 of 17.
const FIELDS: [(&str, &[u32], u32); 8] = [
    ("height", &[4], 0),
    ("pins", &[16], 0),
    ("gate", &[16, 17, 17], 0),
    ("given", &[16], 0),
    ("output", &[17], 1),
    ("flipflop", &[17, 17], 2),
    ("memory", &[17; 91], 3),
    ("staged", &[16], 4),
];

/// A text's lists, and the line of each gate by pin (0 where there is none), given pin and record.
pub struct Text {
    pub height: u32,
    pub gates: Vec<u32>,
    pub given: Vec<u32>,
    pub records: Vec<u32>,
    pub gate_lines: Vec<usize>,
    pub given_lines: Vec<usize>,
    pub record_lines: Vec<usize>,
}

struct Thing {
    line: usize,
    field: usize,
    numbers: Vec<u32>,
}

fn wrong<T>(name: &str, line: usize, what: impl std::fmt::Display) -> Done<T> {
    Err(End::Refused(format!("{name}:{line}: {what}")))
}

fn digits(text: &str, most: usize) -> Option<u32> {
    if text.is_empty() || text.len() > most || !text.bytes().all(|byte| byte.is_ascii_digit()) {
        return None;
    }
    text.parse().ok()
}

/// The numbers that words stand for, L*N written out, behind those that are there.
fn numbers<'a>(name: &str, line: usize, words: impl Iterator<Item = &'a str>, found: &mut Vec<u32>) -> Done<()> {
    for word in words {
        let (value, times) = word.split_once('*').unwrap_or((word, "1"));
        match (digits(value, 9), digits(times, 5)) {
            (Some(value), Some(times)) => {
                memory::more(found, times as usize)?;
                found.extend(std::iter::repeat(value).take(times as usize));
            }
            _ => return wrong(name, line, format!("'{word}' is no number")),
        }
    }
    Ok(())
}

/// Each thing of a text, a line that begins with a number joined to the one before.
fn things(name: &str, text: &str) -> Done<(Vec<Thing>, usize)> {
    let mut found: Vec<Thing> = Vec::new();
    let mut last = 0;
    for (at, written) in text.split('\n').enumerate() {
        let line = at + 1;
        last = line;
        let mut words = written.split('#').next().unwrap_or("").split_whitespace();
        let first = match words.next() {
            Some(first) => first,
            None => continue,
        };
        if first.starts_with(|c: char| c.is_ascii_digit()) {
            match found.last_mut() {
                Some(thing) => numbers(name, line, std::iter::once(first).chain(words), &mut thing.numbers)?,
                None => return wrong(name, line, "a number with no line before it"),
            }
        } else if let Some(field) = FIELDS.iter().position(|(word, ..)| *word == first) {
            let mut thing = Thing { line, field, numbers: Vec::new() };
            numbers(name, line, words, &mut thing.numbers)?;
            memory::more(&mut found, 1)?;
            found.push(thing);
        } else {
            let known: Vec<&str> = FIELDS.iter().map(|(word, ..)| *word).collect();
            return wrong(name, line, format!("'{first}' is none of {}", known.join(", ")));
        }
    }
    Ok((found, last))
}

/// The lists of a text. `name` is what the user calls it.
pub fn read(name: &str, text: &str) -> Done<Text> {
    let (found, last) = things(name, text)?;
    let (mut height, mut pins) = (None, None);
    let mut read = Text {
        height: 0,
        gates: Vec::new(),
        given: Vec::new(),
        records: Vec::new(),
        gate_lines: Vec::new(),
        given_lines: Vec::new(),
        record_lines: Vec::new(),
    };
    for Thing { line, field, numbers } in found {
        let (word, widths, kind) = FIELDS[field];
        if numbers.len() != widths.len() {
            return wrong(name, line, format!("{word} takes {} numbers, here are {}", widths.len(), numbers.len()));
        }
        for (value, width) in numbers.iter().zip(widths) {
            if value >> width > 0 {
                return wrong(name, line, format!("{value} does not fit {width} bits"));
            }
        }
        match (word, pins) {
            ("height", _) if height.is_some() => return wrong(name, line, "a second height"),
            ("height", _) => height = Some(numbers[0]),
            ("pins", Some(_)) => return wrong(name, line, "pins a second time"),
            ("pins", None) => {
                let count = numbers[0] as usize;
                pins = Some(count);
                read.gates = memory::area(EMPTY, 2 * (count + 1))?;
                read.gate_lines = memory::area(0, count + 1)?;
            }
            (_, None) => return wrong(name, line, format!("{word} before pins")),
            ("gate", Some(count)) => {
                let pin = numbers[0] as usize;
                if pin == 0 || pin > count {
                    return wrong(name, line, format!("gate at pin {pin}, of 1 to {count}"));
                }
                if read.gate_lines[pin] > 0 {
                    return wrong(name, line, format!("a second gate at pin {pin}"));
                }
                read.gate_lines[pin] = line;
                read.gates[2 * pin] = numbers[1];
                read.gates[2 * pin + 1] = numbers[2];
            }
            ("given", _) => {
                memory::more(&mut read.given, 1)?;
                read.given.push(numbers[0]);
                read.given_lines.push(line);
            }
            _ => {
                memory::more(&mut read.records, 1 + numbers.len())?;
                read.records.push(kind);
                read.records.extend(&numbers);
                read.record_lines.push(line);
            }
        }
    }
    match (height, pins) {
        (None, _) => wrong(name, last, "no height"),
        (_, None) => wrong(name, last, "no pins"),
        (Some(height), Some(_)) => Ok(Text { height, ..read }),
    }
}
