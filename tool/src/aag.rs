//! What an AIGER file that the library has read says beside its graph: the inputs in the file's order, and the symbols.

use crate::end::Done;
use crate::memory;

/// The header's numbers.
#[derive(Clone, Copy)]
pub struct Header {
    pub variables: usize,
    pub inputs: usize,
    pub latches: usize,
    pub outputs: usize,
    pub gates: usize,
}

impl Header {
    /// The header of a file, as far as it is one.
    pub fn of(bytes: &[u8]) -> Option<Header> {
        let line = std::str::from_utf8(bytes.split(|&byte| byte == b'\n').next()?).ok()?;
        let mut words = line.split(' ');
        if words.next()? != "aag" {
            return None;
        }
        let mut next = || words.next()?.parse().ok();
        Some(Header { variables: next()?, inputs: next()?, latches: next()?, outputs: next()?, gates: next()? })
    }
}

/// What the lines of a file are, by their number from 1 on.
#[derive(Clone, Copy, PartialEq, Eq)]
pub enum Line {
    Header,
    Input,
    Latch,
    Output,
    Gate,
    Symbol,
}

impl Header {
    pub fn line(&self, number: usize) -> Line {
        let mut left = number.saturating_sub(1);
        if left == 0 {
            return Line::Header;
        }
        for (count, line) in [(self.inputs, Line::Input), (self.latches, Line::Latch), (self.outputs, Line::Output), (self.gates, Line::Gate)] {
            if left <= count {
                return line;
            }
            left -= count;
        }
        Line::Symbol
    }
}

/// Inputs as pins, in the file's order; the latches' leaves; a name for each input, latch and output.
pub struct Aag {
    pub inputs: Vec<u32>,
    pub latches: Vec<u32>,
    pub outputs: usize,
    pub names: Names,
}

#[derive(Default)]
pub struct Names {
    pub inputs: Vec<String>,
    pub latches: Vec<String>,
    pub outputs: Vec<String>,
}

fn unnamed(letter: char, count: usize) -> Done<Vec<String>> {
    let mut names = Vec::new();
    memory::more(&mut names, count)?;
    names.extend((0..count).map(|i| format!("{letter}{i}")));
    Ok(names)
}

/// Of a file that the library has read.
pub fn read(bytes: &[u8], latches: Vec<u32>) -> Done<Aag> {
    let header = Header::of(bytes).unwrap_or(Header { variables: 0, inputs: 0, latches: 0, outputs: 0, gates: 0 });
    let mut inputs = Vec::new();
    memory::more(&mut inputs, header.inputs.min(bytes.len()))?;
    let mut names = Names {
        inputs: unnamed('i', header.inputs.min(bytes.len()))?,
        latches: unnamed('l', latches.len())?,
        outputs: unnamed('o', header.outputs.min(bytes.len()))?,
    };
    for (at, line) in bytes.split(|&byte| byte == b'\n').enumerate() {
        match header.line(at + 1) {
            Line::Input => inputs.extend(std::str::from_utf8(line).ok().and_then(|text| text.parse::<u32>().ok()).map(|literal| literal / 2)),
            Line::Symbol if line == b"c" => break,
            Line::Symbol => {
                let text = String::from_utf8_lossy(line);
                let named = text.split_once(' ').and_then(|(which, name)| {
                    let list = match which.chars().next()? {
                        'i' => &mut names.inputs,
                        'l' => &mut names.latches,
                        'o' => &mut names.outputs,
                        _ => return None,
                    };
                    let place = list.get_mut(which.get(1..)?.parse::<usize>().ok()?)?;
                    Some((place, name))
                });
                if let Some((place, name)) = named {
                    *place = name.to_string();
                }
            }
            _ => {}
        }
    }
    Ok(Aag { inputs, latches, outputs: header.outputs, names })
}
