//! A file handed in: an AIGER file, a job file or a job's text, read into the lists that the library takes; or a plan sheet.

use crate::aag::{self, Aag};
use crate::end::{stopped, Done, End};
use crate::files;
use crate::memory::{self, Graph};
use crate::placer::{read_aiger, read_job, AIGER_GATES, AIGER_LATCHES, AIGER_RECORDS, JOB_GATES, JOB_GIVEN, JOB_RECORDS};
use crate::sheet;
use crate::text::{self, Text};
use crate::why;
use std::path::Path;

/// What the file is, and what only that form has.
pub enum Form {
    Aiger(Aag),
    File,
    Text(Text),
}

pub struct Job {
    pub name: String,
    pub form: Form,
    /// a job's own height; an AIGER file has none
    pub height: Option<u32>,
    pub gates: Vec<u32>,
    pub given: Vec<u32>,
    pub records: Vec<u32>,
}

/// What became of a file: lists, a plan sheet, or the number that refuses it and what is said of that.
pub enum Read {
    Job(Job),
    Sheet { name: String, bytes: Vec<u8> },
    Refused { number: u32, pin: usize, said: String },
}

impl Job {
    pub fn graph(&self) -> Graph<'_> {
        Graph { gates: &self.gates, given: &self.given, records: &self.records }
    }

    /// What an AIGER file's symbols call a pin: an input, a latch, what a latch takes, an output.
    pub fn called(&self, pin: u32) -> Option<String> {
        let aag = if let Form::Aiger(aag) = &self.form { aag } else { return None };
        let leaves = aag.inputs.iter().zip(&aag.names.inputs).map(|found| ("input", found)).chain(aag.latches.iter().zip(&aag.names.latches).map(|found| ("latch", found)));
        if let Some((what, (_, name))) = leaves.into_iter().find(|(_, (&leaf, _))| leaf == pin) {
            return Some(format!("{what} {name}"));
        }
        let ends = aag.names.latches.iter().map(|name| ("what latch", name, " takes")).chain(aag.names.outputs.iter().map(|name| ("output", name, "")));
        let found = self.records().zip(ends).find(|((_, numbers), _)| numbers.last().map_or(false, |&literal| literal / 2 == pin));
        found.map(|(_, (what, name, behind))| format!("{what} {name}{behind}"))
    }

    /// Each record: its kind and its numbers.
    pub fn records(&self) -> Records<'_> {
        Records { rest: &self.records }
    }
}

pub struct Records<'a> {
    rest: &'a [u32],
}

impl<'a> Iterator for Records<'a> {
    type Item = (u32, &'a [u32]);

    fn next(&mut self) -> Option<Self::Item> {
        let (&kind, behind) = self.rest.split_first()?;
        let count = match kind {
            1 | 4 => 1,
            2 => 2,
            3 => 91,
            _ => return None,
        };
        if behind.len() < count {
            return None;
        }
        let (numbers, rest) = behind.split_at(count);
        self.rest = rest;
        Some((kind, numbers))
    }
}

/// A text has no control characters but tabs and ends of lines, and a job file always has some.
pub fn is_text(bytes: &[u8]) -> bool {
    !bytes.is_empty() && bytes.iter().all(|&byte| matches!(byte, 9 | 10 | 13 | 32..=126 | 128..=255))
}

fn is_aiger(path: &Path, bytes: &[u8]) -> bool {
    bytes.starts_with(b"aag") || bytes.starts_with(b"aig ") || path.extension().map_or(false, |end| end == "aag")
}

fn cut(mut area: Vec<u32>, length: usize) -> Vec<u32> {
    area.truncate(length);
    area.shrink_to_fit();
    area
}

fn aiger(name: String, bytes: Vec<u8>) -> Done<Read> {
    let mut gates = memory::area(0, AIGER_GATES)?;
    let mut records = memory::area(0, AIGER_RECORDS)?;
    let mut latches = memory::area(0, AIGER_LATCHES)?;
    let read = read_aiger(&bytes, &mut gates, &mut records, &mut latches);
    // 2 is for areas that hold less than the header states: those here hold all that is read, so it is more than is read
    if read.number != 0 {
        let said = why::aiger(&name, &bytes, &read);
        return Ok(Read::Refused { number: read.number, pin: read.pin, said });
    }
    let form = Form::Aiger(aag::read(&bytes, cut(latches, read.latches))?);
    Ok(Read::Job(Job { name, form, height: None, gates: cut(gates, read.gates), given: Vec::new(), records: cut(records, read.records) }))
}

fn job_file(name: String, bytes: Vec<u8>) -> Done<Read> {
    let mut gates = memory::area(0, JOB_GATES)?;
    let mut given = memory::area(0, JOB_GIVEN)?;
    let mut records = memory::area(0, JOB_RECORDS)?;
    let read = read_job(&bytes, &mut gates, &mut given, &mut records);
    if read.number != 0 {
        let said = why::job_file(&name, &bytes, read.number);
        return Ok(Read::Refused { number: read.number, pin: 0, said });
    }
    let (gates, given, records) = (cut(gates, read.gates), cut(given, read.given), cut(records, read.records));
    Ok(Read::Job(Job { name, form: Form::File, height: Some(read.height), gates, given, records }))
}

fn job_text(name: String, bytes: &[u8]) -> Done<Read> {
    let written = match std::str::from_utf8(bytes) {
        Ok(written) => written,
        Err(_) => return Err(End::Refused(format!("{name}: not a text"))),
    };
    let mut read = text::read(&name, written)?;
    let (gates, given, records) = (std::mem::take(&mut read.gates), std::mem::take(&mut read.given), std::mem::take(&mut read.records));
    Ok(Read::Job(Job { name, height: Some(read.height), form: Form::Text(read), gates, given, records }))
}

/// The lists of a file, or why the library refuses it.
pub fn read(path: &Path, memory: usize) -> Done<Read> {
    let bytes = files::read(path, memory)?;
    let name = files::name(path);
    if is_aiger(path, &bytes) {
        aiger(name, bytes)
    } else if is_text(&bytes) {
        job_text(name, &bytes)
    } else if sheet::is(path, &bytes) {
        Ok(Read::Sheet { name, bytes })
    } else {
        job_file(name, bytes)
    }
}

/// The same, where a refusal ends the command.
pub fn accepted(path: &Path, memory: usize) -> Done<Job> {
    match read(path, memory)? {
        Read::Job(job) => Ok(job),
        Read::Sheet { name, .. } => stopped(name, "a plan sheet has no gates and no records: plan lists one, and check-plan and mend take it behind its chip or job"),
        Read::Refused { said, .. } => Err(End::Refused(said)),
    }
}
