//! Plan sheets: read, to be listed, drawn, checked, replayed or mended, and written of a plan.

use crate::end::{stopped, Done, End};
use crate::files;
use crate::job::{self, Job};
use crate::memory::{self, For, Lent, Space};
use crate::placer::{read_sheet, sheet_size, words_size, write_sheet, Answer, Cell};
use crate::plan::Built;
use crate::why;
use std::path::Path;

/// A sheet begins with its number, 1 or 2. A job file that begins with a byte from 1 to 15 has height 0 and at least 4,096 pins, so that it is refused in any
/// case: such a file is taken for a sheet, of a number that may be unknown.
pub fn is(path: &Path, bytes: &[u8]) -> bool {
    bytes.first().map_or(false, |&number| number >= 1 && number <= 15) || path.extension().map_or(false, |end| end == "sheet")
}

/// What became of a sheet: its plan, as a build leaves one, or what refuses it.
pub enum Read {
    Plan(Built),
    Refused { number: u32, said: String },
}

/// The plan of a file that is to be a sheet, for a chip or job; a sheet 1 is read with its gates. And what the user calls the file.
pub fn load(path: &Path, job: &Job, space: &Space, wanted: For) -> Done<(String, Read)> {
    let bytes = files::read(path, space.memory)?;
    let name = files::name(path);
    if job::is_text(&bytes) {
        return stopped(name, "is a text, and no plan sheet");
    }
    let read = read(&name, &bytes, Some(job), space, wanted)?;
    Ok((name, read))
}

/// The plan of a sheet, with a room a stage, or the rooms that are asked for; that of a sheet 1 with the inversions of its graph.
pub fn read(name: &str, bytes: &[u8], graph: Option<&Job>, space: &Space, wanted: For) -> Done<Read> {
    if space.height.is_some() {
        return stopped(name, "a plan sheet has its own height: leave --height out");
    }
    let gates = graph.map_or(&[][..], |job| &job.gates);
    // in no memory the library only judges: 17 is for what is a sheet
    let judged = read_sheet(gates, bytes, &mut [], &mut [], &mut []);
    let (height, stages) = match (judged.number, bytes) {
        (17, &[_, high, middle, low, ..]) => (u32::from(high >> 4), usize::from(high & 15) << 12 | usize::from(middle) << 4 | usize::from(low >> 4)),
        _ => return Ok(Read::Refused { number: judged.number, said: why::sheet(name, bytes, graph, judged.number, 0, 0) }),
    };
    // each word takes a byte of the sheet
    let rooms = memory::rooms(name, space, height, stages, wanted);
    let (plan, words, counts) = memory::plan(height, rooms, words_size(height).max(bytes.len()))?;
    let mut lent = Lent { rooms, plan, words, counts, work: Vec::new() };
    let read = read_sheet(gates, bytes, &mut lent.plan, &mut lent.words, &mut lent.counts);
    if read.number != 0 {
        return Ok(Read::Refused { number: read.number, said: why::sheet(name, bytes, graph, read.number, stages, rooms) });
    }
    let cells = filled(&lent.plan);
    let answer = Answer { stages: read.stages, words: read.words, cells, ..Answer::default() };
    Ok(Read::Plan(Built { height: read.height, answer, lent, lines: Vec::new() }))
}

/// How many cells are filled: a sheet tells no build's sum.
pub fn filled(plan: &[u32]) -> usize {
    plan.iter().filter(|&&cell| !Cell(cell).is_empty()).count()
}

/// The sheet of a plan, into a file.
pub fn write(name: &str, built: &Built, path: &Path) -> Done<()> {
    let Built { height, answer, lent, .. } = built;
    let mut bytes = memory::area(0, sheet_size(*height, answer.stages).saturating_add(answer.words))?;
    let wrote = write_sheet(*height, answer.stages, &lent.plan, &lent.words, &lent.counts, &mut bytes);
    if wrote.number != 0 {
        return Err(End::Refused(why::numbered(name, wrote.number)));
    }
    files::write(path, &bytes[..wrote.length])
}
