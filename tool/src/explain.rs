//! Why a build was refused for capacity, and which pins it took back: the library's explanation, in words.

use crate::end::Done;
use crate::job::Job;
use crate::memory::{self, Graph, Lent};
use crate::placer::{explain, explain_size, lines, words_size, Answer, Line};

/// A build, and the lines that explain it.
pub fn build(graph: Graph<'_>, height: u32, lent: &mut Lent) -> Done<(Answer, Vec<Line>)> {
    // this is always enough, so that 21 isn't met; a height that is none is refused before
    let size = explain_size(height, lent.rooms);
    let mut list = memory::area(0, if size == usize::MAX { 0 } else { size })?;
    let told = explain(height, graph.gates, graph.given, graph.records, lent.areas(), &mut list);
    Ok((told.answer, lines(&list, told.lines).collect()))
}

/// A count of things, as people say it.
fn some(count: u32, one: &str, more: &str) -> String {
    format!("{count} {}", if count == 1 { one } else { more })
}

/// What is over, of the line that a refusal with 6, 7 or 8 ends with.
pub fn over(line: &Line, height: u32) -> Option<String> {
    let words = words_size(height);
    Some(match *line {
        Line::TakenBack { .. } => return None,
        Line::OverReserved { limit, count, memories, duplicates } => {
            let with = format!("{} and {}", some(memories, "memory", "memories"), some(duplicates, "duplicate", "duplicates"));
            if limit as usize == words {
                format!("{with}: four times the memories and the duplicates are {count}; at most {limit} may be")
            } else {
                format!("reserved {} with {with}; at most {limit} may be", some(count, "word", "words"))
            }
        }
        Line::OverWords { stage, left, wanted } => format!("stage {stage}: {} wanted, {left} left of {words}", some(wanted, "word", "words")),
        Line::NoCell { stage, limit, filled, needed } => format!(
            "stage {stage}: {} filled and {} left; at most {limit} of {} may be filled",
            some(filled, "level-1 cell", "level-1 cells"),
            some(needed, "needed pin", "needed pins"),
            limit.saturating_add(1)
        ),
    })
}

/// A pin taken back, with the counts of rule 7.
pub fn taken(job: &Job, line: &Line, height: u32) -> Option<String> {
    match *line {
        Line::TakenBack { stage, pin, needed, filled, distinct } => Some(format!(
            "{}: stage {stage}: pin {pin}{} taken back: {}, {} filled, {} above level 0; {needed} + {} is not below {}",
            job.name,
            job.called(pin).map_or(String::new(), |name| format!(" ({name})")),
            some(needed, "needed pin", "needed pins"),
            some(filled, "level-1 cell", "level-1 cells"),
            some(distinct, "distinct pin", "distinct pins"),
            filled.max(distinct),
            1u64 << height.saturating_sub(1).min(31)
        )),
        _ => None,
    }
}
