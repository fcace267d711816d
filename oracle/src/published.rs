//! The published Rust, on a case that passes the checks; and the same with rule 8's loop ended where no needed waiting pin is left, which
//! is the library's word rule.
use crate::case::{Case, EMPTY};
use clilog::Seen;
use gem::aig::{DriverType, RAMBlock, AIG, DFF};
use gem::staging::StagedAIG;
use std::panic::{catch_unwind, AssertUnwindSafe};

/// Which of the two is asked.
#[derive(Clone, Copy, Debug, PartialEq)]
pub enum Rust {
    Published,
    /// With the one line changed.
    Changed,
}

#[derive(PartialEq)]
pub struct Stage {
    pub rows: Vec<Vec<usize>>,
    pub words: Vec<usize>,
}

pub enum Outcome {
    Whole(Vec<Stage>),
    Refused { number: u32, stage: usize },
    Panicked,
}

/// A partition of a merge: its records, and the stages, words and filled cells that it takes.
#[derive(Clone, Debug, PartialEq)]
pub struct Part {
    pub records: Vec<usize>,
    pub stages: usize,
    pub words: usize,
    pub cells: usize,
}

pub enum Merged {
    Whole(Vec<Part>),
    Refused,
    Panicked,
}

/// The graph in the published form, with the Rust that is to build it. Each record has a staged endpoint of its own.
pub struct Graph {
    pub rust: Rust,
    aig: AIG,
    staged: StagedAIG,
    /// From a record's index to its endpoint's, and back.
    endpoint: Vec<usize>,
    record: Vec<usize>,
}

/// How many cells of a stage are filled.
pub fn filled(rows: &[Vec<usize>]) -> usize {
    rows.iter().flatten().filter(|&&pin| pin != usize::MAX).count()
}

macro_rules! heights {
    ($($k:literal $module:ident),*) => {
        use super::{Graph, Stage};

        pub fn build_one(height: u32, graph: &Graph, endpoints: &Vec<usize>) -> Option<Vec<Stage>> {
            match height {
                $($k => gem::$module::Partition::build_one(&graph.aig, &graph.staged, endpoints)
                    .map(|p| p.stages.into_iter().map(|s| Stage { rows: s.hier, words: s.write_outs }).collect()),)*
                _ => unreachable!()
            }
        }

        /// The seconds of one build; what it gives is dropped afterwards.
        pub fn timed(height: u32, graph: &Graph) -> f64 {
            match height {
                $($k => {
                    let start = std::time::Instant::now();
                    let part = gem::$module::Partition::build_one(&graph.aig, &graph.staged, &graph.endpoint);
                    let seconds = start.elapsed().as_secs_f64();
                    drop(part);
                    seconds
                },)*
                _ => unreachable!()
            }
        }

        pub fn process(height: u32, graph: &Graph, parts: Vec<Vec<usize>>, extra: usize) -> Option<Vec<(Vec<usize>, usize, usize, usize)>> {
            match height {
                $($k => gem::$module::process_partitions(&graph.aig, &graph.staged, parts, extra).map(|parts| {
                    parts.into_iter()
                        .map(|p| (p.endpoints, p.stages.len(), p.stages.iter().map(|s| s.write_outs.len()).sum(), p.stages.iter().map(|s| super::filled(&s.hier)).sum()))
                        .collect()
                }),)*
                _ => unreachable!()
            }
        }
    };
}

mod every {
    heights!(6 height_6, 7 height_7, 8 height_8, 9 height_9, 10 height_10, 11 height_11, 12 height_12, 13 height_13);
}

mod needed {
    heights!(6 needed_6, 7 needed_7, 8 needed_8, 9 needed_9, 10 needed_10, 11 needed_11, 12 needed_12, 13 needed_13);
}

fn build_one(height: u32, graph: &Graph, endpoints: &Vec<usize>) -> Option<Vec<Stage>> {
    match graph.rust {
        Rust::Published => every::build_one(height, graph, endpoints),
        Rust::Changed => needed::build_one(height, graph, endpoints),
    }
}

pub fn timed(height: u32, graph: &Graph) -> f64 {
    match graph.rust {
        Rust::Published => every::timed(height, graph),
        Rust::Changed => needed::timed(height, graph),
    }
}

fn process(height: u32, graph: &Graph, parts: Vec<Vec<usize>>, extra: usize) -> Option<Vec<(Vec<usize>, usize, usize, usize)>> {
    match graph.rust {
        Rust::Published => every::process(height, graph, parts, extra),
        Rust::Changed => needed::process(height, graph, parts, extra),
    }
}

fn memory(literals: &[u32]) -> RAMBlock {
    let literal = |i: usize| literals[i] as usize;
    let mut ram = RAMBlock { port_r_en_iv: literal(0), ..Default::default() };
    for i in 0..13 {
        ram.port_r_addr_iv[i] = literal(1 + 2 * i);
        ram.port_w_addr_iv[i] = literal(2 + 2 * i);
    }
    for i in 0..32 {
        ram.port_w_wr_en_iv[i] = literal(27 + 2 * i);
        ram.port_w_wr_data_iv[i] = literal(28 + 2 * i);
    }
    ram
}

pub fn graph(rust: Rust, case: &Case) -> Graph {
    let mut aig = AIG { num_aigpins: case.pins(), ..Default::default() };
    for (pin, gate) in case.gates.chunks(2).enumerate() {
        aig.drivers.push(match (pin, gate[0]) {
            (0, _) => DriverType::Tie0,
            (_, EMPTY) => DriverType::InputPort(pin),
            _ => DriverType::AndGate(gate[0] as usize, gate[1] as usize),
        });
    }
    let records = case.split();
    for (r, record) in records.iter().enumerate() {
        match record[0] {
            1 => drop(aig.primary_outputs.insert(record[1] as usize)),
            2 => drop(aig.dffs.insert(r, DFF { en_iv: record[1] as usize, d_iv: record[2] as usize, q: 0 })),
            3 => drop(aig.srams.insert(r, memory(&record[1..]))),
            _ => {}
        }
    }
    // The published endpoints are the outputs, then the flip-flops, then the memories; staged pins come before all.
    let (outputs, flip_flops) = (aig.primary_outputs.len(), aig.dffs.len());
    let given = case.given.iter().map(|&pin| pin as usize).collect();
    let mut staged = StagedAIG { primary_inputs: Some(given), primary_output_pins: Vec::new(), endpoints: Vec::new() };
    if case.given.is_empty() {
        staged.primary_inputs = None;
    }
    let (mut pins, mut groups) = (Vec::new(), Vec::new());
    for (r, record) in records.iter().enumerate() {
        if record[0] == 4 {
            staged.primary_output_pins.push(record[1] as usize);
            pins.push(r);
            continue;
        }
        staged.endpoints.push(match record[0] {
            1 => aig.primary_outputs.get_index_of(&(record[1] as usize)).unwrap(),
            2 => outputs + aig.dffs.get_index_of(&r).unwrap(),
            _ => outputs + flip_flops + aig.srams.get_index_of(&r).unwrap(),
        });
        groups.push(r);
    }
    let mut record = pins;
    record.extend(groups);
    let mut endpoint = vec![0; record.len()];
    for (e, &r) in record.iter().enumerate() {
        endpoint[r] = e;
    }
    Graph { rust, aig, staged, endpoint, record }
}

/// The published `None` says nothing; its trace messages tell the scope document's number and stage.
fn refusal(seen: &Seen) -> Outcome {
    if seen.words_over > 0 {
        Outcome::Refused { number: 7, stage: seen.stages }
    } else if seen.lvl1_over > 0 || seen.lvl1_zero_over > 0 {
        Outcome::Refused { number: 8, stage: seen.stages }
    } else {
        Outcome::Refused { number: 6, stage: 0 }
    }
}

fn build_endpoints(height: u32, graph: &Graph, endpoints: &Vec<usize>) -> (Outcome, Seen) {
    clilog::reset(0);
    let built = catch_unwind(AssertUnwindSafe(|| build_one(height, graph, endpoints)));
    let seen = clilog::seen();
    let outcome = match built {
        Ok(Some(stages)) => Outcome::Whole(stages),
        Ok(None) => refusal(&seen),
        Err(_) => Outcome::Panicked,
    };
    (outcome, seen)
}

/// All records in order.
pub fn build(height: u32, graph: &Graph) -> (Outcome, Seen) {
    build_endpoints(height, graph, &graph.endpoint)
}

/// These records in order.
pub fn build_records(height: u32, graph: &Graph, records: &[usize]) -> (Outcome, Seen) {
    build_endpoints(height, graph, &records.iter().map(|&r| graph.endpoint[r]).collect())
}

pub fn merge(height: u32, graph: &Graph, parts: &[Vec<usize>], extra: usize) -> Merged {
    let parts = parts.iter().map(|part| part.iter().map(|&r| graph.endpoint[r]).collect()).collect();
    match catch_unwind(AssertUnwindSafe(|| process(height, graph, parts, extra))) {
        Err(_) => Merged::Panicked,
        Ok(None) => Merged::Refused,
        Ok(Some(merged)) => Merged::Whole(
            merged.into_iter()
                .map(|(endpoints, stages, words, cells)| {
                    let records = endpoints.into_iter().map(|e| graph.record[e]).collect();
                    Part { records, stages, words, cells }
                })
                .collect(),
        ),
    }
}
