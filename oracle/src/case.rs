//! A case: what both sides are handed.
pub use crate::placer::EMPTY;

pub const LEAST: u32 = 6;
pub const GREATEST: u32 = 13;

/// The lent areas in order: plan, words, counts, work.
pub type Sizes = [usize; 4];

#[derive(Clone, Debug, PartialEq)]
pub struct Case {
    pub height: u32,
    /// Two literals a pin from pin 0 on, both EMPTY for a leaf.
    pub gates: Vec<u32>,
    pub given: Vec<u32>,
    /// Endpoint records, each a kind and its numbers.
    pub records: Vec<u32>,
    /// Rooms lent beyond the stages that the Rust takes, or fewer.
    pub rooms: i64,
    /// What each area is longer than its right size, or shorter.
    pub beyond: [i64; 4],
    /// What the areas hold at entry is drawn from this.
    pub old: u64,
}

/// Numbers of a record of this kind, with the kind.
pub fn record_size(kind: u32) -> Option<usize> {
    match kind {
        1 | 4 => Some(2),
        2 => Some(3),
        3 => Some(92),
        _ => None,
    }
}

impl Case {
    pub fn pins(&self) -> usize {
        (self.gates.len() / 2).saturating_sub(1)
    }

    pub fn gate_count(&self) -> usize {
        self.gates.chunks(2).filter(|gate| gate.iter().any(|&literal| literal != EMPTY)).count()
    }

    /// The records one by one; what can't be read is the last one.
    pub fn split(&self) -> Vec<Vec<u32>> {
        let (mut rest, mut out) = (&self.records[..], Vec::new());
        while !rest.is_empty() {
            let size = record_size(rest[0]).filter(|&n| n <= rest.len()).unwrap_or(rest.len());
            out.push(rest[..size].to_vec());
            rest = &rest[size..];
        }
        out
    }

    /// Whether the operands of every gate are below it.
    pub fn in_order(&self) -> bool {
        self.gates.chunks(2).enumerate().all(|(pin, gate)| gate.iter().all(|&literal| literal == EMPTY || (literal as usize / 2) < pin))
    }

    /// The pins of literals, of records and of the given list by these numbers; each gate stays where it is.
    pub fn renamed(&self, pin: &dyn Fn(u32) -> u32) -> Case {
        let literal = |literal: u32| if literal == EMPTY { EMPTY } else { 2 * pin(literal / 2) + literal % 2 };
        let mut out = self.clone();
        out.gates = self.gates.iter().map(|&l| literal(l)).collect();
        out.given = self.given.iter().map(|&p| pin(p)).collect();
        out.records = Vec::new();
        for record in self.split() {
            out.records.push(record[0]);
            out.records.extend(record[1..].iter().map(|&n| if record[0] == 4 { pin(n) } else { literal(n) }));
        }
        out
    }

    fn tree(&self) -> u32 {
        if (LEAST..=GREATEST).contains(&self.height) { self.height } else { LEAST }
    }

    pub fn stage_size(&self) -> usize {
        2 << self.tree()
    }

    pub fn word_limit(&self) -> usize {
        1 << (self.tree() - 5)
    }

    pub fn work_size(&self) -> usize {
        16 * (self.gates.len() / 2) + 8 * self.records.len() + 512
    }

    /// What is lent where the Rust takes so many stages.
    pub fn sizes(&self, stages: usize) -> Sizes {
        let rooms = (stages as i64 + self.rooms).max(0) as usize;
        let right = [rooms * self.stage_size(), self.word_limit(), rooms, self.work_size()];
        let mut lent = [0; 4];
        for area in 0..4 {
            lent[area] = (right[area] as i64 + self.beyond[area]).max(0) as usize;
        }
        lent
    }

    /// In the form of PROTOCOL.md, up to what is asked for.
    pub fn lines(&self, name: &str) -> String {
        let mut out = format!("case {name} {}\npins {}\n", self.height, self.pins());
        for (pin, gate) in self.gates.chunks(2).enumerate() {
            if gate.iter().any(|&literal| literal != EMPTY) {
                out += &format!("gate {pin} {}\n", joined(gate));
            }
        }
        if !self.given.is_empty() {
            out += &format!("given {}\n", joined(&self.given));
        }
        for record in self.split() {
            out += &format!("rec {}\n", joined(&record));
        }
        out
    }

    /// In the form of PROTOCOL.md, with what it has no words for as remarks.
    pub fn text(&self, name: &str, stages: usize) -> String {
        let [plan, words, counts, work] = self.sizes(stages);
        self.lines(name) + &format!("build\n# lent: plan {plan} words {words} counts {counts} work {work}; gates {} numbers, old {}\nend\n",
                                    self.gates.len(), self.old)
    }
}

pub fn joined<T: ToString>(numbers: &[T]) -> String {
    numbers.iter().map(T::to_string).collect::<Vec<_>>().join(" ")
}
