//! Random cases from a seed: graphs of several shapes, records of every kind, jobs at the limits, and damage.
use crate::case::{Case, EMPTY};

/// Splitmix64.
pub struct Random(u64);

impl Random {
    pub fn new(seed: u64) -> Self {
        Random(seed)
    }

    pub fn next(&mut self) -> u64 {
        self.0 = self.0.wrapping_add(0x9e37_79b9_7f4a_7c15);
        let mut z = self.0;
        z = (z ^ (z >> 30)).wrapping_mul(0xbf58_476d_1ce4_e5b9);
        z = (z ^ (z >> 27)).wrapping_mul(0x94d0_49bb_1331_11eb);
        z ^ (z >> 31)
    }

    /// From low to high, both included.
    pub fn between(&mut self, low: usize, high: usize) -> usize {
        low + (self.next() % (high.max(low) - low + 1) as u64) as usize
    }

    pub fn chance(&mut self, percent: usize) -> bool {
        self.between(1, 100) <= percent
    }

    pub fn pick<T: Copy>(&mut self, choices: &[T]) -> T {
        choices[self.between(0, choices.len() - 1)]
    }

    pub fn shuffle<T>(&mut self, items: &mut [T]) {
        for i in (1..items.len()).rev() {
            let j = self.between(0, i);
            items.swap(i, j);
        }
    }

    pub fn literal(&mut self, pin: usize) -> u32 {
        (2 * pin + self.between(0, 1)) as u32
    }
}

/// A graph that is being made: pin 0 is there already.
struct Maker {
    gates: Vec<u32>,
}

impl Maker {
    fn new() -> Self {
        Maker { gates: vec![EMPTY; 2] }
    }

    fn pins(&self) -> usize {
        self.gates.len() / 2 - 1
    }

    fn leaf(&mut self) -> usize {
        self.gates.extend([EMPTY; 2]);
        self.pins()
    }

    fn gate(&mut self, a: u32, b: u32) -> usize {
        self.gates.extend([a, b]);
        self.pins()
    }

    fn leaves(&mut self, n: usize) {
        for _ in 0..n {
            self.leaf();
        }
    }
}

/// Operands from the `near` pins before, or now and then from any; leaves may stand among the gates.
pub fn scattered(r: &mut Random, leaves: usize, gates: usize, near: usize, far: usize) -> Vec<u32> {
    let mut m = Maker::new();
    let mut is_leaf = vec![true; leaves];
    is_leaf.extend(vec![false; gates]);
    if r.chance(30) {
        r.shuffle(&mut is_leaf[1..]);
    }
    for leaf in is_leaf {
        let next = m.pins() + 1;
        if leaf {
            m.leaf();
            continue;
        }
        let mut operand = || {
            let low = if r.chance(far) { 1 } else { next.saturating_sub(near).max(1) };
            r.between(low, next - 1)
        };
        let a = operand();
        let b = operand();
        let b = if r.chance(5) { a } else { b };
        let (a, b) = (r.literal(a), r.literal(b));
        m.gate(a, b);
    }
    m.gates
}

/// Each gate on the one before and a leaf.
pub fn chain(r: &mut Random, leaves: usize, gates: usize) -> Vec<u32> {
    let mut m = Maker::new();
    m.leaves(leaves);
    for _ in 0..gates {
        let last = m.pins();
        let leaf = r.between(1, leaves);
        let (a, b) = (r.literal(last), r.literal(leaf));
        if r.chance(50) { m.gate(a, b) } else { m.gate(b, a) };
    }
    m.gates
}

/// Layers of one width; operands from the layer before.
pub fn layers(r: &mut Random, width: usize, gates: usize) -> Vec<u32> {
    let mut m = Maker::new();
    m.leaves(width);
    for i in 0..gates {
        let first = (i / width) * width + 1;
        let (a, b) = (r.between(first, first + width - 1), r.between(first, first + width - 1));
        let (a, b) = (r.literal(a), r.literal(b));
        m.gate(a, b);
    }
    m.gates
}

/// Adders of this many bits side by side: two leaves a bit, the carry runs through.
pub fn adders(bits: usize, count: usize) -> Vec<u32> {
    let mut m = Maker::new();
    m.leaves(2 * bits * count);
    for adder in 0..count {
        let mut carry = None;
        for bit in 0..bits {
            let a = 2 * (2 * (adder * bits + bit) + 1) as u32;
            let b = a + 2;
            let both = 2 * m.gate(a, b) as u32;
            let neither = 2 * m.gate(a ^ 1, b ^ 1) as u32;
            let half = 2 * m.gate(both ^ 1, neither ^ 1) as u32;
            if let Some(c) = carry {
                let through = 2 * m.gate(half, c) as u32;
                let idle = 2 * m.gate(half ^ 1, c ^ 1) as u32;
                m.gate(through ^ 1, idle ^ 1);
                carry = Some(2 * m.gate(both ^ 1, through ^ 1) as u32 ^ 1);
            } else {
                carry = Some(both);
            }
        }
    }
    m.gates
}

/// Pins that no gate has as an operand.
pub fn tops(gates: &[u32]) -> Vec<usize> {
    let mut used = vec![false; gates.len() / 2];
    for &literal in gates.iter().filter(|&&literal| literal != EMPTY) {
        used[literal as usize / 2] = true;
    }
    (1..used.len()).filter(|&pin| !used[pin] && gates[2 * pin] != EMPTY).collect()
}

fn tree(r: &mut Random, leaves: usize) -> Vec<u32> {
    let mut m = Maker::new();
    m.leaves(leaves);
    let mut at = 1;
    while at < m.pins() {
        let (a, b) = (r.literal(at), r.literal(at + 1));
        m.gate(a, b);
        at += 2;
    }
    m.gates
}

fn shape(r: &mut Random, leaves: usize, gates: usize) -> Vec<u32> {
    let total = leaves + gates;
    match r.between(0, 9) {
        0 => chain(r, leaves.min(8), gates),
        1 => {
            let width = r.between(1, leaves);
            layers(r, width, gates)
        }
        2 => adders(r.between(1, 12).min(gates / 7 + 1), gates / 80 + 1),
        3 => tree(r, leaves),
        _ => {
            let near = r.pick(&[1, 2, 3, 5, 20, 100, total]);
            let far = r.pick(&[0, 0, 5, 20]);
            scattered(r, leaves, gates, near, far)
        }
    }
}

/// Which pins records name: each once, in any order, or any.
struct Named {
    once: Vec<usize>,
    low: usize,
    pins: usize,
}

impl Named {
    fn new(r: &mut Random, gates: &[u32]) -> Self {
        let pins = gates.len() / 2 - 1;
        let mut once = match r.between(0, 9) {
            0..=3 => (1..=pins).collect(),
            4..=5 => tops(gates),
            _ => Vec::new(),
        };
        r.shuffle(&mut once);
        let low = if r.chance(50) { pins.saturating_sub(8) } else { 0 };
        Named { once, low, pins }
    }

    fn pin(&mut self, r: &mut Random) -> usize {
        match self.once.pop() {
            Some(pin) => pin,
            None if r.chance(3) => 0,
            None => r.between(self.low.max(1).min(self.pins), self.pins),
        }
    }

    fn literal(&mut self, r: &mut Random) -> u32 {
        let pin = self.pin(r);
        r.literal(pin)
    }
}

fn memory(r: &mut Random, named: &mut Named) -> Vec<u32> {
    let some: Vec<u32> = (0..r.pick(&[1, 2, 5, 20, 91])).map(|_| named.literal(r)).collect();
    let mut record = vec![3];
    record.extend((0..91).map(|_| r.pick(&some)));
    record
}

fn records(r: &mut Random, gates: &[u32], count: usize, height: u32) -> Vec<u32> {
    let mut named = Named::new(r, gates);
    let plain = r.chance(50);
    let memories = if height >= 8 { r.pick(&[0, 0, 1, 4]) } else { usize::from(r.chance(3)) };
    let mut out = Vec::new();
    for _ in 0..count {
        match r.between(0, 99) {
            n if n < memories => out.extend(memory(r, &mut named)),
            n if plain || n < 60 => out.extend([1, named.literal(r)]),
            n if n < 80 => out.extend([4, named.pin(r) as u32]),
            n if n < 90 => {
                let enable = named.literal(r);
                out.extend([2, enable, named.literal(r)]);
            }
            _ => out.extend([2, 1, named.literal(r)]),
        }
    }
    out
}

fn given(r: &mut Random, pins: usize) -> Vec<u32> {
    if r.chance(65) {
        return Vec::new();
    }
    let most = r.pick(&[1, 3, 1 + pins / 4]);
    let mut out: Vec<u32> = (0..r.between(0, most)).map(|_| r.between(0, pins) as u32).collect();
    if !out.is_empty() && r.chance(30) {
        let again = r.pick(&out);
        out.push(again);
    }
    out
}

pub fn with(r: &mut Random, height: u32, gates: Vec<u32>, given: Vec<u32>, records: Vec<u32>) -> Case {
    let rooms = if r.chance(8) { -(r.between(1, 3) as i64) } else { r.pick(&[0, 0, 1, 3]) };
    let beyond = if r.chance(50) { [0; 4] } else { [0, r.between(0, 40) as i64, r.between(0, 9) as i64, r.between(0, 40) as i64] };
    Case { height, gates, given, records, rooms, beyond, old: r.next() }
}

/// A build whose pins number some `most` at the highest.
fn ordinary(r: &mut Random, height: u32, most: usize) -> Case {
    let half = 1usize << (height - 1);
    let cap = |n: usize| n.min(most).max(1);
    let leaves = match r.between(0, 4) {
        0 => r.between(1, 3),
        1 | 2 => r.between(1, cap(half)),
        _ => r.between(1, cap(2 * half)),
    };
    let few = match r.between(0, 5) {
        0 => 6,
        1 => half,
        2 | 3 => 3 * half,
        _ => 6 * half,
    };
    let gate_count = r.between(0, few.min(most));
    let gates = shape(r, leaves, gate_count);
    let pins = gates.len() / 2 - 1;
    let many = r.pick(&[1, 1, 2, 3, 8, half / 4, half]).min(2 * most);
    let count = if many < 4 { many } else { r.between(1, many) };
    let given = given(r, pins);
    let records = records(r, &gates, count, height);
    with(r, height, gates, given, records)
}

/// Jobs near a limit: leaf outputs to level 1's end, duplicates and memories at the reservation's, deep outputs at the words'.
pub fn limit(r: &mut Random, height: u32) -> Case {
    let (half, words) = (1usize << (height - 1), 1usize << (height - 5));
    let mut list = Vec::new();
    let gates = match r.between(0, 3) {
        0 => {
            let leaves = half + 2 - r.between(0, 4);
            let mut m = Maker::new();
            m.leaves(leaves);
            let extra = r.between(0, 4);
            for _ in 0..extra {
                let (a, b) = (r.between(1, leaves), r.between(1, leaves));
                let (a, b) = (r.literal(a), r.literal(b));
                m.gate(a, b);
            }
            let mut pins: Vec<usize> = (1..=m.pins()).collect();
            r.shuffle(&mut pins);
            for pin in pins {
                list.extend(if r.chance(50) { [1, r.literal(pin)] } else { [4, pin as u32] });
            }
            m.gates
        }
        1 => {
            // Flip-flops at one data pin, each with its own enable.
            let (memories, few) = (r.between(0, words / 4 + 1), r.chance(50));
            let about = if few { 32 * r.between(0, 2) } else { words.saturating_sub(4 * memories) };
            let copies = (about + r.between(0, 3)).max(1);
            let gate_count = r.pick(&[0, 5, 40]);
            let gates = scattered(r, copies + 2, gate_count, 20, 20);
            for _ in 0..memories {
                let mut record = vec![3];
                record.extend(vec![r.pick(&[0, 2, 3]); 91]);
                list.extend(record);
            }
            for copy in 0..copies {
                list.extend([2, 2 * (copy as u32 + 1), 2]);
            }
            gates
        }
        _ => {
            let depth = r.between(1, 3) * height as usize;
            let width = r.between(2, (half / 2).min(200));
            let gates = layers(r, width, (depth * width).min(6 * half.min(1000)));
            let mut pins: Vec<usize> = (1..gates.len() / 2).collect();
            r.shuffle(&mut pins);
            pins.truncate(r.between(1, half));
            for pin in pins {
                list.extend([1, r.literal(pin)]);
            }
            gates
        }
    };
    let given = if r.chance(20) { given(r, gates.len() / 2 - 1) } else { Vec::new() };
    with(r, height, gates, given, list)
}

/// Jobs that run short of words: memories, flip-flops at one pin and outputs with both inversions reserve some, and outputs on every level of the
/// tree take many. Now and then a room is missing.
pub fn tight(r: &mut Random, height: u32) -> Case {
    let (half, words) = (1usize << (height - 1), 1usize << (height - 5));
    let width = r.between(2, (half / 2).min(300));
    let depth = r.between(1, 2 * height as usize);
    let gates = layers(r, width, (depth * width).min(3 * half.min(1000)));
    let pins = gates.len() / 2 - 1;
    let (memories, mut list) = (r.between(0, words / 4), Vec::new());
    for _ in 0..memories {
        let some = [r.between(1, pins), r.between(1, pins)];
        list.push(3);
        list.extend((0..91).map(|_| 2 * r.pick(&some) as u32));
    }
    let copies = if r.chance(50) { 0 } else { r.between(0, words - 4 * memories).min(width) };
    let data = r.between(1, pins);
    for copy in 0..copies {
        list.extend([2, 2 * (copy as u32 + 1), 2 * data as u32]);
    }
    let mut named: Vec<usize> = (if r.chance(70) { width + 1 } else { 1 }..=pins).collect();
    r.shuffle(&mut named);
    let most = half / r.pick(&[1, 2, 4, 8]);
    named.truncate(r.between(1, most));
    let doubled = r.between(0, words - 4 * memories - copies.saturating_sub(1));
    for (i, pin) in named.into_iter().enumerate() {
        let literal = r.literal(pin);
        list.extend([1, literal]);
        if i < doubled {
            list.extend([1, literal ^ 1]);
        }
    }
    let mut case = with(r, height, gates, Vec::new(), list);
    if r.chance(20) {
        case.rooms = -1;
    }
    case
}

/// The greatest numbers of pins and record numbers, and one beyond.
fn greatest(r: &mut Random, height: u32) -> Case {
    let mut m = Maker::new();
    let mut list = Vec::new();
    if r.chance(50) {
        m.leaves(65_535 - 3 + r.between(0, 1));
        for _ in 0..3 {
            let (a, b) = (r.between(1, m.pins()), r.between(1, m.pins()));
            let (a, b) = (r.literal(a), r.literal(b));
            let top = m.gate(a, b);
            list.extend([1, r.literal(top)]);
        }
    } else {
        m.leaves(r.between(1, 4));
        let far = m.pins() as u32 * 2;
        while list.len() < 65_536 {
            list.extend([1, r.between(0, 1) as u32 + r.pick(&[0, far])]);
        }
        if r.chance(30) {
            list.push(1);
        }
    }
    with(r, height, m.gates, Vec::new(), list)
}

const ODD: [u32; 7] = [0, 1, 2, 5, 65_536, 0x8000_0000, EMPTY];

/// One thing that the input rules or the sizes forbid, or that only looks so.
fn damage(r: &mut Random, case: &mut Case) {
    let pins = case.pins() as u32;
    let past = pins + 1 + r.pick(&[0, 0, 1, 70_000]);
    match r.between(0, 11) {
        0 => case.height = r.pick(&[0, 1, 4, 5, 14, 15, 37, 64, EMPTY]),
        1 | 2 => {
            let area = r.between(0, 3);
            case.beyond[area] = r.pick(&[-1, -1, -2, -64, -1_000_000_000, 1, 64]);
        }
        3 => drop(case.gates.pop()),
        4 if !case.gates.is_empty() => {
            let at = r.between(0, case.gates.len() - 1);
            case.gates[at] = r.pick(&ODD);
        }
        5 if case.gates.len() > 1 => {
            // An operand at the gate's own pin or above it.
            let pin = r.between(0, pins as usize);
            let above = r.between(pin, pins as usize);
            case.gates[2 * pin] = r.literal(above);
            if r.chance(50) {
                case.gates[2 * pin + 1] = r.literal(1.min(pin));
            }
        }
        6 if !case.records.is_empty() => {
            let at = r.between(0, case.records.len() - 1);
            case.records[at] = r.pick(&[ODD[0], ODD[3], ODD[5], EMPTY, past, 2 * past, 2 * past + 1]);
        }
        7 if !case.records.is_empty() => drop(case.records.pop()),
        8 => case.records.push(r.pick(&[0, 1, 2, 3, 4, 5, EMPTY])),
        9 => case.records.extend([4, past]),
        10 => case.given.push(past),
        _ => case.gates.clear(),
    }
}

/// Case number `index` of a seed at this height.
pub fn case(seed: u64, index: u64, height: u32) -> Case {
    let mut mixer = Random::new(seed);
    let mut r = Random::new(mixer.next() ^ index.wrapping_mul(0xd134_2543_de82_ef95));
    let large = height >= 10;
    let mut case = match r.between(0, 99) {
        0..=14 => limit(&mut r, height),
        15 if r.chance(20) => greatest(&mut r, height),
        16 if large && r.chance(50) => {
            let leaves = r.between(50, 4000);
            let near = r.pick(&[50, 500, 4000]);
            let gate_count = r.between(10_001, 14_000);
            let gates = scattered(&mut r, leaves, gate_count, near, 5);
            let count = r.between(1, 60);
            let records = records(&mut r, &gates, count, height);
            with(&mut r, height, gates, Vec::new(), records)
        }
        17..=30 if large => ordinary(&mut r, height, 1500),
        _ if large => ordinary(&mut r, height, 200),
        _ => {
            let most = r.pick(&[60, 150, 400, 100_000]);
            ordinary(&mut r, height, most)
        }
    };
    if r.chance(15) {
        for _ in 0..r.pick(&[1, 1, 1, 2, 3]) {
            damage(&mut r, &mut case);
        }
    }
    case
}
