//! A waveform, one clock a step, under the names of the file's symbols: what GTKWave opens.

use crate::aag::Aag;
use crate::end::Done;
use crate::files::Out;
use crate::memory;
use crate::placer::VERSION;

/// A signal: some bits in a row of all that a clock shows, the lowest first.
struct Signal {
    code: String,
    first: usize,
    width: usize,
}

pub struct Vcd {
    out: Out,
    signals: Vec<Signal>,
    before: Vec<u8>,
    clock: u64,
}

/// The short name by which a waveform knows signal i: printable characters.
fn code(mut i: usize) -> String {
    let mut code = String::new();
    loop {
        code.push(char::from(33 + (i % 94) as u8));
        i /= 94;
        if i == 0 {
            return code;
        }
        i -= 1;
    }
}

/// A name without what a waveform's words can't hold.
fn word(name: &str) -> String {
    let word: String = name.chars().map(|c| if c.is_whitespace() || c.is_control() { '_' } else { c }).collect();
    if word.is_empty() {
        "_".to_string()
    } else {
        word
    }
}

/// `name[i]`, as name and index.
fn bit(name: &str) -> Option<(&str, usize)> {
    let inside = name.strip_suffix(']')?;
    let at = inside.rfind('[')?;
    let digits = &inside[at + 1..];
    if at == 0 || digits.is_empty() || digits.len() > 6 || !digits.bytes().all(|byte| byte.is_ascii_digit()) {
        return None;
    }
    Some((&inside[..at], digits.parse().ok()?))
}

impl Vcd {
    /// The head of a waveform: inputs, latches and outputs, each kind in a scope of its own since a latch and an output may have one name. Names
    /// with an index that stand in a row become one signal of so many bits.
    pub fn begin(mut out: Out, top: &str, aag: &Aag) -> Done<Vcd> {
        out.put(format!("$version placer {VERSION} $end\n$timescale 1 ns $end\n$scope module {} $end\n", word(top)))?;
        let mut signals: Vec<Signal> = Vec::new();
        let mut first = 0;
        for (scope, kind, names) in
            [("inputs", "wire", &aag.names.inputs), ("latches", "reg", &aag.names.latches), ("outputs", "wire", &aag.names.outputs)]
        {
            out.put(format!("$scope module {scope} $end\n"))?;
            let mut at = 0;
            while at < names.len() {
                let mut width = 1;
                let mut called = word(&names[at]);
                if let Some((name, low)) = bit(&names[at]) {
                    while names.get(at + width).and_then(|next| bit(next)) == Some((name, low + width)) {
                        width += 1;
                    }
                    called = if width == 1 { format!("{} [{low}]", word(name)) } else { format!("{} [{}:{low}]", word(name), low + width - 1) };
                }
                let code = code(signals.len());
                out.put(format!("$var {kind} {width} {code} {called} $end\n"))?;
                memory::more(&mut signals, 1)?;
                signals.push(Signal { code, first: first + at, width });
                at += width;
            }
            out.put("$upscope $end\n")?;
            first += names.len();
        }
        out.put("$upscope $end\n$enddefinitions $end\n")?;
        Ok(Vcd { out, signals, before: Vec::new(), clock: 0 })
    }

    /// One clock's bits: inputs, latches, outputs, in the file's order. Only what has changed is written.
    pub fn clock(&mut self, bits: &[u8]) -> Done<()> {
        let begins = self.clock == 0;
        let mut text = String::new();
        for signal in &self.signals {
            let now = &bits[signal.first..signal.first + signal.width];
            if !begins && self.before.get(signal.first..signal.first + signal.width) == Some(now) {
                continue;
            }
            if signal.width > 1 {
                text.push('b');
            }
            text.extend(now.iter().rev().map(|&bit| if bit == 0 { '0' } else { '1' }));
            if signal.width > 1 {
                text.push(' ');
            }
            text.push_str(&signal.code);
            text.push('\n');
        }
        let clock = self.clock;
        self.clock += 1;
        if begins {
            memory::more(&mut self.before, bits.len())?;
            self.before.extend_from_slice(bits);
            return self.out.put(format!("#{clock}\n$dumpvars\n{text}$end\n"));
        }
        self.before.copy_from_slice(bits);
        self.out.put(format!("#{clock}\n{text}"))
    }

    /// The latches' bits after the last clock; all else stays.
    pub fn end(mut self, inputs: usize, latches: &[u8]) -> Done<()> {
        if self.clock > 0 {
            let mut bits = memory::area(0, self.before.len())?;
            bits.copy_from_slice(&self.before);
            bits[inputs..inputs + latches.len()].copy_from_slice(latches);
            self.clock(&bits)?;
        }
        self.out.flush()
    }
}
