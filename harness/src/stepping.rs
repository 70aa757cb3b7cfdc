//! A netlist decoded once and stepped clock by clock, with no checks: the yardstick for a list of
//! runs. It is written for speed: words stand in the order in which a clock comes to them, equal
//! operations stand together and share a loop, and tables are spelled out.

use crate::checks::Checked;
use crate::netlist::{mask, Kind, Netlist};

/// As many as a source's number can name, so that no place has to be tested.
type Words = [u16; 1 << 16];
type Table = [u16; 1 << 10];

pub struct Stepper {
    /// Of the input ports, then of registers and clocked ROMs, then of gates and asynchronous ROMs.
    words: Box<Words>,
    inputs: usize,
    /// Where each register and clocked ROM reads, and the clocked ROMs among them, with their tables.
    held: Vec<u16>,
    clocked_roms: Vec<[u16; 2]>,
    next: Vec<u16>,
    runs: Vec<Run>,
    /// Where each output port reads.
    outputs: Vec<u16>,
    tables: Vec<Table>,
}

/// Nodes of one kind, from a place on.
struct Run {
    kind: Kind,
    place: usize,
    lines: Vec<Line>,
}

struct Line {
    sources: [u16; 3],
    mask: u16,
    /// A table's number, a constant, a part's lowest bit, or the width of a join's low part.
    number: u16,
}

impl Stepper {
    /// From a state of the right length.
    pub fn new(checked: &Checked, state: &[u8]) -> Self {
        let netlist = &checked.netlist;
        let node = |number: u16| &netlist.nodes[usize::from(number)];
        let inputs = netlist.numbers(|kind| kind == Kind::Input);
        let held = netlist.numbers(Kind::is_clocked);
        let grouped = grouped(netlist, &checked.order);

        let mut places = vec![0; netlist.nodes.len()];
        let listed = inputs.iter().chain(&held).chain(grouped.iter().flatten());
        for (place, &number) in listed.enumerate() {
            places[usize::from(number)] = place as u16;
        }
        let sources = |number: u16| node(number).sources.map(|s| places[usize::from(s)]);
        let first = |number: &u16| sources(*number)[0];
        let run = |numbers: &Vec<u16>| Run {
            kind: node(numbers[0]).kind,
            place: usize::from(places[usize::from(numbers[0])]),
            lines: numbers
                .iter()
                .map(|&n| Line {
                    sources: sources(n),
                    mask: mask(node(n).width),
                    number: match node(n).kind {
                        Kind::AsyncRom => u16::from(node(n).table),
                        Kind::Join => u16::from(node(node(n).sources[1]).width),
                        _ => node(n).word,
                    },
                })
                .collect(),
        };
        let is_rom = |(_, &number): &(usize, &u16)| node(number).kind == Kind::ClockedRom;
        let roms = held.iter().enumerate().filter(is_rom);
        let spelled = |table: &crate::netlist::Table| {
            let addresses = 1 << table.address_bits;
            std::array::from_fn(|a| {
                if a < addresses {
                    table.word(a as u16)
                } else {
                    0
                }
            })
        };
        let mut words: Box<Words> = vec![0; 1 << 16].try_into().expect("the length is right");
        let (state, _) = state.as_chunks();
        for (word, bytes) in words[inputs.len()..].iter_mut().zip(state) {
            *word = u16::from_be_bytes(*bytes);
        }
        Stepper {
            words,
            inputs: inputs.len(),
            next: vec![0; held.len()],
            held: held.iter().map(first).collect(),
            clocked_roms: roms
                .map(|(i, &n)| [i as u16, u16::from(node(n).table)])
                .collect(),
            runs: grouped.iter().map(run).collect(),
            outputs: netlist
                .numbers(|kind| kind == Kind::Output)
                .iter()
                .map(first)
                .collect(),
            tables: netlist.tables.iter().map(spelled).collect(),
        }
    }

    /// One clock, with two bytes for each port.
    pub fn step(&mut self, inputs: &[u8], outputs: &mut [u8]) {
        let words = &mut self.words;
        for (word, bytes) in words[..self.inputs].iter_mut().zip(inputs.as_chunks().0) {
            *word = u16::from_be_bytes(*bytes);
        }
        for run in &self.runs {
            run.evaluate(words, &self.tables);
        }
        for (bytes, &source) in outputs.as_chunks_mut().0.iter_mut().zip(&self.outputs) {
            *bytes = words[usize::from(source)].to_be_bytes();
        }
        for (next, &source) in self.next.iter_mut().zip(&self.held) {
            *next = words[usize::from(source)];
        }
        for &[rom, table] in &self.clocked_roms {
            let next = &mut self.next[usize::from(rom)];
            *next = word(&self.tables, table, *next);
        }
        words[self.inputs..][..self.next.len()].copy_from_slice(&self.next);
    }

    /// The state, two bytes for each word.
    pub fn state(&self) -> Vec<u8> {
        let words = &self.words[self.inputs..][..self.held.len()];
        words.iter().flat_map(|word| word.to_be_bytes()).collect()
    }
}

fn word(tables: &[Table], table: u16, address: u16) -> u16 {
    tables[usize::from(table)][usize::from(address) & 1023]
}

impl Run {
    fn evaluate(&self, words: &mut Words, tables: &[Table]) {
        match self.kind {
            Kind::AsyncRom => self.each(words, |l, w| word(tables, l.number, w(0))),
            Kind::Constant => self.each(words, |l, _| l.number),
            Kind::Not => self.each(words, |l, w| !w(0) & l.mask),
            Kind::And => self.each(words, |_, w| w(0) & w(1)),
            Kind::Or => self.each(words, |_, w| w(0) | w(1)),
            Kind::Xor => self.each(words, |_, w| w(0) ^ w(1)),
            Kind::Add => self.each(words, |l, w| w(0).wrapping_add(w(1)) & l.mask),
            Kind::Subtract => self.each(words, |l, w| w(0).wrapping_sub(w(1)) & l.mask),
            Kind::Equal => self.each(words, |_, w| u16::from(w(0) == w(1))),
            Kind::Less => self.each(words, |_, w| u16::from(w(0) < w(1))),
            Kind::Choose => self.each(words, |_, w| [w(2), w(1)][usize::from(w(0) & 1)]),
            Kind::Part => self.each(words, |l, w| w(0) >> (l.number & 15) & l.mask),
            Kind::Join => self.each(words, |l, w| w(0) << (l.number & 15) | w(1)),
            _ => unreachable!("ports and what holds a word are in no run"),
        }
    }

    /// The words of the run's nodes, by what one gives from its line and its operands' words.
    #[inline(always)]
    fn each(&self, words: &mut Words, gives: impl Fn(&Line, &dyn Fn(usize) -> u16) -> u16) {
        for (i, line) in self.lines.iter().enumerate() {
            let word = gives(line, &|operand| words[usize::from(line.sources[operand])]);
            words[usize::from((self.place + i) as u16)] = word;
        }
    }
}

/// The order with equal kinds together: in each round every kind has its turn, and takes the nodes
/// that have all they read.
fn grouped(netlist: &Netlist, order: &[u16]) -> Vec<Vec<u16>> {
    let kind = |number: u16| netlist.nodes[usize::from(number)].kind;
    let mut rounds = vec![0; netlist.nodes.len()];
    for &number in order {
        let sources = netlist.nodes[usize::from(number)].sources();
        let inner = sources.iter().filter(|&&s| kind(s).is_combinational());
        let after = |&s: &u16| {
            let passed = kind(s) as u8 > kind(number) as u8;
            rounds[usize::from(s)] + usize::from(passed)
        };
        rounds[usize::from(number)] = inner.map(after).max().unwrap_or(0);
    }
    let mut sorted = order.to_vec();
    sorted.sort_by_key(|&number| (rounds[usize::from(number)], kind(number) as u8));
    let alike = |a: &u16, b: &u16| kind(*a) == kind(*b);
    sorted.chunk_by(alike).map(<[u16]>::to_vec).collect()
}
