//! Where everything goes in the new netlist, by a timing of either mode.

use crate::checks::Checked;
use crate::copies::Copies;
use crate::first_clocks::FirstClocks;
use crate::leads::{before, taken, Chain, Timing};
use crate::netlist::{Kind, Node};

pub struct Plan<'p> {
    pub checked: &'p Checked<'p>,
    pub chains: &'p [Chain],
    pub timing: &'p Timing,
    pub copies: &'p Copies,
    /// The new number of each node that stays, of its first copy where it has several.
    pub numbers: Vec<u16>,
    /// How many nodes stand before the registers.
    nodes: usize,
    registers: usize,
}

impl<'p> Plan<'p> {
    pub fn new(
        checked: &'p Checked,
        chains: &'p [Chain],
        timing: &'p Timing,
        copies: &'p Copies,
    ) -> Self {
        let nodes = &checked.netlist.nodes;
        let mut plan = Plan {
            checked,
            chains,
            timing,
            copies,
            numbers: vec![0; nodes.len()],
            nodes: 0,
            registers: 0,
        };
        for (number, node) in nodes.iter().enumerate() {
            if timing.stays[number] {
                let copies = copies.count(number);
                let sources = node.sources().iter();
                let registers: i32 = sources.map(|&s| plan.wire_registers(number, s)).sum();
                plan.numbers[number] = plan.nodes as u16;
                plan.nodes += copies;
                plan.registers += copies * registers as usize;
            }
        }
        plan
    }

    /// How many nodes the new netlist has, a late start's gates apart.
    pub fn size(&self) -> usize {
        self.nodes + self.registers
    }

    /// The nodes that stay, with their old numbers.
    pub fn readers(&self) -> impl Iterator<Item = (usize, &'p Node)> + use<'p> {
        let stays = &self.timing.stays;
        let nodes = self.checked.netlist.nodes.iter().enumerate();
        nodes.filter(|&(number, _)| stays[number])
    }

    /// How many registers the wire from a source to a reader has in the new netlist, apart from
    /// a ROM's own.
    fn wire_registers(&self, reader: usize, source: u16) -> i32 {
        let chain = self.chains[usize::from(source)];
        let origin = usize::from(chain.origin);
        let taken = taken(self.checked.netlist.nodes[origin].kind);
        let leads = &self.timing.leads;
        i32::from(chain.registers) + leads[origin] - leads[reader] - taken
    }

    /// The nodes of the new netlist: all that are no registers, then the registers wire by wire.
    pub fn build(&self) -> Vec<Node> {
        let first_clocks = FirstClocks::new(self.checked, &self.timing.leads);
        let mut nodes = Vec::with_capacity(self.size());
        let mut registers = Vec::with_capacity(self.registers);
        for (number, node) in self.checked.netlist.nodes.iter().enumerate() {
            if !self.timing.stays[number] {
                continue;
            }
            for copy in 0..self.copies.count(number) {
                let place = nodes.len();
                nodes.push(*node);
                if node.kind.is_rom() {
                    nodes[place].kind = Kind::ClockedRom;
                    nodes[place].word = self.rom_word(&first_clocks, number, copy);
                }
                for (operand, &source) in node.sources().iter().enumerate() {
                    let source = self.wire(&first_clocks, number, source, &mut registers);
                    nodes[place].sources[operand] = source;
                }
            }
        }
        nodes.append(&mut registers);
        nodes
    }

    /// The reset word of a ROM's copy: what the register nearest the ROM holds.
    fn rom_word(&self, first_clocks: &FirstClocks, number: usize, copy: usize) -> u16 {
        match self.copies.words(number).get(copy) {
            Some(&word) => word,
            None => {
                let taken = taken(self.checked.netlist.nodes[number].kind);
                first_clocks.word(number as u16, self.timing.leads[number] - taken)
            }
        }
    }

    /// Adds the registers of a wire, from its source to its reader, and gives what the reader
    /// reads.
    fn wire(
        &self,
        first_clocks: &FirstClocks,
        reader: usize,
        source: u16,
        registers: &mut Vec<Node>,
    ) -> u16 {
        let nodes = &self.checked.netlist.nodes;
        let chain = self.chains[usize::from(source)];
        let copy = self.copies.through(source);
        let mut number = self.numbers[usize::from(chain.origin)] + copy;
        let count = self.wire_registers(reader, source);
        if count == 0 {
            return number;
        }

        // Counted from the reader, register j holds what the reader got at clock j + lead: 0
        // before the first clock, a reset word of the old registers as long as there is one, then
        // the origin's words.
        let lead = self.timing.leads[reader];
        let old_registers = i32::from(chain.registers);
        let mut old = before(nodes, source, lead.min(old_registers));
        let first = registers.len();
        for clock in lead..lead + count {
            let word = if clock < 0 {
                0
            } else if clock < old_registers {
                let register = &nodes[usize::from(old)];
                old = register.sources[0];
                register.word
            } else {
                first_clocks.word(chain.origin, clock - old_registers)
            };
            registers.push(Node {
                kind: Kind::Register,
                width: nodes[usize::from(source)].width,
                table: 0,
                word,
                sources: [0; 3],
            });
        }
        registers[first..].reverse();
        for (index, register) in registers.iter_mut().enumerate().skip(first) {
            register.sources[0] = number;
            number = (self.nodes + index) as u16;
        }
        number
    }
}
