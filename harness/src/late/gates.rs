//! The nodes that a late start adds. What a late source gives comes some clocks after it came in
//! the old netlist. At its first clocks the reader is shown the old reset words by choose gates,
//! one for each clock, then the wire. One chain of registers that fill with 1 steers all gates.

use std::ops::Range;

use crate::leads::before;
use crate::netlist::{Kind, Node};
use crate::plan::Plan;

pub struct Gates<'p> {
    plan: &'p Plan<'p>,
    gates: usize,
    /// How many registers steer the gates.
    chain: usize,
}

impl<'p> Gates<'p> {
    pub fn new(plan: &'p Plan) -> Self {
        let mut gates = Gates {
            plan,
            gates: 0,
            chain: 0,
        };
        for (number, node) in plan.readers() {
            for &source in node.sources() {
                let clocks = gates.clocks(number, source);
                if !clocks.is_empty() {
                    gates.gates += plan.copies.count(number) * clocks.len();
                    gates.chain = gates.chain.max(clocks.end as usize);
                }
            }
        }
        gates
    }

    /// How many nodes are added: the chain and its constant, a constant and a gate for each clock.
    pub fn size(&self) -> usize {
        match self.gates {
            0 => 0,
            gates => 1 + self.chain + 2 * gates,
        }
    }

    /// The clocks at which gates show a reader what it received from a late source: from its first
    /// clock of the old netlist on, as long as the old wire had words to start with, a clocked ROM's
    /// own one included.
    fn clocks(&self, reader: usize, source: u16) -> Range<i32> {
        let chain = self.plan.chains[usize::from(source)];
        let origin = usize::from(chain.origin);
        let leads = &self.plan.timing.leads;
        if leads[origin] >= 0 {
            return 0..0;
        }
        let kind = self.plan.checked.netlist.nodes[origin].kind;
        let words = i32::from(chain.registers) + i32::from(kind == Kind::ClockedRom);
        (-leads[reader]).max(0)..words - leads[reader]
    }

    /// Adds the nodes behind those of the plan.
    pub fn add(&self, nodes: &mut Vec<Node>) {
        if self.gates == 0 {
            return;
        }
        let one = nodes.len() as u16;
        nodes.push(node(Kind::Constant, 1, 1, [0; 3]));
        for register in 0..self.chain as u16 {
            nodes.push(node(Kind::Register, 1, 0, [one + register, 0, 0]));
        }
        for (number, reader) in self.plan.readers() {
            let first = usize::from(self.plan.numbers[number]);
            for place in first..first + self.plan.copies.count(number) {
                for (operand, &source) in reader.sources().iter().enumerate() {
                    let wire = nodes[place].sources[operand];
                    let shown = self.show(number, source, wire, one, nodes);
                    nodes[place].sources[operand] = shown;
                }
            }
        }
    }

    /// Adds the gates in front of a wire, and gives what the reader reads.
    fn show(&self, reader: usize, source: u16, wire: u16, one: u16, nodes: &mut Vec<Node>) -> u16 {
        let clocks = self.clocks(reader, source);
        if clocks.is_empty() {
            return wire;
        }
        let old_nodes = &self.plan.checked.netlist.nodes;
        let lead = self.plan.timing.leads[reader];
        let mut old = &old_nodes[usize::from(before(old_nodes, source, lead))];
        let width = old.width;
        let first = nodes.len() as u16 + 1;
        for clock in clocks.clone() {
            let constant = nodes.len() as u16;
            let steering = one + 1 + clock as u16;
            let next = match clock + 1 < clocks.end {
                true => constant + 3,
                false => wire,
            };
            nodes.push(node(Kind::Constant, width, old.word, [0; 3]));
            nodes.push(node(Kind::Choose, width, 0, [steering, next, constant]));
            old = &old_nodes[usize::from(old.sources[0])];
        }
        first
    }
}

fn node(kind: Kind, width: u8, word: u16, sources: [u16; 3]) -> Node {
    Node {
        kind,
        width,
        table: 0,
        word,
        sources,
    }
}
