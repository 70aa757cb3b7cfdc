//! Walks, and the lengths of those that go through the same operands in a rewritten netlist. A
//! walk's length is the number of registers and clocked ROMs that it enters.

use std::collections::BTreeSet;

use crate::checks::Checked;
use crate::netlist::{Kind, Node};
use crate::random::Random;
use crate::rewrite::Retimed;

/// An operand of a node.
#[derive(Clone, Copy, Debug, PartialEq, Eq, PartialOrd, Ord)]
pub struct Pin {
    pub node: u16,
    pub operand: usize,
}

/// A walk from a node, by the operands at which it enters readers, those of registers among them.
#[derive(Clone, Debug)]
pub struct Walk {
    pub first: u16,
    pub pins: Vec<Pin>,
}

impl Walk {
    pub fn is_closed(&self) -> bool {
        self.pins.last().is_none_or(|pin| pin.node == self.first)
    }

    pub fn length(&self, nodes: &[Node]) -> usize {
        let pins = self.pins.iter();
        pins.map(|pin| entered(&nodes[usize::from(pin.node)])).sum()
    }

    /// The operands that it goes through, registers aside.
    pub fn through(&self, nodes: &[Node]) -> Vec<Pin> {
        let is_register = |pin: &&Pin| nodes[usize::from(pin.node)].kind == Kind::Register;
        let pins = self.pins.iter().filter(|pin| !is_register(pin));
        pins.copied().collect()
    }

    /// A closed walk, which may repeat nodes; none where the netlist has none.
    pub fn closed(random: &mut Random, nodes: &[Node]) -> Option<Self> {
        let endless = endless(nodes);
        let is_endless = |number: u16| endless[usize::from(number)];
        let starts: Vec<u16> = (0..nodes.len() as u16).filter(|&n| is_endless(n)).collect();
        if starts.is_empty() {
            return None;
        }
        let last = random.pick(&starts);
        let most = nodes.len() + random.below(nodes.len());
        let back = Backwards::new(random, nodes, last, most, is_endless);
        // So many steps repeat a node.
        let before = |at: usize| (0..at).find(|&k| back.nodes[k] == back.nodes[at]);
        let mut ends = (1..back.nodes.len()).rev();
        let (last, first) = ends.find_map(|at| Some((before(at)?, at)))?;
        Some(back.part(last, first))
    }

    /// A walk from an input port to an output port, which may repeat nodes.
    pub fn from_port_to_port(random: &mut Random, nodes: &[Node]) -> Option<Self> {
        let is_output = |&n: &u16| nodes[usize::from(n)].kind == Kind::Output;
        let outputs: Vec<u16> = (0..nodes.len() as u16).filter(is_output).collect();
        if outputs.is_empty() {
            return None;
        }
        let last = random.pick(&outputs);
        let back = Backwards::new(random, nodes, last, 3 * nodes.len(), |_| true);
        let first = usize::from(*back.nodes.last()?);
        let end = back.operands.len();
        (nodes[first].kind == Kind::Input).then(|| back.part(0, end))
    }
}

/// From which nodes an output port can be reached, one step of the walks at a time.
pub fn reaching_outputs(nodes: &[Node]) -> Vec<bool> {
    let mut reaching: Vec<bool> = nodes.iter().map(|n| n.kind == Kind::Output).collect();
    loop {
        let before = reaching.clone();
        for (node, _) in nodes.iter().zip(&before).filter(|(_, reaches)| **reaches) {
            for &source in node.sources() {
                reaching[usize::from(source)] = true;
            }
        }
        if reaching == before {
            return reaching;
        }
    }
}

/// The nodes from which one can go back, from reader to source, without end.
fn endless(nodes: &[Node]) -> Vec<bool> {
    let mut endless = vec![true; nodes.len()];
    loop {
        let before = endless.clone();
        for (number, node) in nodes.iter().enumerate() {
            endless[number] = node.sources().iter().any(|&s| before[usize::from(s)]);
        }
        if endless == before {
            return endless;
        }
    }
}

/// A walk backwards: its nodes from the last one on, and the operands between them.
struct Backwards {
    nodes: Vec<u16>,
    operands: Vec<usize>,
}

impl Backwards {
    /// From the last node to one of its sources that are chosen, and so on, as long as there are
    /// such and for at most so many steps.
    fn new(
        random: &mut Random,
        nodes: &[Node],
        last: u16,
        most: usize,
        chosen: impl Fn(u16) -> bool,
    ) -> Self {
        let mut back = Backwards {
            nodes: vec![last],
            operands: Vec::new(),
        };
        let mut node = last;
        while back.operands.len() < most {
            let sources = nodes[usize::from(node)].sources();
            let operands = (0..sources.len()).filter(|&p| chosen(sources[p]));
            let operands: Vec<usize> = operands.collect();
            if operands.is_empty() {
                break;
            }
            let operand = random.pick(&operands);
            node = sources[operand];
            back.operands.push(operand);
            back.nodes.push(node);
        }
        back
    }

    /// The walk from one of the nodes to an earlier one.
    fn part(&self, last: usize, first: usize) -> Walk {
        let pin = |at: usize| Pin {
            node: self.nodes[at],
            operand: self.operands[at],
        };
        Walk {
            first: self.nodes[first],
            pins: (last..first).rev().map(pin).collect(),
        }
    }
}

/// 1 where entering the node counts.
fn entered(node: &Node) -> usize {
    usize::from(node.kind.is_clocked())
}

/// The ways through a rewritten netlist from one of the old nodes to the next, registers and
/// added nodes aside.
pub struct Ways {
    /// The old node that each new one comes from: several where a ROM was split.
    pub comes_from: Vec<Option<u16>>,
    /// The ways on from each node that comes from an old one.
    ways: Vec<Vec<Way>>,
}

/// A way to an operand of an old node.
#[derive(Clone, Copy)]
struct Way {
    /// The new number of that node.
    node: u16,
    pin: Pin,
    length: usize,
    /// Whether it leads over an added gate.
    gated: bool,
}

/// What the walks through some operands have in common.
#[derive(Debug, Default, PartialEq, Eq)]
pub struct Found {
    pub lengths: BTreeSet<usize>,
    pub gated: bool,
}

impl Ways {
    /// Of the nodes of a file that was rewritten; the harness's own rewriting tells only which of
    /// them come from which old ones.
    pub fn new(old: &Checked, retimed: &Retimed, nodes: &[Node]) -> Self {
        let mut comes_from = vec![None; nodes.len()];
        for number in 0..old.netlist.nodes.len() {
            if retimed.timing.stays[number] {
                comes_from[usize::from(retimed.numbers[number])] = Some(number as u16);
            }
        }
        // An extra ROM stands right after its first.
        for number in 1..nodes.len() {
            if nodes[number].kind == Kind::ClockedRom && comes_from[number].is_none() {
                comes_from[number] = comes_from[number - 1];
            }
        }

        let mut readers = vec![Vec::new(); nodes.len()];
        for (node, reader) in nodes.iter().enumerate() {
            for (operand, &source) in reader.sources().iter().enumerate() {
                readers[usize::from(source)].push((node as u16, operand));
            }
        }
        let mut ways = vec![Vec::new(); nodes.len()];
        for source in (0..nodes.len()).filter(|&n| comes_from[n].is_some()) {
            let mut reached = vec![(source as u16, 0, false)];
            while let Some((place, length, gated)) = reached.pop() {
                for &(node, operand) in &readers[usize::from(place)] {
                    let reader = &nodes[usize::from(node)];
                    let length = length + entered(reader);
                    assert!(length <= nodes.len(), "registers and added nodes in a ring");
                    match comes_from[usize::from(node)] {
                        Some(old) => ways[source].push(Way {
                            node,
                            pin: Pin { node: old, operand },
                            length,
                            gated,
                        }),
                        None => reached.push((node, length, gated || reader.kind.is_gate())),
                    }
                }
            }
        }
        Ways { comes_from, ways }
    }

    /// The walks of the new netlist through the operands of an old one: the closed ones where that
    /// is closed, else those from the node that comes from its first.
    pub fn along(&self, walk: &Walk, old: &[Node]) -> Found {
        let pins = walk.through(old);
        // A closed walk goes through its last operand's node, wherever it begins.
        let first = match (walk.is_closed(), pins.last()) {
            (true, Some(last)) => last.node,
            _ => walk.first,
        };
        let starts = (0..self.comes_from.len()).filter(|&n| self.comes_from[n] == Some(first));
        let mut found = Found::default();
        for start in starts {
            let start = start as u16;
            let mut reached = BTreeSet::from([(start, 0, false)]);
            for &pin in &pins {
                let ways = reached.iter().flat_map(|&(node, length, gated)| {
                    let ways = self.ways[usize::from(node)].iter();
                    let through = ways.filter(move |way| way.pin == pin);
                    through.map(move |way| (way.node, length + way.length, gated || way.gated))
                });
                reached = ways.collect();
            }
            for (end, length, gated) in reached {
                if !walk.is_closed() || end == start {
                    found.lengths.insert(length);
                    found.gated |= gated;
                }
            }
        }
        found
    }
}
