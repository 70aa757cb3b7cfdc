//! Leads: how many clocks early each node runs once every ROM has a register of its own.
//! Checks 11 and 12.
//!
//! In the terms of Leiserson and Saxe a lead is minus the retiming's lag, and a wire is an edge
//! weighted with its registers.

use std::collections::VecDeque;

use crate::checks::Checked;
use crate::netlist::{Kind, Node};
use crate::refusal::{refuse, Refusal, CLOSED_DEBT, NOWHERE, PORT_DEBT};

/// What lies behind a node that is read: a row of registers, and what feeds them. An operand's
/// wire is the chain of the node it reads.
#[derive(Clone, Copy)]
pub struct Chain {
    /// The node before all the registers, itself no register.
    pub origin: u16,
    /// The register that reads the origin; the origin itself where there is none.
    pub nearest: u16,
    /// How many registers there are, a clocked ROM's own not among them.
    pub registers: u16,
}

/// The chain behind each node.
pub fn chains(checked: &Checked) -> Vec<Chain> {
    let nodes = &checked.netlist.nodes;
    let mut chains: Vec<Chain> = (0..nodes.len() as u16)
        .map(|number| Chain {
            origin: number,
            nearest: number,
            registers: 0,
        })
        .collect();
    for &register in &checked.registers {
        let source = nodes[usize::from(register)].sources[0];
        let mut chain = chains[usize::from(source)];
        if chain.registers == 0 {
            chain.nearest = register;
        }
        chain.registers += 1;
        chains[usize::from(register)] = chain;
    }
    chains
}

/// The node that stands so many registers before another.
pub fn before(nodes: &[Node], mut number: u16, registers: i32) -> u16 {
    for _ in 0..registers {
        number = nodes[usize::from(number)].sources[0];
    }
    number
}

/// How many registers a node takes from each wire that leaves it: an asynchronous ROM one, which
/// becomes its own.
pub fn taken(kind: Kind) -> i32 {
    i32::from(kind == Kind::AsyncRom)
}

/// What of a netlist goes into the new one, and when it runs there.
pub struct Timing {
    /// How many clocks early each node runs; 0 for those that do not stay.
    pub leads: Vec<i32>,
    /// Which nodes stay. No register does: the new netlist has registers of its own.
    pub stays: Vec<bool>,
}

/// The plain mode's timing: all walks count, and all nodes stay. Checks 11 and 12.
pub fn timing(checked: &Checked, chains: &[Chain]) -> Result<Timing, Refusal> {
    let nodes = &checked.netlist.nodes;
    let leads = settle(checked, chains, vec![0; nodes.len()], |_| true)?;
    port_debt(nodes, &leads)?;
    let mut stays = vec![true; nodes.len()];
    for &register in &checked.registers {
        stays[usize::from(register)] = false;
    }
    Ok(Timing { leads, stays })
}

/// Raises the leads, at first those of empty walks, to those of all walks that end where these
/// stand. Only a reader whose lead is one `asks` its sources to run early. Check 11.
pub fn settle(
    checked: &Checked,
    chains: &[Chain],
    mut leads: Vec<i32>,
    asks: impl Fn(i32) -> bool,
) -> Result<Vec<i32>, Refusal> {
    let nodes = &checked.netlist.nodes;
    let taken = |number: u16| taken(nodes[usize::from(number)].kind);
    let most: i32 = checked.order.iter().map(|&n| taken(n)).sum();

    // Bellman and Ford's relaxation with a queue. Readers come first, so that what lies between
    // two clocked nodes settles in one go.
    let mut queue: VecDeque<u16> = VecDeque::with_capacity(nodes.len());
    let ends = |n: &u16| matches!(nodes[usize::from(*n)].kind, Kind::Output | Kind::ClockedRom);
    queue.extend((0..nodes.len() as u16).filter(ends));
    queue.extend(checked.order.iter().rev());
    let mut queued = vec![true; nodes.len()];
    while let Some(reader) = queue.pop_front() {
        queued[usize::from(reader)] = false;
        if !asks(leads[usize::from(reader)]) {
            continue;
        }
        for &source in nodes[usize::from(reader)].sources() {
            let chain = chains[usize::from(source)];
            let origin = usize::from(chain.origin);
            let lead =
                leads[usize::from(reader)] + taken(chain.origin) - i32::from(chain.registers);
            if lead > leads[origin] {
                // A walk that repeats no node leaves no ROM twice: only a closed walk that
                // gains at each turn gets past this.
                if lead > most {
                    return refuse(CLOSED_DEBT, NOWHERE);
                }
                leads[origin] = lead;
                if !queued[origin] {
                    queued[origin] = true;
                    queue.push_back(chain.origin);
                }
            }
        }
    }
    Ok(leads)
}

/// Check 12.
pub fn port_debt(nodes: &[Node], leads: &[i32]) -> Result<(), Refusal> {
    let mut ports = nodes.iter().zip(leads);
    match ports.position(|(node, &lead)| node.kind == Kind::Input && lead > 0) {
        Some(port) => refuse(PORT_DEBT, port),
        None => Ok(()),
    }
}
