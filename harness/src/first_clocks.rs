//! The words of the old netlist at its first clocks, as far as the leads reach. They do not
//! depend on any input: an input port's lead is 0.

use std::cmp::Reverse;

use crate::checks::Checked;
use crate::netlist::Kind;
use crate::simulate::evaluate;

pub struct FirstClocks {
    /// Where each node's words begin.
    start: Vec<u32>,
    words: Vec<u16>,
}

impl FirstClocks {
    /// Runs the netlist for as many clocks as the largest lead, at each clock only the nodes
    /// whose words are still wanted.
    pub fn new(checked: &Checked, leads: &[i32]) -> Self {
        let netlist = &checked.netlist;
        let wanted = wanted(checked, leads);
        let most = wanted.iter().copied().max().unwrap_or(0);
        let mut total = 0;
        let start: Vec<u32> = wanted
            .iter()
            .map(|&clocks| {
                total += u32::from(clocks);
                total - u32::from(clocks)
            })
            .collect();
        let mut words = vec![0; total as usize];
        let at = |number: u16, clock: u16| start[usize::from(number)] as usize + usize::from(clock);

        // Those wanted longest come first, so that each clock takes a shorter start of the list.
        // A gate's sources are wanted as long as the gate at least, so they still precede it.
        let longest_first = |mut numbers: Vec<u16>| {
            numbers.retain(|&n| wanted[usize::from(n)] > 0);
            numbers.sort_by_key(|&n| Reverse(wanted[usize::from(n)]));
            numbers
        };
        let wanted_past = |numbers: &[u16], clock: u16| {
            numbers.partition_point(|&n| wanted[usize::from(n)] > clock)
        };
        let combinational = longest_first(checked.order.clone());
        let clocked = longest_first(netlist.numbers(Kind::is_clocked));
        for &number in &clocked {
            words[at(number, 0)] = netlist.nodes[usize::from(number)].word;
        }
        for clock in 0..most {
            for &number in &combinational[..wanted_past(&combinational, clock)] {
                let node = &netlist.nodes[usize::from(number)];
                words[at(number, clock)] = evaluate(netlist, node, |s| words[at(s, clock)]);
            }
            for &number in &clocked[..wanted_past(&clocked, clock + 1)] {
                let node = &netlist.nodes[usize::from(number)];
                words[at(number, clock + 1)] = evaluate(netlist, node, |s| words[at(s, clock)]);
            }
        }
        FirstClocks { start, words }
    }

    /// A gate's or asynchronous ROM's word at a clock below its lead, or a clocked ROM's at a
    /// clock up to its lead. Clocks are counted from 0.
    pub fn word(&self, number: u16, clock: i32) -> u16 {
        self.words[self.start[usize::from(number)] as usize + clock as usize]
    }
}

/// At how many clocks each node's word is wanted: below the lead for a reset word further on,
/// and for a clocked ROM at its lead, for its own.
fn wanted(checked: &Checked, leads: &[i32]) -> Vec<u16> {
    let nodes = &checked.netlist.nodes;
    // A node that runs late is wanted at no clock.
    let early = |lead: i32| lead.max(0) as u16;
    let mut wanted: Vec<u16> = leads.iter().copied().map(early).collect();
    for (number, node) in nodes.iter().enumerate() {
        if node.kind == Kind::ClockedRom {
            wanted[number] += 1;
        }
        for &source in node.sources() {
            if nodes[usize::from(source)].kind == Kind::Register {
                let clocks = &mut wanted[usize::from(source)];
                *clocks = early(leads[number]).max(*clocks);
            }
        }
    }
    for &register in checked.registers.iter().rev() {
        let source = nodes[usize::from(register)].sources[0];
        if nodes[usize::from(source)].kind == Kind::Register {
            let clocks = wanted[usize::from(register)].saturating_sub(1);
            wanted[usize::from(source)] = wanted[usize::from(source)].max(clocks);
        }
    }
    wanted
}
