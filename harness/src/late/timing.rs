//! When nodes run in the late start: by the walks to an output port alone. Checks 11 and 12.

use crate::checks::Checked;
use crate::leads::{port_debt, settle, Chain, Timing};
use crate::netlist::Kind;
use crate::refusal::Refusal;

/// Stands for the lead of a node from which no walk to an output port is known.
const NONE: i32 = i32::MIN;

/// A lead may be below 0 here. Nodes that reach no output port are left out, input ports stay.
pub fn timing(checked: &Checked, chains: &[Chain]) -> Result<Timing, Refusal> {
    let nodes = &checked.netlist.nodes;
    let ends = nodes.iter().map(|node| match node.kind {
        Kind::Output => 0,
        _ => NONE,
    });
    let mut leads = settle(checked, chains, ends.collect(), |lead| lead != NONE)?;
    port_debt(nodes, &leads)?;
    let mut stays = Vec::with_capacity(nodes.len());
    for (node, lead) in nodes.iter().zip(&mut leads) {
        let is_input = node.kind == Kind::Input;
        stays.push(is_input || *lead != NONE);
        // A port runs on time, however many registers its words still have to pass.
        if is_input || *lead == NONE {
            *lead = 0;
        }
    }
    Ok(Timing { leads, stays })
}
