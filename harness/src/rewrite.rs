//! The rewriter: the netlist whose ROMs are all clocked, with checks 13 and 14.

use crate::checks::{checked, Checked};
use crate::copies::Copies;
use crate::format;
use crate::leads::{chains, timing, Timing};
use crate::netlist::{Netlist, MAX_NODES};
use crate::plan::Plan;
use crate::refusal::{refuse, Answer, Refusal, GROWN, NOWHERE, OUT};

/// Writes the rewritten file. Checks 1 to 14.
pub fn rewrite(file: &[u8], out: &mut [u8]) -> Answer {
    written(&retimed(&checked(file)?)?.netlist, out)
}

/// What becomes of a netlist.
pub struct Retimed<'a> {
    pub timing: Timing,
    /// The new number of each of its nodes that stays, of the first where it becomes several.
    pub numbers: Vec<u16>,
    /// The rewritten netlist.
    pub netlist: Netlist<'a>,
}

/// The leads, and the netlist rewritten by them. Checks 11 to 13.
pub fn retimed<'a>(checked: &Checked<'a>) -> Result<Retimed<'a>, Refusal> {
    let chains = chains(checked);
    let timing = timing(checked, &chains)?;
    let nodes = &checked.netlist.nodes;
    // Only a ROM of lead 0 takes words over, and its registers stay where they are.
    let nearest = |source: u16| nodes[usize::from(chains[usize::from(source)].nearest)].word;
    let copies = Copies::new(nodes, &chains, &timing, nearest);
    let plan = Plan::new(checked, &chains, &timing, &copies);
    if plan.size() > MAX_NODES {
        return refuse(GROWN, NOWHERE);
    }
    let netlist = Netlist {
        tables: checked.netlist.tables.clone(),
        nodes: plan.build(),
    };
    Ok(Retimed {
        numbers: plan.numbers,
        timing,
        netlist,
    })
}

/// Writes a new netlist's file. Check 14.
pub fn written(netlist: &Netlist, out: &mut [u8]) -> Answer {
    let length = format::file_len(netlist);
    let Some(lent) = out.get_mut(..length) else {
        return refuse(OUT, NOWHERE);
    };
    format::write_to(netlist, lent);
    Ok(length)
}
