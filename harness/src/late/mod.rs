//! The late start: a rewriting in which nodes may run late. A ROM can then stand straight behind
//! an input port, as long as there are registers enough on the way on to an output port.

mod gates;
mod timing;

pub use timing::timing;

use crate::checks::{checked, Checked};
use crate::copies::Copies;
use crate::leads::{before, chains, taken, Chain, Timing};
use crate::netlist::{leave_out_unread, Netlist, Node, MAX_NODES};
use crate::plan::Plan;
use crate::refusal::{refuse, Answer, Refusal, GROWN, NOWHERE};
use crate::rewrite::{written, Retimed};
use gates::Gates;

/// Writes the late-started file. Checks 1 to 14.
pub fn rewrite_late(file: &[u8], out: &mut [u8]) -> Answer {
    written(&retimed(&checked(file)?)?.netlist, out)
}

/// The leads, and the netlist rewritten by them. Checks 11 to 13 of this mode.
pub fn retimed<'a>(checked: &Checked<'a>) -> Result<Retimed<'a>, Refusal> {
    let chains = chains(checked);
    let timing = timing(checked, &chains)?;
    let nodes = &checked.netlist.nodes;
    let word = |source: u16| word_taken_over(nodes, &chains, &timing, source);
    let copies = Copies::new(nodes, &chains, &timing, word);
    let plan = Plan::new(checked, &chains, &timing, &copies);
    let gates = Gates::new(&plan);
    if plan.size() + gates.size() > MAX_NODES {
        return refuse(GROWN, NOWHERE);
    }
    let mut new = plan.build();
    gates.add(&mut new);
    let mut tables = checked.netlist.tables.clone();
    leave_out_unread(&mut tables, &mut new);
    let netlist = Netlist { tables, nodes: new };
    Ok(Retimed {
        numbers: plan.numbers,
        timing,
        netlist,
    })
}

/// The word that a ROM takes over from the wire that ends in a source. The later the ROM runs, the
/// further from it stands the register that gives the word; where none stands so far, it is the
/// word of a clock before the first, 0.
fn word_taken_over(nodes: &[Node], chains: &[Chain], timing: &Timing, source: u16) -> u16 {
    let chain = chains[usize::from(source)];
    let rom = usize::from(chain.origin);
    let from_rom = taken(nodes[rom].kind) - timing.leads[rom];
    let from_source = i32::from(chain.registers) - from_rom;
    match from_source < 0 {
        true => 0,
        false => nodes[usize::from(before(nodes, source, from_source))].word,
    }
}
