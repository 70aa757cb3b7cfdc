//! The preview: how large the rewritten file would be, and where its registers are. Checks 1 to
//! 13, and 14 where the lent list is too short.

use crate::checks::checked;
use crate::format;
use crate::netlist::{Kind, Netlist, MAX_NODES};
use crate::refusal::{refuse, Refusal, NOWHERE, OUT};
use crate::rewrite::{retimed, Retimed};

/// The length of a list that is long enough for every file.
pub const MAX_LIST: usize = 2 * MAX_NODES;

/// The size of a rewritten file.
#[derive(Debug, Clone, Copy, PartialEq, Eq)]
pub struct Size {
    pub clocked_roms: usize,
    /// The nodes that are registers; a ROM's own is none.
    pub registers: usize,
    /// In bytes.
    pub length: usize,
    /// Of the old netlist's nodes that are no registers; 0 where there are none.
    pub largest_lead: usize,
    /// The nodes that are no registers, each of which has its number in the list.
    pub sources: usize,
}

/// Tells the size, and writes the registers by source, two bytes a number.
pub fn preview(file: &[u8], by_source: &mut [u8]) -> Result<Size, Refusal> {
    let Retimed {
        timing, netlist, ..
    } = retimed(&checked(file)?)?;
    let numbers = registers_by_source(&netlist);
    let Some(lent) = by_source.get_mut(..2 * numbers.len()) else {
        return refuse(OUT, NOWHERE);
    };
    for (bytes, number) in lent.chunks_exact_mut(2).zip(&numbers) {
        bytes.copy_from_slice(&number.to_be_bytes());
    }
    // The 0 that stands for a register is no larger than any lead.
    let largest_lead = timing.leads.into_iter().max().unwrap_or(0);
    Ok(Size {
        clocked_roms: netlist.count(Kind::ClockedRom),
        registers: netlist.count(Kind::Register),
        length: format::file_len(&netlist),
        largest_lead: largest_lead as usize,
        sources: numbers.len(),
    })
}

/// For each node of a rewritten netlist that is no register, in node order, the registers on the
/// wires that come from it. Each wire is followed back from its reader; no two share a register.
pub fn registers_by_source(netlist: &Netlist) -> Vec<u16> {
    let nodes = &netlist.nodes;
    let is_register = |number: usize| nodes[number].kind == Kind::Register;
    let mut registers = vec![0; nodes.len()];
    for reader in nodes.iter().filter(|n| n.kind != Kind::Register) {
        for &operand in reader.sources() {
            let mut source = usize::from(operand);
            let mut passed = 0;
            while is_register(source) {
                passed += 1;
                source = usize::from(nodes[source].sources[0]);
            }
            registers[source] += passed;
        }
    }
    let sources = (0..nodes.len()).filter(|&number| !is_register(number));
    sources.map(|source| registers[source]).collect()
}
