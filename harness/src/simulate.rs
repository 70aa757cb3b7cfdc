//! The reset state and one clock of a netlist, on byte slices: a word is two bytes, the high
//! byte first.

use crate::checks::{checked, Checked};
use crate::netlist::{fits, mask, Kind, Netlist, Node};
use crate::refusal::{refuse, Answer, NOWHERE, STATE, WORDS};

/// Fills the state with the reset words. Checks 1 to 10, then 16 for the state's length.
pub fn reset(file: &[u8], state: &mut [u8]) -> Answer {
    reset_checked(&checked(file)?, state)
}

/// Runs one clock. Checks 1 to 10, then 15 and 16.
pub fn run(file: &[u8], state: &mut [u8], inputs: &[u8], outputs: &mut [u8]) -> Answer {
    run_checked(&checked(file)?, state, inputs, outputs)
}

/// [`reset`] on a file that was checked before.
pub fn reset_checked(checked: &Checked, state: &mut [u8]) -> Answer {
    let nodes = &checked.netlist.nodes;
    if state.len() != state_len(checked) {
        return refuse(STATE, NOWHERE);
    }
    let clocked = nodes.iter().filter(|n| n.kind.is_clocked());
    store(state, clocked.map(|n| n.word));
    Ok(state.len())
}

/// [`run`] on a file that was checked before.
pub fn run_checked(
    checked: &Checked,
    state: &mut [u8],
    inputs: &[u8],
    outputs: &mut [u8],
) -> Answer {
    let netlist = &checked.netlist;
    let nodes = &netlist.nodes;
    let mut values = vec![0; nodes.len()];
    let is_input = |kind| kind == Kind::Input;
    if !load(nodes, is_input, inputs, &mut values) || outputs.len() != outputs_len(checked) {
        return refuse(WORDS, NOWHERE);
    }
    if !load(nodes, Kind::is_clocked, state, &mut values) {
        return refuse(STATE, NOWHERE);
    }

    for &number in &checked.order {
        let node = &nodes[usize::from(number)];
        let value = evaluate(netlist, node, |source| values[usize::from(source)]);
        values[usize::from(number)] = value;
    }

    let received = |node: &Node| evaluate(netlist, node, |source| values[usize::from(source)]);
    let ports = nodes.iter().filter(|n| n.kind == Kind::Output);
    store(outputs, ports.map(received));
    let clocked = nodes.iter().filter(|n| n.kind.is_clocked());
    store(state, clocked.map(received));
    Ok(outputs.len())
}

/// Whether there is one word for each input port and all fit.
pub fn inputs_fit(checked: &Checked, inputs: &[u8]) -> bool {
    fit(&checked.netlist.nodes, |kind| kind == Kind::Input, inputs)
}

/// Whether there is one word for each register and clocked ROM and all fit.
pub fn state_fits(checked: &Checked, state: &[u8]) -> bool {
    fit(&checked.netlist.nodes, Kind::is_clocked, state)
}

pub fn state_len(checked: &Checked) -> usize {
    bytes(&checked.netlist.nodes, Kind::is_clocked)
}

pub fn inputs_len(checked: &Checked) -> usize {
    bytes(&checked.netlist.nodes, |kind| kind == Kind::Input)
}

pub fn outputs_len(checked: &Checked) -> usize {
    bytes(&checked.netlist.nodes, |kind| kind == Kind::Output)
}

fn bytes(nodes: &[Node], chosen: impl Fn(Kind) -> bool) -> usize {
    2 * nodes.iter().filter(|n| chosen(n.kind)).count()
}

/// The word of a gate or a ROM, from the words of its sources; for a register or an output port
/// the word it receives. Sources' words fit their widths, and so does the result.
pub fn evaluate(netlist: &Netlist, node: &Node, value: impl Fn(u16) -> u16) -> u16 {
    let operand = |operand: usize| value(node.sources[operand]);
    let within = |word: u16| word & mask(node.width);
    match node.kind {
        Kind::Input => 0,
        Kind::Output | Kind::Register => operand(0),
        Kind::AsyncRom | Kind::ClockedRom => {
            netlist.tables[usize::from(node.table)].word(operand(0))
        }
        Kind::Constant => node.word,
        Kind::Not => within(!operand(0)),
        Kind::And => operand(0) & operand(1),
        Kind::Or => operand(0) | operand(1),
        Kind::Xor => operand(0) ^ operand(1),
        Kind::Add => within(operand(0).wrapping_add(operand(1))),
        Kind::Subtract => within(operand(0).wrapping_sub(operand(1))),
        Kind::Equal => u16::from(operand(0) == operand(1)),
        Kind::Less => u16::from(operand(0) < operand(1)),
        Kind::Choose if operand(0) == 1 => operand(1),
        Kind::Choose => operand(2),
        Kind::Part => within(operand(0) >> node.word),
        Kind::Join => {
            let low = &netlist.nodes[usize::from(node.sources[1])];
            operand(0) << low.width | operand(1)
        }
    }
}

/// Sets the chosen nodes to the words, in node order; false unless there is one word for each
/// of them and all fit.
fn load(nodes: &[Node], chosen: impl Fn(Kind) -> bool, words: &[u8], values: &mut [u16]) -> bool {
    let mut rest = words;
    for (node, value) in nodes.iter().zip(values) {
        if chosen(node.kind) {
            let [high, low, behind @ ..] = rest else {
                return false;
            };
            *value = u16::from_be_bytes([*high, *low]);
            if !fits(*value, node.width) {
                return false;
            }
            rest = behind;
        }
    }
    rest.is_empty()
}

fn fit(nodes: &[Node], chosen: impl Fn(Kind) -> bool, words: &[u8]) -> bool {
    load(nodes, chosen, words, &mut vec![0; nodes.len()])
}

fn store(bytes: &mut [u8], words: impl Iterator<Item = u16>) {
    for (bytes, word) in bytes.chunks_exact_mut(2).zip(words) {
        bytes.copy_from_slice(&word.to_be_bytes());
    }
}
