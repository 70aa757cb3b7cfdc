//! Checks 6 to 10, over the whole netlist.

use harness::design::Design;
use harness::netlist::{Kind, Node};

use super::{accepted, refused};

/// A design with one input port of each given width.
fn inputs(widths: &[u8]) -> Design {
    let mut design = Design::default();
    for &width in widths {
        design.input(width);
    }
    design
}

/// Adds a gate with an output port that reads it, so that it is not unread.
fn gate(widths: &[u8], kind: Kind, width: u8, word: u16) -> Vec<u8> {
    let mut design = inputs(widths);
    let number = design.node(Node {
        kind,
        width,
        table: 0,
        word,
        sources: std::array::from_fn(|operand| (operand % widths.len().max(1)) as u16),
    });
    design.output(number);
    design.file()
}

#[test]
fn source_that_is_no_node() {
    let mut design = inputs(&[1]);
    design.output(0);
    design.connect(1, 0, 2);
    refused(&design.file(), 6, 1);
    design.connect(1, 0, 65_535);
    refused(&design.file(), 6, 1);
}

#[test]
fn each_operand_is_looked_at() {
    for operand in 0..3 {
        let mut design = inputs(&[1]);
        let choose = design.gate(Kind::Choose, 1, &[0, 0, 0]);
        design.output(choose);
        accepted(&design.file());
        design.connect(choose, operand, 3);
        refused(&design.file(), 6, 1);
    }
}

#[test]
fn output_port_as_source() {
    let mut design = inputs(&[1]);
    let output = design.output(0);
    design.output(output);
    refused(&design.file(), 6, 2);
    design.connect(2, 0, 2);
    refused(&design.file(), 6, 2);
}

#[test]
fn source_that_is_no_table() {
    for tables in [0, 1, 16] {
        let mut design = inputs(&[1]);
        for _ in 0..tables {
            design.table(1, &[1, 0]);
        }
        let rom = design.node(Node {
            kind: Kind::ClockedRom,
            width: 1,
            table: tables,
            word: 0,
            sources: [0; 3],
        });
        design.output(rom);
        refused(&design.file(), 6, 1);
    }
}

#[test]
fn six_comes_before_seven_at_a_lower_node() {
    let mut design = inputs(&[1, 2]);
    design.gate(Kind::Not, 2, &[0]);
    design.output(2);
    refused(&design.file(), 7, 2);
    design.connect(3, 0, 9);
    refused(&design.file(), 6, 3);
}

#[test]
fn widths_of_ports_and_registers() {
    let mut design = inputs(&[3]);
    let register = design.register(0, 0);
    design.output(register);
    accepted(&design.file());
    design.nodes[2].width = 4;
    refused(&design.file(), 7, 2);
    design.nodes[1].width = 4;
    refused(&design.file(), 7, 1);
}

#[test]
fn widths_of_roms() {
    let mut design = inputs(&[2]);
    design.table(5, &[0, 1, 2, 31]);
    let rom = design.async_rom(0, 0);
    design.output(rom);
    accepted(&design.file());
    let mut other = design.clone();
    other.nodes[0].width = 3;
    refused(&other.file(), 7, 1);
    other = design.clone();
    other.nodes[1].width = 4;
    refused(&other.file(), 7, 1);
}

#[test]
fn widths_of_gates() {
    for kind in [Kind::And, Kind::Or, Kind::Xor, Kind::Add, Kind::Subtract] {
        accepted(&gate(&[3, 3], kind, 3, 0));
        refused(&gate(&[3, 4], kind, 3, 0), 7, 2);
        refused(&gate(&[4, 3], kind, 3, 0), 7, 2);
        refused(&gate(&[3, 3], kind, 4, 0), 7, 2);
    }
    accepted(&gate(&[3], Kind::Not, 3, 0));
    refused(&gate(&[3], Kind::Not, 2, 0), 7, 1);
    for kind in [Kind::Equal, Kind::Less] {
        accepted(&gate(&[7, 7], kind, 1, 0));
        refused(&gate(&[7, 6], kind, 1, 0), 7, 2);
        refused(&gate(&[7, 7], kind, 7, 0), 7, 2);
    }
    accepted(&gate(&[1, 9, 9], Kind::Choose, 9, 0));
    refused(&gate(&[2, 9, 9], Kind::Choose, 9, 0), 7, 3);
    refused(&gate(&[1, 8, 9], Kind::Choose, 9, 0), 7, 3);
    refused(&gate(&[1, 9, 8], Kind::Choose, 9, 0), 7, 3);
    accepted(&gate(&[], Kind::Constant, 16, 65_535));
}

#[test]
fn part_at_the_top_bit() {
    accepted(&gate(&[16], Kind::Part, 1, 15));
    refused(&gate(&[16], Kind::Part, 1, 16), 7, 1);
    refused(&gate(&[16], Kind::Part, 2, 15), 7, 1);
    accepted(&gate(&[16], Kind::Part, 16, 0));
    refused(&gate(&[16], Kind::Part, 16, 1), 7, 1);
}

#[test]
fn part_does_not_wrap() {
    refused(&gate(&[16], Kind::Part, 1, 255), 7, 1);
    refused(&gate(&[16], Kind::Part, 16, 240), 7, 1);
    refused(&gate(&[16], Kind::Part, 16, 255), 7, 1);
}

#[test]
fn join_of_two_widths() {
    accepted(&gate(&[9, 7], Kind::Join, 16, 0));
    refused(&gate(&[9, 7], Kind::Join, 15, 0), 7, 2);
    refused(&gate(&[9, 8], Kind::Join, 16, 0), 7, 2);
    refused(&gate(&[16, 16], Kind::Join, 16, 0), 7, 2);
}

#[test]
fn unread() {
    accepted(&inputs(&[1, 2, 3]).file());
    let mut design = inputs(&[1]);
    design.register(0, 0);
    refused(&design.file(), 8, 1);
    let mut design = inputs(&[1]);
    design.output(0);
    design.constant(1, 0);
    refused(&design.file(), 8, 2);
}

#[test]
fn unread_comes_before_a_loop_at_a_lower_node() {
    let mut design = inputs(&[1]);
    design.gate(Kind::Not, 1, &[1]);
    design.constant(1, 0);
    refused(&design.file(), 8, 2);
}

#[test]
fn gate_that_reads_itself() {
    let mut design = inputs(&[1]);
    design.gate(Kind::And, 1, &[0, 1]);
    refused(&design.file(), 9, 1);
}

#[test]
fn lowest_node_on_a_loop() {
    // 1 leads into the loop of 3 and 4, 0 and 2 hang behind it.
    let mut design = Design::default();
    design.gate(Kind::Not, 1, &[2]);
    design.constant(1, 0);
    design.gate(Kind::Not, 1, &[4]);
    design.gate(Kind::And, 1, &[1, 4]);
    design.gate(Kind::Not, 1, &[3]);
    design.output(0);
    refused(&design.file(), 9, 3);
}

#[test]
fn lowest_of_two_loops() {
    // The search from 0 meets the loop of 3 and 4 before that of 1 and 2.
    let mut design = Design::default();
    design.gate(Kind::And, 1, &[3, 1]);
    design.gate(Kind::Not, 1, &[2]);
    design.gate(Kind::Not, 1, &[1]);
    design.gate(Kind::And, 1, &[4, 2]);
    design.gate(Kind::Not, 1, &[3]);
    design.output(0);
    refused(&design.file(), 9, 1);
}

#[test]
fn loop_through_roms() {
    let mut design = Design::default();
    design.table(1, &[1, 0]);
    design.async_rom(1, 0);
    design.gate(Kind::Not, 1, &[0]);
    refused(&design.file(), 9, 0);
    // A clocked ROM breaks the loop.
    design.nodes[0].kind = Kind::ClockedRom;
    accepted(&design.file());
}

#[test]
fn register_that_reads_itself() {
    let mut design = inputs(&[1]);
    design.loose_register(1, 0);
    design.connect(1, 0, 1);
    refused(&design.file(), 10, 1);
}

#[test]
fn lowest_register_on_a_ring() {
    // 0 hangs behind the ring of 2 and 3.
    let mut design = Design::default();
    for source in [3, 0, 3, 2] {
        let register = design.loose_register(1, 0);
        design.connect(register, 0, source);
    }
    design.output(1);
    refused(&design.file(), 10, 2);
}

#[test]
fn loop_comes_before_ring() {
    let mut design = Design::default();
    let register = design.loose_register(1, 0);
    design.connect(register, 0, register);
    design.gate(Kind::Not, 1, &[1]);
    refused(&design.file(), 9, 1);
}
