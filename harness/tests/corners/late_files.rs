//! Late-started files, node by node.

use harness::design::Design;
use harness::format;
use harness::netlist::{Kind, Node};
use harness::Refusal;

use super::{late, rewrite_is, run_alike};

/// A table of the two-bit words 3, 1, 2, 2.
pub fn design() -> Design {
    let mut design = Design::default();
    design.table(2, &[3, 1, 2, 2]);
    design
}

/// A sensor port, an asynchronous ROM, a gate, registers with these reset words, an output port.
pub fn sensor(resets: &[u16]) -> Design {
    let mut design = design();
    let port = design.input(2);
    let rom = design.async_rom(port, 0);
    let not = design.gate(Kind::Not, 2, &[rom]);
    let last = row(&mut design, not, resets);
    design.output(last);
    design
}

/// Adds registers in a row with these reset words; gives the last.
fn row(design: &mut Design, mut source: u16, resets: &[u16]) -> u16 {
    for &reset in resets {
        source = design.register(source, reset);
    }
    source
}

/// Lets a gate and a register that read each other read the node. They reach no output port.
pub fn island(design: &mut Design, node: u16) {
    let width = design.width(node);
    let register = design.loose_register(width, 0);
    let gate = design.gate(Kind::Xor, width, &[node, register]);
    design.connect(register, 0, gate);
}

fn node(kind: Kind, width: u8, word: u16, sources: &[u16]) -> Node {
    let mut three = [0; 3];
    three[..sources.len()].copy_from_slice(sources);
    Node {
        kind,
        width,
        table: 0,
        word,
        sources: three,
    }
}

fn input() -> Node {
    node(Kind::Input, 2, 0, &[])
}

fn output(source: u16) -> Node {
    node(Kind::Output, 2, 0, &[source])
}

fn register(source: u16, reset: u16) -> Node {
    node(Kind::Register, 2, reset, &[source])
}

fn rom(source: u16, reset: u16) -> Node {
    node(Kind::ClockedRom, 2, reset, &[source])
}

fn not(source: u16) -> Node {
    node(Kind::Not, 2, 0, &[source])
}

fn constant(word: u16) -> Node {
    node(Kind::Constant, 2, word, &[])
}

/// The steering register, what is taken at 1, what is taken at 0.
fn choose(steering: u16, next: u16, constant: u16) -> Node {
    node(Kind::Choose, 2, 0, &[steering, next, constant])
}

/// The constant that fills the chain.
fn one() -> Node {
    node(Kind::Constant, 1, 1, &[])
}

fn steering(source: u16) -> Node {
    node(Kind::Register, 1, 0, &[source])
}

fn late_nodes_are(design: &Design, expected: &[Node]) {
    let file = design.file();
    let new = late(&file).expect("accepted");
    let new = format::read(&new).expect("well formed");
    assert_eq!(new.nodes, expected);
    assert_eq!(new.tables, design.netlist().tables);
    assert!(run_alike(&file) > 0);
}

#[test]
fn sensor_rom_gate_register() {
    let design = sensor(&[2]);
    let file = design.file();
    rewrite_is(&file, Err(Refusal::new(12, 0)));
    let new = [
        0x01, 0x00, 0x01, 0x01, 0x02, 0x00, 0x0A, 0x02, 0x02, 0x00, 0x03, 0x00, 0x01, 0x00, 0x02,
        0x00, 0x02, 0x03, 0x00, 0x02, 0x00, 0x02, 0x03, 0x00, 0x07, 0x04, 0x02, 0x00, 0x00, 0x00,
        0x00, 0x00, 0x03, 0x00, 0x05, 0x05, 0x02, 0x01, 0x00, 0x01, 0x03, 0x00, 0x04, 0x01, 0x02,
        0x00, 0x07, 0x03, 0x00, 0x05, 0x05, 0x01, 0x00, 0x00, 0x01, 0x03, 0x00, 0x06, 0x02, 0x01,
        0x00, 0x04, 0x00, 0x00, 0x03, 0x00, 0x05, 0x05, 0x02, 0x00, 0x00, 0x02, 0x03, 0x00, 0x09,
        0x05, 0x02, 0x09, 0x00, 0x05, 0x00, 0x02, 0x00, 0x06, 0x04, 0x00, 0x00,
    ];
    assert_eq!(late(&file), Ok(new.to_vec()));
    late_nodes_are(
        &design,
        &[
            input(),
            rom(0, 0),
            not(1),
            output(7),
            one(),
            steering(4),
            constant(2),
            choose(5, 2, 6),
        ],
    );
}

#[test]
fn a_gate_for_each_register() {
    // The gate runs two clocks late, so the ROM does by one: its wire has a register, whose word is
    // of a clock before the first.
    late_nodes_are(
        &sensor(&[2, 1]),
        &[
            input(),
            rom(4, 0),
            not(1),
            output(9),
            register(0, 0),
            one(),
            steering(5),
            steering(6),
            constant(1),
            choose(6, 11, 8),
            constant(2),
            choose(7, 2, 10),
        ],
    );
}

#[test]
fn gates_before_registers_that_stay() {
    // The first port sets the gate's lead, so the second wire keeps a register; its word is shown
    // by a gate all the same.
    let mut design = sensor(&[2]);
    let further = design.register(3, 1);
    design.output(further);
    late_nodes_are(
        &design,
        &[
            input(),
            rom(0, 0),
            not(1),
            output(10),
            output(12),
            register(2, 1),
            one(),
            steering(6),
            steering(7),
            // The first wire's gate, and the two of the second.
            constant(2),
            choose(7, 2, 9),
            constant(1),
            choose(7, 14, 11),
            constant(2),
            choose(8, 5, 13),
        ],
    );
}

#[test]
fn a_constant_runs_late_too() {
    let mut design = Design::default();
    let constant_two = design.constant(2, 2);
    let register = design.register(constant_two, 1);
    design.output(register);
    late_nodes_are(
        &design,
        &[
            constant(2),
            output(5),
            one(),
            steering(2),
            constant(1),
            choose(3, 0, 4),
        ],
    );
}

#[test]
fn an_input_port_never_runs_late() {
    let mut design = Design::default();
    let port = design.input(2);
    let last = row(&mut design, port, &[1, 2]);
    design.output(last);
    late_nodes_are(
        &design,
        &[input(), output(3), register(0, 1), register(2, 2)],
    );
}

#[test]
fn gates_before_an_early_reader() {
    // The ROM runs a clock early, past the word of the register next to it.
    let mut design = design();
    let constant_two = design.constant(2, 2);
    let last = row(&mut design, constant_two, &[3, 1]);
    let rom_one = design.async_rom(last, 0);
    design.output(rom_one);
    late_nodes_are(
        &design,
        &[
            constant(2),
            rom(6, 1),
            output(1),
            one(),
            steering(3),
            constant(3),
            choose(4, 0, 5),
        ],
    );
}

#[test]
fn a_clocked_rom_is_split() {
    // It runs a clock late, and takes over the words of the registers. Its own reset word is
    // among those that gates show.
    let mut design = design();
    let port = design.input(2);
    let clocked = design.clocked_rom(port, 0, 3);
    for reset in [1, 2] {
        let register = design.register(clocked, reset);
        design.output(register);
    }
    late_nodes_are(
        &design,
        &[
            input(),
            rom(5, 1),
            rom(6, 2),
            output(11),
            output(15),
            register(0, 0),
            register(0, 0),
            one(),
            steering(7),
            steering(8),
            constant(1),
            choose(8, 13, 10),
            constant(3),
            choose(9, 1, 12),
            constant(2),
            choose(8, 17, 14),
            constant(3),
            choose(9, 2, 16),
        ],
    );
}

#[test]
fn an_extra_rom_has_gates_of_its_own() {
    let mut design = design();
    let constant_one = design.constant(2, 1);
    let before = design.register(constant_one, 2);
    let both = design.async_rom(before, 0);
    for reset in [1, 2] {
        let register = design.register(both, reset);
        design.output(register);
    }
    late_nodes_are(
        &design,
        &[
            constant(1),
            rom(8, 1),
            rom(10, 2),
            output(1),
            output(2),
            one(),
            steering(5),
            constant(2),
            choose(6, 0, 7),
            constant(2),
            choose(6, 0, 9),
        ],
    );
}

/// A sensor's ROM that is also read over a register.
fn sensor_read_twice(reset: u16) -> Design {
    let mut design = sensor(&[2]);
    let register = design.register(1, reset);
    design.output(register);
    design
}

#[test]
fn a_word_before_the_first_clock_is_0() {
    // The gate reads the ROM at such a clock, which splits it,
    late_nodes_are(
        &sensor_read_twice(1),
        &[
            input(),
            rom(0, 0),
            rom(0, 1),
            not(1),
            output(9),
            output(2),
            one(),
            steering(6),
            constant(2),
            choose(7, 3, 8),
        ],
    );
    // unless the register has the same word.
    late_nodes_are(
        &sensor_read_twice(0),
        &[
            input(),
            rom(0, 0),
            not(1),
            output(8),
            output(1),
            one(),
            steering(5),
            constant(2),
            choose(6, 2, 7),
        ],
    );
}

#[test]
fn a_reader_left_out_splits_no_rom() {
    let mut design = design();
    let port = design.input(2);
    let read_twice = design.async_rom(port, 0);
    let aside = design.register(read_twice, 1);
    island(&mut design, aside);
    let register = design.register(read_twice, 2);
    design.output(register);
    late_nodes_are(&design, &[input(), rom(0, 2), output(1)]);
}
