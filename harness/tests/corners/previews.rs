//! The preview: what counts as what, refusals 1 to 13, and 14 for a list that is too short.

use harness::design::Design;
use harness::netlist::{Kind, MAX_NODES};
use harness::previewed::{previewed, Previewed};
use harness::{workloads, Refusal};

use super::{preview_is, PREVIEWS};

const SHORT_LIST: Refusal = Refusal {
    number: 14,
    place: 65_535,
};

/// A table of one-bit words with one-bit addresses.
fn design() -> Design {
    let mut design = Design::default();
    design.table(1, &[1, 0]);
    design
}

/// The bytes of head, end and that table.
const AROUND: usize = 7 + 9;

/// A shift register with an output port at each register.
fn shift_register(taps: usize) -> Design {
    let mut design = Design::default();
    let mut last = design.input(1);
    for _ in 0..taps {
        last = design.register(last, 0);
        design.output(last);
    }
    design
}

/// Adds registers in a row; gives the last.
fn row(design: &mut Design, mut source: u16, registers: usize) -> u16 {
    for _ in 0..registers {
        source = design.register(source, 0);
    }
    source
}

/// Clocked ROMs, registers, length, largest lead; registers by source.
fn size_is(design: &Design, numbers: [usize; 4], by_source: &[u16]) {
    let previewed = Previewed::new(numbers, by_source.to_vec());
    preview_is(&design.file(), Ok(previewed));
}

fn by_source_is(design: &Design, by_source: &[u16]) {
    for (name, preview) in PREVIEWS {
        let previewed = previewed(*preview, &design.file()).expect(name);
        assert_eq!(previewed.by_source, by_source, "{name}");
    }
}

/// How many sources the preview tells of, and the list that it was lent afterwards.
fn list_is(design: &Design, lent: &[u8], sources: Result<usize, Refusal>, after: &[u8]) {
    for (name, preview) in PREVIEWS {
        let mut list = lent.to_vec();
        let size = preview(&design.file(), &mut list);
        assert_eq!(size.map(|size| size.sources), sources, "{name}");
        assert_eq!(list, after, "{name}");
    }
}

#[test]
fn no_nodes() {
    size_is(&Design::default(), [0, 0, 7, 0], &[]);
}

#[test]
fn clocked_roms_as_they_came_and_their_own_registers() {
    // None of these has a lead. The second ROM takes the place of its register.
    let mut design = design();
    let port = design.input(1);
    let clocked = design.clocked_rom(port, 0, 1);
    design.output(clocked);
    let rom = design.async_rom(port, 0);
    let register = design.register(rom, 1);
    design.output(register);
    size_is(&design, [2, 0, AROUND + 5 + 2 * 10 + 2 * 7, 0], &[0; 5]);
}

#[test]
fn split_roms_count_each() {
    // The two new ROMs have a register each between them and the port.
    let mut design = design();
    let port = design.input(1);
    let before = design.register(port, 0);
    let rom = design.async_rom(before, 0);
    for reset in [0, 1, 0] {
        let register = design.register(rom, reset);
        design.output(register);
    }
    let length = AROUND + 5 + 2 * 10 + 3 * 7 + 2 * 9;
    size_is(&design, [2, 2, length, 0], &[2, 0, 0, 0, 0, 0]);
}

#[test]
fn shared_registers_count_each() {
    let mut design = Design::default();
    let port = design.input(1);
    let register = design.register(port, 0);
    design.output(register);
    design.output(register);
    size_is(&design, [0, 2, 7 + 5 + 2 * 7 + 2 * 9, 0], &[2, 0, 0]);
}

#[test]
fn largest_lead_of_several() {
    // The constant and the first ROM run three clocks early, the last ROM one.
    let mut design = design();
    let mut last = design.constant(1, 0);
    for _ in 0..3 {
        last = design.async_rom(last, 0);
    }
    design.output(last);
    size_is(&design, [3, 0, AROUND + 8 + 3 * 10 + 7, 3], &[0; 5]);
}

#[test]
fn registers_lower_the_lead() {
    // Both ROMs run one clock early: the register between them pays for the second.
    let mut design = design();
    let constant = design.constant(1, 0);
    let first = design.async_rom(constant, 0);
    let register = design.register(first, 0);
    let second = design.async_rom(register, 0);
    design.output(second);
    size_is(&design, [2, 0, AROUND + 8 + 2 * 10 + 7, 1], &[0; 4]);
}

#[test]
fn a_lead_that_reaches_no_output() {
    // Three ROMs and three registers in a ring: the first ROM runs two clocks early.
    let mut design = design();
    let register = design.loose_register(1, 0);
    let mut last = register;
    for _ in 0..2 {
        last = design.register(last, 0);
    }
    for _ in 0..3 {
        last = design.async_rom(last, 0);
    }
    design.connect(register, 0, last);
    size_is(&design, [3, 0, AROUND + 3 * 10, 2], &[0; 3]);
}

#[test]
fn grown() {
    // 43 taps pass, 44 do not.
    let registers = 43 * 44 / 2;
    let length = 7 + 5 + 43 * 7 + registers * 9;
    let mut by_source = [0; 1 + 43];
    by_source[0] = registers as u16;
    size_is(&shift_register(43), [0, registers, length, 0], &by_source);
    preview_is(
        &shift_register(44).file(),
        Err(Refusal {
            number: 13,
            place: 65_535,
        }),
    );
}

#[test]
fn too_long() {
    let mut file = design().file();
    file.resize(46_000, 0);
    let after_the_end = Refusal {
        number: 3,
        place: AROUND as u16,
    };
    preview_is(&file, Err(after_the_end));
    file.push(0);
    preview_is(
        &file,
        Err(Refusal {
            number: 1,
            place: 0,
        }),
    );
}

#[test]
fn a_row_counts_whole_at_its_source() {
    // And not only the register that reads the source.
    let mut design = Design::default();
    let port = design.input(1);
    let last = row(&mut design, port, 3);
    let not = design.gate(Kind::Not, 1, &[last]);
    let last = row(&mut design, not, 2);
    design.output(last);
    by_source_is(&design, &[3, 2, 0]);
}

#[test]
fn wires_from_one_source_add_up() {
    // Two output ports, and both operands of a gate; one wire has no register.
    let mut design = Design::default();
    let port = design.input(1);
    let one = row(&mut design, port, 1);
    let three = row(&mut design, port, 3);
    design.output(one);
    design.output(three);
    let gate = design.gate(Kind::Xor, 1, &[one, port]);
    design.output(gate);
    by_source_is(&design, &[1 + 3 + 1, 0, 0, 0, 0]);
}

#[test]
fn each_copy_of_a_split_rom_has_a_number() {
    // Of each row the first register becomes the ROM's own.
    let mut design = design();
    let port = design.input(1);
    let rom = design.async_rom(port, 0);
    for (reset, behind) in [(0, 1), (1, 2), (0, 3)] {
        let first = design.register(rom, reset);
        let last = row(&mut design, first, behind);
        design.output(last);
    }
    by_source_is(&design, &[0, 1 + 3, 2, 0, 0, 0]);
}

#[test]
fn a_clocked_roms_own_register_is_not_counted() {
    let mut design = design();
    let port = design.input(1);
    let clocked = design.clocked_rom(port, 0, 0);
    design.output(clocked);
    let last = row(&mut design, clocked, 1);
    design.output(last);
    // This ROM gets one of the two registers.
    let rom = design.async_rom(port, 0);
    let last = row(&mut design, rom, 2);
    design.output(last);
    by_source_is(&design, &[0, 1, 0, 0, 1, 0]);
}

#[test]
fn a_source_that_runs_early() {
    // The constant and the first ROM run ahead of the gate, which gets their words in time.
    let mut design = design();
    let constant = design.constant(1, 0);
    let first = design.async_rom(constant, 0);
    let second = design.async_rom(first, 0);
    let gate = design.gate(Kind::Xor, 1, &[constant, second]);
    let last = design.gate(Kind::Xor, 1, &[gate, first]);
    design.output(last);
    by_source_is(&design, &[2, 1, 0, 0, 0, 0]);
}

#[test]
fn registers_have_no_place_in_the_list() {
    let mut design = Design::default();
    let first = design.loose_register(1, 0);
    let second = design.loose_register(1, 0);
    design.output(second);
    let port = design.input(1);
    design.connect(first, 0, port);
    design.connect(second, 0, first);
    by_source_is(&design, &[0, 2]);
}

#[test]
fn more_registers_than_a_byte_can_tell() {
    // 1,022 in a row, from the second of two nodes to the first.
    let design = workloads::deep_registers();
    list_is(&design, &[0xa5; 4], Ok(2), &[0, 0, 3, 254]);
}

#[test]
fn an_empty_list_for_no_nodes() {
    list_is(&Design::default(), &[], Ok(0), &[]);
}

#[test]
fn list_one_byte_short() {
    list_is(&shift_register(1), &[0xa5; 3], Err(SHORT_LIST), &[0xa5; 3]);
    list_is(&shift_register(1), &[], Err(SHORT_LIST), &[]);
}

#[test]
fn list_one_byte_longer() {
    list_is(&shift_register(1), &[0xa5; 5], Ok(2), &[0, 1, 0, 0, 0xa5]);
}

#[test]
fn as_many_sources_as_there_can_be() {
    let design = workloads::forward_chain(MAX_NODES);
    list_is(&design, &[0xa5; 2_048], Ok(1_024), &[0; 2_048]);
    list_is(&design, &[0xa5; 2_047], Err(SHORT_LIST), &[0xa5; 2_047]);
}

#[test]
fn a_short_list_comes_after_port_debt_and_growth() {
    let mut port_debt = design();
    let port = port_debt.input(1);
    let rom = port_debt.async_rom(port, 0);
    port_debt.output(rom);
    list_is(&port_debt, &[], Err(Refusal::new(12, 0)), &[]);
    list_is(&shift_register(44), &[], Err(Refusal::new(13, 65_535)), &[]);
}
