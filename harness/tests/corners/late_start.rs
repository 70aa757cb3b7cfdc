//! The late start: what it accepts and what it refuses (11 to 14).

use harness::design::Design;
use harness::netlist::{Kind, MAX_NODES};
use harness::{format, Refusal};

use super::late_files::{design, island, sensor};
use super::{late, rewrite_is, run_alike, LATE_STARTS};

const CLOSED_DEBT: Refusal = Refusal {
    number: 11,
    place: 65_535,
};
const GROWN: Refusal = Refusal {
    number: 13,
    place: 65_535,
};
const SHORT_OUT: Refusal = Refusal {
    number: 14,
    place: 65_535,
};

fn port_debt(place: u16) -> Refusal {
    Refusal { number: 12, place }
}

fn late_refused(design: &Design, refusal: Refusal) {
    assert_eq!(late(&design.file()), Err(refusal));
}

/// Accepted, and the plain mode refuses it.
fn late_alone(design: &Design, refusal: Refusal) {
    let file = design.file();
    rewrite_is(&file, Err(refusal));
    assert!(late(&file).is_ok());
    assert!(run_alike(&file) > 0);
}

/// Adds a ring of an asynchronous ROM and a clocked one: 11. Gives a node of it.
fn ring(design: &mut Design) -> u16 {
    let clocked = design.clocked_rom(0, 0, 0);
    let rom = design.async_rom(clocked, 0);
    design.connect(clocked, 0, rom);
    rom
}

#[test]
fn no_output_port() {
    // The input ports stay, and nothing else.
    let mut design = design();
    let mut expected = Design::default();
    for _ in 0..2 {
        let port = design.input(2);
        expected.input(2);
        let rom = design.async_rom(port, 0);
        island(&mut design, rom);
    }
    assert_eq!(late(&design.file()), Ok(expected.file()));
    late_alone(&design, port_debt(0));
    assert_eq!(
        late(&Design::default().file()),
        Ok(Design::default().file())
    );
}

#[test]
fn port_debt_that_reaches_no_output() {
    let mut design = design();
    let port = design.input(2);
    let rom = design.async_rom(port, 0);
    island(&mut design, rom);
    design.output(port);
    late_alone(&design, port_debt(0));
}

#[test]
fn port_debt_paid_on_the_way_to_an_output() {
    late_alone(&sensor(&[2]), port_debt(0));
    late_alone(&sensor(&[2, 0, 1]), port_debt(0));
    late_refused(&sensor(&[]), port_debt(0));
}

#[test]
fn port_debt_on_one_of_two_ways() {
    let mut design = sensor(&[2]);
    design.output(2);
    late_refused(&design, port_debt(0));
}

#[test]
fn port_debt_names_the_lowest_port_that_owes() {
    // The first port's debt reaches no output port, the second port has none.
    let mut design = design();
    let first = design.input(2);
    let aside = design.async_rom(first, 0);
    island(&mut design, aside);
    let second = design.input(2);
    design.output(second);
    rewrite_is(&design.file(), Err(port_debt(0)));
    let third = design.input(2);
    let rom = design.async_rom(third, 0);
    design.output(rom);
    assert_eq!(third, 6);
    late_refused(&design, port_debt(third));
}

#[test]
fn closed_debt_that_reaches_no_output() {
    let mut design = design();
    ring(&mut design);
    let port = design.input(2);
    design.output(port);
    late_alone(&design, CLOSED_DEBT);
}

#[test]
fn closed_debt_that_reaches_an_output() {
    // However many registers stand on the way.
    let mut design = design();
    let mut last = ring(&mut design);
    for _ in 0..4 {
        last = design.register(last, 0);
    }
    design.output(last);
    late_refused(&design, CLOSED_DEBT);
}

#[test]
fn closed_debt_comes_before_port_debt() {
    let mut design = sensor(&[]);
    late_refused(&design, port_debt(0));
    let ring = ring(&mut design);
    late_refused(&design, port_debt(0));
    design.output(ring);
    late_refused(&design, CLOSED_DEBT);
}

/// A gate behind a port, and so many registers behind the gate. Late-started they stand before it,
/// and each gets a register of the chain, a constant and a gate.
fn delay(registers: usize) -> Design {
    let mut design = Design::default();
    let port = design.input(2);
    let mut last = design.gate(Kind::Not, 2, &[port]);
    for reset in 0..registers {
        last = design.register(last, reset as u16 % 4);
    }
    design.output(last);
    design
}

#[test]
fn port_debt_comes_before_growth() {
    let mut design = delay(256);
    late_refused(&design, GROWN);
    let table = design.table(2, &[3, 1, 2, 2]);
    let rom = design.async_rom(0, table);
    design.output(rom);
    late_refused(&design, port_debt(0));
}

#[test]
fn grown_by_gates() {
    let just = delay(255);
    let file = just.file();
    rewrite_is(&file, Ok(file.len()));
    let new = late(&file).expect("accepted");
    let nodes = format::read(&new).expect("well formed").nodes;
    assert_eq!(nodes.len(), MAX_NODES);
    assert!(run_alike(&file) > 1);

    let grown = delay(256);
    let file = grown.file();
    rewrite_is(&file, Ok(file.len()));
    late_refused(&grown, GROWN);
}

#[test]
fn output_of_any_length() {
    let file = sensor(&[2]).file();
    let new = late(&file).expect("accepted");
    for (name, rewrite_late) in LATE_STARTS {
        for short in [0, 1, 7, new.len() - 1] {
            let mut out = vec![0xa5; short];
            assert_eq!(rewrite_late(&file, &mut out), Err(SHORT_OUT), "{name}");
            assert_eq!(out, vec![0xa5; short], "{name}");
        }
        let mut out = vec![0xa5; new.len()];
        assert_eq!(rewrite_late(&file, &mut out), Ok(new.len()), "{name}");
        assert_eq!(out, new, "{name}");
    }
}

#[test]
fn a_short_output_comes_after_growth() {
    for (name, rewrite_late) in LATE_STARTS {
        let file = delay(256).file();
        assert_eq!(rewrite_late(&file, &mut []), Err(GROWN), "{name}");
    }
}

#[test]
fn a_late_started_file_rewritten_again() {
    for resets in [&[2][..], &[2, 1], &[0, 3, 1]] {
        let new = late(&sensor(resets).file()).expect("accepted");
        // Both modes accept it, and what they make of it.
        assert_eq!(run_alike(&new), 2 + 3 * 2);
    }
}
