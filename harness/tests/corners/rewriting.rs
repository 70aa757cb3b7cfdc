//! Checks 11 to 14, of the rewriter.

use harness::design::Design;
use harness::netlist::{Kind, MAX_NODES};
use harness::{Answer, OnBytes, Refusal};

use super::rewrite_is;

const CLOSED_DEBT: Answer = Err(Refusal {
    number: 11,
    place: 65_535,
});
const GROWN: Answer = Err(Refusal {
    number: 13,
    place: 65_535,
});

fn design() -> Design {
    let mut design = Design::default();
    design.table(1, &[1, 0]);
    design
}

#[test]
fn port_debt_names_the_node() {
    let mut design = design();
    design.input(1);
    let constant = design.constant(1, 0);
    design.output(constant);
    let port = design.input(1);
    let rom = design.async_rom(port, 0);
    design.output(rom);
    rewrite_is(
        &design.file(),
        Err(Refusal {
            number: 12,
            place: 3,
        }),
    );
}

#[test]
fn port_debt_that_reaches_no_output() {
    let mut design = design();
    let port = design.input(1);
    let rom = design.async_rom(port, 0);
    let register = design.loose_register(1, 0);
    let gate = design.gate(Kind::Xor, 1, &[rom, register]);
    design.connect(register, 0, gate);
    rewrite_is(
        &design.file(),
        Err(Refusal {
            number: 12,
            place: 0,
        }),
    );
}

#[test]
fn port_debt_through_a_clocked_rom() {
    let mut design = design();
    let port = design.input(1);
    let clocked = design.clocked_rom(port, 0, 0);
    let rom = design.async_rom(clocked, 0);
    design.output(rom);
    rewrite_is(
        &design.file(),
        Err(Refusal {
            number: 12,
            place: 0,
        }),
    );
}

#[test]
fn closed_debt_comes_before_port_debt() {
    let mut design = design();
    let port = design.input(1);
    let rom = design.async_rom(port, 0);
    design.output(rom);
    let clocked = design.clocked_rom(0, 0, 0);
    let other = design.async_rom(clocked, 0);
    design.connect(clocked, 0, other);
    rewrite_is(&design.file(), CLOSED_DEBT);
}

#[test]
fn grown_by_shared_registers() {
    // A shift register with an output port at each register needs 1 + 2 + .. for itself.
    for (taps, answer) in [(43, true), (44, false)] {
        let mut design = Design::default();
        let mut last = design.input(1);
        for _ in 0..taps {
            last = design.register(last, 0);
            design.output(last);
        }
        let file = design.file();
        let nodes = 1 + taps + taps * (taps + 1) / 2;
        assert_eq!(nodes <= MAX_NODES, answer);
        let registers = nodes - 1 - taps;
        let length = 7 + 5 + 7 * taps + 9 * registers;
        rewrite_is(&file, if answer { Ok(length) } else { GROWN });
    }
}

#[test]
fn output_one_byte_short() {
    let mut design = design();
    let port = design.input(1);
    let register = design.register(port, 1);
    let rom = design.async_rom(register, 0);
    design.output(rom);
    let file = design.file();
    let services: &[OnBytes] = &[
        harness::rewrite,
        #[cfg(feature = "rewrite")]
        harness::product::rewrite,
    ];
    for rewrite in services {
        let mut out = [0xa5; 38];
        assert_eq!(rewrite(&file, &mut out), Ok(38));
        for short in [0, 1, 7, 37] {
            let mut out = vec![0xa5; short];
            let answer = Err(Refusal {
                number: 14,
                place: 65_535,
            });
            assert_eq!(rewrite(&file, &mut out), answer);
            assert_eq!(out, vec![0xa5; short]);
        }
    }
}
