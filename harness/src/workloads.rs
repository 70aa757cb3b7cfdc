//! Large netlists with names, for the benchmark: a typical one, and those that make a service
//! work longest.

use crate::design::Design;
use crate::format::MAX_FILE;
use crate::netlist::{Kind, MAX_NODES};
use crate::random::{grown_from, sized_netlist, Random, Shape};
use crate::OnBytes;

fn typical_shape() -> Shape {
    Shape {
        nodes: 800,
        tables: vec![(10, 16); 16],
        filled: 0,
        inputs: 8,
        widths: vec![1, 10, 16],
        most_lead: 3,
        most_late: 0,
        most_registers: 1,
        async_roms: 8,
        clocked_roms: 4,
        feedback: 5,
        registers: 5,
        sharing: 30,
        rings: 0,
    }
}

/// 900 nodes of all kinds in random order, 16 tables of 1,024 words of 16 bits. Late-started it
/// grows too large.
pub fn typical() -> Design {
    let shape = typical_shape();
    first_accepted(crate::rewrite, |random| sized_netlist(random, &shape, 900))
}

/// The first netlist that does not grow too large when it is rewritten, as some do.
fn first_accepted(rewrite: OnBytes, netlist: impl Fn(&mut Random) -> Design) -> Design {
    let mut out = vec![0; MAX_FILE];
    let accepted = |design: &Design| rewrite(&design.file(), &mut out).is_ok();
    (1..)
        .map(|seed| netlist(&mut Random::new(seed)))
        .find(accepted)
        .expect("some seed gives one")
}

/// [`typical`] with tables that stop after 700 words; the next word is the fill word.
pub fn filled() -> Design {
    let mut design = typical();
    for table in &mut design.tables {
        let (words, _) = table.words.as_chunks();
        table.fill = Some(u16::from_be_bytes(words[700]));
        table.words.truncate(2 * 700);
    }
    design
}

/// 700 nodes like those of [`typical`], which both modes accept.
pub fn typical_for_both_modes() -> Design {
    let shape = Shape {
        nodes: 600,
        ..typical_shape()
    };
    first_accepted(crate::rewrite_late, |random| {
        sized_netlist(random, &shape, 700)
    })
}

/// Nodes of all kinds with the same tables, many of which run late: the plain mode refuses it.
/// Late-started it has nearly as many nodes as there can be.
pub fn typical_late() -> Design {
    let shape = Shape {
        nodes: 450,
        most_late: 2,
        rings: 5,
        ..typical_shape()
    };
    first_accepted(crate::rewrite_late, |random| {
        grown_from(random, &shape, MAX_NODES)
    })
}

/// As many sensors as there can be: a port, an asynchronous ROM, a gate, a register, a port. Each
/// of them gets a gate that shows the register's reset word.
pub fn sensors() -> Design {
    let mut design = Design::default();
    let table = successors(&mut design);
    for reset in 0..170 {
        let port = design.input(4);
        let rom = design.async_rom(port, table);
        let not = design.gate(Kind::Not, 4, &[rom]);
        let register = design.register(not, reset % 16);
        design.output(register);
    }
    design
}

/// A sensor with as many registers as there can be, each of which gets a gate, listed backwards.
pub fn deep_sensor() -> Design {
    let mut design = Design::default();
    let table = successors(&mut design);
    let port = design.input(4);
    let rom = design.async_rom(port, table);
    let mut last = design.gate(Kind::Not, 4, &[rom]);
    for reset in 0..255 {
        last = design.register(last, reset % 16);
    }
    design.output(last);
    design.reverse();
    design
}

/// The netlist with an input port straight before an asynchronous ROM besides: 12.
pub fn with_port_debt(design: &Design) -> Design {
    let mut design = design.clone();
    let port = design.input(design.tables[0].address_bits);
    let rom = design.async_rom(port, 0);
    design.output(rom);
    design
}

/// The netlist with a row of registers besides that many output ports read. Each wire gets
/// registers of its own: 13, and not before all other wires are laid.
pub fn with_too_many_registers(design: &Design) -> Design {
    let mut design = design.clone();
    let mut row = design.input(1);
    for _ in 0..40 {
        row = design.register(row, 0);
    }
    for _ in 0..40 {
        design.output(row);
    }
    design
}

/// A chain of gates, each behind its source: the best order for a run.
pub fn forward_chain(nodes: usize) -> Design {
    let mut design = Design::default();
    let input = design.input(16);
    let mut last = input;
    for gate in 0..nodes - 2 {
        let operations = [Kind::Add, Kind::Xor, Kind::Subtract];
        last = design.gate(operations[gate % 3], 16, &[last, input]);
    }
    design.output(last);
    design
}

/// The same chain listed backwards: the worst order.
pub fn backward_chain(nodes: usize) -> Design {
    let mut design = forward_chain(nodes);
    design.reverse();
    design
}

/// One table of 16 words, each the next one's address.
fn successors(design: &mut Design) -> u8 {
    let words: Vec<u16> = (0..16).map(|word| (word * 5 + 3) % 16).collect();
    design.table(4, &words)
}

/// A thousand registers in a row, listed from reader to source.
pub fn deep_registers() -> Design {
    let mut design = Design::default();
    let mut last = design.input(16);
    for reset in 0..MAX_NODES - 2 {
        last = design.register(last, reset as u16);
    }
    design.output(last);
    design.reverse();
    design
}

/// A long row of registers that many readers with a large lead share: each of their wires keeps
/// one register, whose reset word lies at the far end of the row.
pub fn deep_shared_registers() -> Design {
    let mut design = Design::default();
    let table = successors(&mut design);
    let mut row = design.input(4);
    for reset in 0..301 {
        row = design.register(row, reset % 16);
    }
    let mut sum = row;
    for _ in 0..300 {
        sum = design.gate(Kind::Add, 4, &[sum, row]);
    }
    for _ in 0..300 {
        sum = design.async_rom(sum, table);
    }
    design.output(sum);
    design.reverse();
    design
}

/// The rewriter's leads settle slowly: each asynchronous ROM reads the next over a clocked one,
/// and what they come to must go through a long row of clocked ROMs.
pub fn long_relaxation() -> Design {
    let mut design = Design::default();
    let table = successors(&mut design);
    let mut last = design.constant(4, 1);
    for word in 0..500 {
        last = design.clocked_rom(last, table, word % 16);
    }
    for word in 0..250 {
        last = design.async_rom(last, table);
        last = design.clocked_rom(last, table, word % 16);
    }
    design.output(last);
    design
}

/// [`long_relaxation`] listed backwards.
pub fn long_relaxation_backwards() -> Design {
    let mut design = long_relaxation();
    design.reverse();
    design
}

/// As many asynchronous ROMs in a row as there can be: the first runs 1,022 clocks early.
pub fn largest_leads() -> Design {
    let mut design = Design::default();
    let table = successors(&mut design);
    let mut last = design.constant(4, 1);
    for _ in 0..MAX_NODES - 2 {
        last = design.async_rom(last, table);
    }
    design.output(last);
    design
}

/// A ring of as many registers as asynchronous ROMs, with all the registers in one place.
pub fn large_ring() -> Design {
    let mut design = Design::default();
    let table = successors(&mut design);
    let first = design.loose_register(4, 7);
    let mut last = first;
    for reset in 1..511 {
        last = design.register(last, reset % 16);
    }
    for _ in 0..511 {
        last = design.async_rom(last, table);
    }
    design.connect(first, 0, last);
    design.output(first);
    design.reverse();
    design
}

/// The same ring with one register less: 11, found only when the leads have grown too large.
pub fn closed_debt() -> Design {
    let mut design = Design::default();
    let table = successors(&mut design);
    let first = design.loose_register(4, 7);
    let mut last = first;
    for reset in 0..510 {
        last = design.async_rom(last, table);
        last = design.register(last, reset % 16);
    }
    last = design.async_rom(last, table);
    last = design.async_rom(last, table);
    design.connect(first, 0, last);
    design.reverse();
    design
}

/// [`closed_debt`] before an output port, which the late start looks for.
pub fn closed_debt_before_an_output() -> Design {
    let mut design = closed_debt();
    design.output(0);
    design
}

/// Gates that read the three behind them, and two that read each other at the far end. The
/// search for a loop goes through all of them from each node.
pub fn far_loop() -> Design {
    let mut design = Design::default();
    let gates = MAX_NODES as u16 - 1;
    for number in 0..gates {
        let next = |step: u16| (number + step).min(gates - 1);
        let sources = match number < gates - 2 {
            true => [next(1), next(2), next(3)],
            false => [2 * gates - 3 - number; 3],
        };
        design.gate(Kind::Choose, 1, &sources);
    }
    design.output(0);
    design
}

/// [`far_loop`] listed backwards, so that the loop has the lowest numbers.
pub fn far_loop_backwards() -> Design {
    let mut design = far_loop();
    design.reverse();
    design
}

/// Registers that read the next one, and two that read each other at the far end: 10.
pub fn far_ring() -> Design {
    let mut design = Design::default();
    let registers = MAX_NODES as u16 - 1;
    for number in 0..registers {
        let register = design.loose_register(1, 0);
        let source = if number < registers - 1 {
            number + 1
        } else {
            number - 1
        };
        design.connect(register, 0, source);
    }
    design.output(0);
    design
}
