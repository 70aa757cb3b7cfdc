//! Netlists that pass the reader and are built to be refused by the rewriter.

use super::netlists::{list, netlist};
use super::tables::{table, FILLED};
use super::Random;
use crate::design::Design;
use crate::netlist::{Kind, MAX_NODES, MAX_TABLES};

/// A random netlist to which a few nodes and a table can still be added, and the number of a
/// table whose words are addresses again.
fn base(random: &mut Random) -> (Design, u8) {
    loop {
        let mut design = netlist(random);
        if design.nodes.len() < MAX_NODES - 100 && design.tables.len() < MAX_TABLES {
            let bits = random.between(1, 4) as u8;
            let table = table(random, &mut design, bits, bits, FILLED);
            return (design, table);
        }
    }
}

/// A netlist with a ring of more asynchronous ROMs than registers: 11.
pub fn closed_debt(random: &mut Random) -> Design {
    let (mut design, table) = base(random);
    let width = design.tables[usize::from(table)].width;
    let registers = random.between(0, 5);
    let mut ring = vec![Step::Register; registers];
    ring.extend(vec![Step::AsyncRom; registers + random.between(1, 3)]);
    ring.extend(vec![Step::ClockedRom; random.below(3)]);
    ring.extend(vec![Step::Not; random.below(3)]);
    random.shuffle(&mut ring);
    // The ring begins with something clocked, so that it is no loop.
    let first = match registers {
        0 => design.clocked_rom(0, table, random.word(width)),
        _ => {
            ring.remove(ring.iter().position(|&s| s == Step::Register).unwrap());
            design.loose_register(width, random.word(width))
        }
    };
    let mut last = first;
    for &step in &ring {
        last = step.add(random, &mut design, last, table);
    }
    design.connect(first, 0, last);
    if random.chance(50) {
        design.output(first);
    }
    list(random, &mut design);
    design
}

/// A netlist in which a walk from an input port leaves more asynchronous ROMs than it enters
/// registers: 12, unless there is a closed debt too.
pub fn port_debt(random: &mut Random) -> Design {
    let (mut design, table) = base(random);
    let width = design.tables[usize::from(table)].width;
    let registers = random.between(0, 5);
    let mut path = vec![Step::Register; registers];
    path.extend(vec![Step::AsyncRom; registers + random.between(1, 3)]);
    path.extend(vec![Step::ClockedRom; random.below(3)]);
    path.extend(vec![Step::Not; random.below(3)]);
    random.shuffle(&mut path);
    // The debt has been run up at the node in front of these registers.
    path.push(Step::Not);
    path.extend(vec![Step::Register; random.below(4)]);
    let mut last = design.input(width);
    for &step in &path {
        last = step.add(random, &mut design, last, table);
    }
    design.output(last);
    list(random, &mut design);
    design
}

/// A netlist whose rewritten one has about 1,024 nodes: a few more are 13. The answer's second
/// part is how many it has.
pub fn grown(random: &mut Random) -> (Design, usize) {
    let nodes = match random.chance(60) {
        true => random.between(MAX_NODES - 2, MAX_NODES + 2),
        false => random.between(MAX_NODES - 200, MAX_NODES + 3_000),
    };
    let mut design = Design::default();
    let mut left = nodes;
    if random.chance(50) {
        left -= split(random, &mut design);
    }
    // A shift register with an output port at each of several registers: every wire gets the
    // registers up to there for itself.
    let width = random.between(1, 16) as u8;
    let mut taps = vec![design.input(width)];
    left -= 1;
    for _ in 0..random.between(60, 200) {
        let reset = random.word(width);
        taps.push(design.register(taps[taps.len() - 1], reset));
    }
    // The last register must be read, whatever else is.
    design.output(taps[taps.len() - 1]);
    left -= taps.len();
    while left > 0 {
        let registers = random.below(taps.len().min(left));
        design.output(taps[registers]);
        left -= registers + 1;
    }
    list(random, &mut design);
    (design, nodes)
}

/// A netlist whose late-started one has about 1,024 nodes, likewise: behind a sensor's ROM and gate
/// stands a shift register with an output port at each of several registers. On each of these wires
/// there is a gate with its constant for every old register, and a new register for all but those
/// up to the first port.
pub fn grown_late(random: &mut Random) -> (Design, usize) {
    let nodes = match random.chance(60) {
        true => random.between(MAX_NODES - 2, MAX_NODES + 2),
        false => random.between(MAX_NODES - 200, MAX_NODES + 3_000),
    };
    let mut design = Design::default();
    let width = random.between(1, 6) as u8;
    let table = table(random, &mut design, width, width, FILLED);
    let port = design.input(width);
    let rom = design.async_rom(port, table);
    let mut taps = vec![design.gate(Kind::Not, width, &[rom])];
    let first = random.between(1, 5);
    let last = random.between(20, 80);
    for _ in 0..last {
        let reset = random.word(width);
        taps.push(design.register(taps[taps.len() - 1], reset));
    }
    // The ROM runs a clock earlier than the gate, which is late by the first port's registers.
    let before = first - 1;
    let mut left = nodes - (3 + before) - (1 + last);
    let grown = |tap: usize| 1 + (tap - first) + 2 * tap;
    for tap in [first, last] {
        design.output(taps[tap]);
        left -= grown(tap);
    }
    while left >= grown(first) {
        let fits = (first..=last).take_while(|&tap| grown(tap) <= left).count();
        let tap = first + random.below(fits);
        design.output(taps[tap]);
        left -= grown(tap);
    }
    for _ in 0..left {
        design.input(width);
    }
    list(random, &mut design);
    (design, nodes)
}

/// Adds an asynchronous ROM read by registers of different reset words, each of which becomes
/// a clocked ROM with the registers of the ROM's own wire. Gives how many nodes these become.
fn split(random: &mut Random, design: &mut Design) -> usize {
    let bits = random.between(1, 6) as u8;
    let table = table(random, design, bits, 16, FILLED);
    let mut address = design.input(bits);
    let before = random.below(6);
    for _ in 0..before {
        address = design.register(address, random.word(bits));
    }
    let rom = design.async_rom(address, table);
    let copies = random.between(1, 40);
    for word in 0..copies {
        let register = design.register(rom, word as u16);
        design.output(register);
    }
    1 + copies * (before + 1) + copies
}

#[derive(Clone, Copy, PartialEq)]
enum Step {
    Register,
    AsyncRom,
    ClockedRom,
    Not,
}

impl Step {
    fn add(self, random: &mut Random, design: &mut Design, source: u16, table: u8) -> u16 {
        let width = design.width(source);
        match self {
            Step::Register => design.register(source, random.word(width)),
            Step::AsyncRom => design.async_rom(source, table),
            Step::ClockedRom => design.clocked_rom(source, table, random.word(width)),
            Step::Not => design.gate(Kind::Not, width, &[source]),
        }
    }
}
