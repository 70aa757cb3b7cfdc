//! Random well-formed netlists that the rewriter accepts unless they grow too large.
//!
//! Each node gets a planned lead, and each wire as many registers as the plan asks for. The
//! leads are then at most the planned ones, so there is no debt; they reach them where ROMs
//! follow each other without registers between. Where planned leads are below 0, all this is so in
//! the late start: in the plain mode there may be debts.

use super::tables::{table, FILLED};
use super::Random;
use crate::design::Design;
use crate::leads::taken;
use crate::netlist::{Kind, MAX_NODES};

/// What a netlist is to look like. Chances are in percent.
#[derive(Clone)]
pub struct Shape {
    /// About how many nodes.
    pub nodes: usize,
    /// Address bits and word width of each table.
    pub tables: Vec<(u8, u8)>,
    /// How often a table has a fill word.
    pub filled: usize,
    pub inputs: usize,
    /// The widths that inputs, constants and the like come in.
    pub widths: Vec<u8>,
    /// The largest planned lead.
    pub most_lead: usize,
    /// How far below 0 a planned lead may be.
    pub most_late: usize,
    /// How many registers a wire may have beyond those that the plan asks for.
    pub most_registers: usize,
    pub async_roms: usize,
    pub clocked_roms: usize,
    /// How often an operand is a register whose source comes later, perhaps the node itself.
    pub feedback: usize,
    /// How often a wire has registers that nothing asks for.
    pub registers: usize,
    /// How often a wire goes through a register that is there already.
    pub sharing: usize,
    /// How often a node that nothing reads gets a ring that reads it, and no output port.
    pub rings: usize,
}

impl Shape {
    pub fn random(random: &mut Random) -> Self {
        let mut widths: Vec<u8> = (0..random.between(1, 4))
            .map(|_| random.between(1, 16) as u8)
            .collect();
        let most_address = if random.chance(5) { 10 } else { 4 };
        let tables = (0..random.pick(&[0, 1, 1, 2, 3, 5, 16]))
            .map(|_| {
                let bits = random.between(1, most_address) as u8;
                let width = match random.chance(60) {
                    // Words that are addresses again, so that ROMs can follow each other.
                    true => bits,
                    false => random.between(1, 16) as u8,
                };
                widths.push(bits);
                (bits, width)
            })
            .collect();
        Shape {
            nodes: random.pick(&[3, 5, 10, 10, 20, 20, 40, 80, 150, 400]),
            tables,
            filled: FILLED,
            inputs: random.pick(&[0, 1, 2, 2, 5]),
            widths,
            most_lead: random.pick(&[0, 1, 2, 4, 8, 12]),
            most_late: 0,
            most_registers: random.pick(&[1, 1, 2, 5, 30]),
            async_roms: random.pick(&[10, 25, 50, 70]),
            clocked_roms: random.pick(&[0, 10, 20]),
            feedback: random.pick(&[0, 5, 20]),
            registers: random.pick(&[0, 10, 30]),
            sharing: random.pick(&[0, 50, 100]),
            rings: 0,
        }
    }

    /// A shape for the late start: nodes that run late, and some that reach no output port.
    pub fn late(random: &mut Random) -> Self {
        let mut shape = Shape::random(random);
        shape.inputs = random.pick(&[1, 1, 2, 2, 5]);
        shape.most_late = random.pick(&[1, 1, 2, 4, 8]);
        shape.clocked_roms = random.pick(&[5, 20, 40]);
        shape.rings = random.pick(&[0, 0, 0, 10, 20, 50, 100]);
        shape
    }
}

/// A random netlist of a random shape, now and then of exactly 1,024 nodes.
pub fn netlist(random: &mut Random) -> Design {
    let mut shape = Shape::random(random);
    if random.chance(3) {
        shape.nodes = 800;
        shape.most_registers = 1;
        return sized_netlist(random, &shape, MAX_NODES);
    }
    grown_from(random, &shape, MAX_NODES)
}

/// A random netlist for the late start, which accepts it unless it grows too large.
pub fn late_netlist(random: &mut Random) -> Design {
    let shape = Shape::late(random);
    grown_from(random, &shape, MAX_NODES)
}

/// A random netlist with no ports: rings read what nothing reads, and in the place of an input port
/// there is a gate whose words go on changing, in a ring with a register.
pub fn without_ports(random: &mut Random) -> Design {
    let mut shape = Shape::random(random);
    shape.rings = 100;
    let mut design = grown_from(random, &shape, MAX_NODES / 2);
    for number in 0..design.nodes.len() as u16 {
        if design.kind(number) == Kind::Input {
            let reset = random.word(design.width(number));
            let register = design.register(number, reset);
            design.nodes[usize::from(number)].kind = Kind::Not;
            design.connect(number, 0, register);
        }
    }
    design
}

/// A random netlist with a fill word in one table at least.
pub fn filled_netlist(random: &mut Random) -> Design {
    loop {
        let design = netlist(random);
        if design.tables.iter().any(|table| table.fill.is_some()) {
            return design;
        }
    }
}

/// A random netlist of the shape, filled up with ports to exactly so many nodes.
pub fn sized_netlist(random: &mut Random, shape: &Shape, nodes: usize) -> Design {
    let mut design = grown_from(random, shape, nodes);
    let readable = |n: &u16| !matches!(design.kind(*n), Kind::AsyncRom | Kind::Output);
    let readable: Vec<u16> = (0..design.nodes.len() as u16).filter(readable).collect();
    while design.nodes.len() < nodes {
        if readable.is_empty() || random.chance(50) {
            design.input(random.between(1, 16) as u8);
        } else {
            design.output(random.pick(&readable));
        }
    }
    list(random, &mut design);
    design
}

/// A netlist of at most so many nodes: one that turns out too large is made again, smaller.
pub fn grown_from(random: &mut Random, shape: &Shape, most: usize) -> Design {
    let mut shape = shape.clone();
    loop {
        let mut design = Grower::new(random, &shape).grow();
        if design.nodes.len() <= most {
            design.leave_out_unread_tables();
            list(random, &mut design);
            return design;
        }
        shape.nodes = shape.nodes * 3 / 4;
    }
}

/// Lists the nodes as they came, backwards, or in any order.
pub fn list(random: &mut Random, design: &mut Design) {
    match random.below(4) {
        0 => {}
        1 => design.reverse(),
        _ => {
            let mut order: Vec<u16> = (0..design.nodes.len() as u16).collect();
            random.shuffle(&mut order);
            design.reorder(&order);
        }
    }
}

struct Grower<'g> {
    random: &'g mut Random,
    shape: &'g Shape,
    design: Design,
    /// The planned lead of each node that is no register.
    planned: Vec<i32>,
    /// The nodes of each width that are no registers and no outputs.
    of_width: [Vec<u16>; 17],
    /// The registers that read each node.
    taps: Vec<Vec<u16>>,
    /// Registers without source, with the planned lead of their reader.
    loose: Vec<(u16, i32)>,
}

/// Where an operand comes from.
enum Origin {
    Node(u16),
    Later(u8),
}

impl<'g> Grower<'g> {
    fn new(random: &'g mut Random, shape: &'g Shape) -> Self {
        let mut design = Design::default();
        for &(bits, width) in &shape.tables {
            table(random, &mut design, bits, width, shape.filled);
        }
        Grower {
            random,
            shape,
            design,
            planned: Vec::new(),
            of_width: Default::default(),
            taps: Vec::new(),
            loose: Vec::new(),
        }
    }

    fn grow(mut self) -> Design {
        for _ in 0..self.shape.inputs {
            let width = self.random.pick(&self.shape.widths);
            self.input(width);
        }
        while self.design.nodes.len() + 2 * self.loose.len() < self.shape.nodes {
            self.any_node();
        }
        for (register, planned) in std::mem::take(&mut self.loose) {
            self.close(register, planned);
        }
        self.read_all();
        self.design
    }

    fn any_node(&mut self) {
        let kind = self.random.below(100);
        let roms = self.shape.async_roms;
        if kind < roms + self.shape.clocked_roms && !self.shape.tables.is_empty() {
            match self.random.chance(5) {
                true => self.series(),
                false => self.rom(kind < roms),
            }
        } else if kind > 97 {
            let width = self.random.pick(&self.shape.widths);
            self.input(width);
        } else {
            self.gate();
        }
    }

    fn input(&mut self, width: u8) -> u16 {
        let number = self.design.input(width);
        self.added(number, 0)
    }

    fn rom(&mut self, is_async: bool) {
        let table = self.random.below(self.shape.tables.len());
        let (bits, _) = self.shape.tables[table];
        let origins = [self.origin(bits)];
        let planned = self.plan(&origins);
        let source = self.wires(&origins, planned)[0];
        let number = match is_async {
            true => self.design.async_rom(source, table as u8),
            false => {
                let reset = self.random.word(self.shape.tables[table].1);
                self.design.clocked_rom(source, table as u8, reset)
            }
        };
        self.added(number, planned);
    }

    /// Several asynchronous ROMs one behind the other, with leads that fall from one to the next.
    fn series(&mut self) {
        let tables = &self.shape.tables;
        let Some(table) = tables.iter().position(|&(bits, width)| bits == width) else {
            return self.rom(true);
        };
        let (width, _) = tables[table];
        let roms = self.random.between(1, self.shape.most_lead + 1);
        let origin = [self.origin(width)];
        let mut planned = (roms + self.random.below(2)) as i32;
        if self.shape.most_late > 0 {
            planned -= self.random.between(0, self.shape.most_late) as i32;
        }
        let mut last = self.wires(&origin, planned)[0];
        for _ in 0..roms {
            last = self.design.async_rom(last, table as u8);
            self.added(last, planned);
            planned -= 1;
            if self.random.chance(30) {
                last = self.design.gate(Kind::Not, width, &[last]);
                self.added(last, planned);
            }
        }
    }

    fn gate(&mut self) {
        let mut width = self.random.pick(&self.shape.widths);
        let operation = self.random.pick(&Kind::GATES);
        let mut word = 0;
        let operands: Vec<u8> = match operation {
            Kind::Constant => {
                word = self.random.word(width);
                vec![]
            }
            Kind::Not => vec![width],
            Kind::Equal | Kind::Less => {
                let operands = vec![width; 2];
                width = 1;
                operands
            }
            Kind::Choose => vec![1, width, width],
            Kind::Part => {
                let whole = self.random.between(usize::from(width), 16) as u8;
                word = self.random.between(0, usize::from(whole - width)) as u16;
                vec![whole]
            }
            Kind::Join => {
                width = width.max(2);
                let high = self.random.between(1, usize::from(width) - 1) as u8;
                vec![high, width - high]
            }
            _ => vec![width; 2],
        };
        let origins: Vec<Origin> = operands.iter().map(|&w| self.origin(w)).collect();
        let planned = self.plan(&origins);
        let sources = self.wires(&origins, planned);
        let number = self.design.gate(operation, width, &sources);
        self.design.nodes[usize::from(number)].word = word;
        self.added(number, planned);
    }

    fn added(&mut self, number: u16, planned: i32) -> u16 {
        self.planned.resize(self.design.nodes.len(), 0);
        self.taps.resize_with(self.design.nodes.len(), Vec::new);
        self.planned[usize::from(number)] = planned;
        if !matches!(self.design.kind(number), Kind::Register | Kind::Output) {
            self.of_width[usize::from(self.design.width(number))].push(number);
        }
        number
    }

    fn origin(&mut self, width: u8) -> Origin {
        if self.random.chance(self.shape.feedback) {
            return Origin::Later(width);
        }
        Origin::Node(self.of_width(width))
    }

    /// A node of the width: often a late one, so that long paths come about.
    fn of_width(&mut self, width: u8) -> u16 {
        let all = &self.of_width[usize::from(width)];
        if all.is_empty() {
            let wider = (width + 1..=16).find(|&w| !self.of_width[usize::from(w)].is_empty());
            return match wider {
                Some(wider) if self.random.chance(60) => {
                    let source = self.of_width(wider);
                    let planned = self.without_registers(source);
                    let source = self.wire(source, planned);
                    let number = self.design.part(source, wider - width, width);
                    self.added(number, planned)
                }
                _ if self.random.chance(50) => self.input(width),
                _ => {
                    let value = self.random.word(width);
                    let planned = self.any_lead();
                    let number = self.design.constant(width, value);
                    self.added(number, planned)
                }
            };
        }
        let newest = all.len().min(3);
        match self.random.chance(60) {
            true => all[all.len() - 1 - self.random.below(newest)],
            false => self.random.pick(all),
        }
    }

    fn any_lead(&mut self) -> i32 {
        let Shape {
            most_lead,
            most_late,
            ..
        } = *self.shape;
        self.random.between(0, most_late + most_lead) as i32 - most_late as i32
    }

    /// The largest planned lead with which a reader of the node needs no registers.
    fn without_registers(&self, number: u16) -> i32 {
        let lead = self.planned[usize::from(number)] - taken(self.design.kind(number));
        lead.max(-(self.shape.most_late as i32))
    }

    /// How many registers the plan asks for between a source and a reader.
    fn asked(&self, source: u16, planned: i32) -> usize {
        let asked = planned + taken(self.design.kind(source));
        (asked - self.planned[usize::from(source)]).max(0) as usize
    }

    /// A planned lead: often the largest that needs no registers.
    fn plan(&mut self, origins: &[Origin]) -> i32 {
        let without = origins.iter().filter_map(|origin| match *origin {
            Origin::Node(source) => Some(self.without_registers(source)),
            Origin::Later(_) => None,
        });
        match without.min() {
            Some(lead) if self.random.chance(75) => lead,
            _ => self.any_lead(),
        }
    }

    fn wires(&mut self, origins: &[Origin], planned: i32) -> Vec<u16> {
        let wire = |origin: &Origin| match *origin {
            Origin::Node(source) => self.wire(source, planned),
            Origin::Later(width) => {
                let reset = self.random.word(width);
                let register = self.design.loose_register(width, reset);
                self.loose.push((register, planned));
                self.added(register, 0)
            }
        };
        origins.iter().map(wire).collect()
    }

    /// What a reader with the planned lead reads in order to get the source's words.
    fn wire(&mut self, source: u16, planned: i32) -> u16 {
        let mut registers = self.asked(source, planned);
        if self.random.chance(self.shape.registers) {
            registers += self.random.between(1, self.shape.most_registers);
        }
        self.delayed(source, registers)
    }

    fn delayed(&mut self, source: u16, registers: usize) -> u16 {
        let mut number = source;
        for _ in 0..registers {
            let taps = &self.taps[usize::from(number)];
            number = match taps.is_empty() || !self.random.chance(self.shape.sharing) {
                true => {
                    let reset = self.random.word(self.design.width(number));
                    let register = self.design.register(number, reset);
                    self.added(register, 0);
                    self.taps[usize::from(number)].push(register);
                    register
                }
                false => self.random.pick(taps),
            };
        }
        number
    }

    /// Gives a loose register its source.
    fn close(&mut self, register: u16, planned: i32) {
        let source = self.of_width(self.design.width(register));
        let registers = self.asked(source, planned);
        let source = self.delayed(source, registers.saturating_sub(1));
        self.design.connect(register, 0, source);
    }

    /// Gives an output port, or a ring, to every node that nothing reads.
    fn read_all(&mut self) {
        let rings = self.shape.rings;
        for number in self.design.unread() {
            if rings > 0 && self.random.chance(rings) {
                self.ring(number);
            } else {
                let source = self.wire(number, 0);
                self.design.output(source);
            }
        }
    }

    /// Lets a ring read the node that reaches no output port. Its debts, to the node and around it,
    /// are the plain mode's alone.
    fn ring(&mut self, number: u16) {
        let width = self.design.width(number);
        let register = self.design.loose_register(width, self.random.word(width));
        let mut last = self.design.gate(Kind::Xor, width, &[number, register]);
        let tables = &self.shape.tables;
        if let Some(table) = tables.iter().position(|&table| table == (width, width)) {
            for _ in 0..self.random.below(3) {
                last = self.design.async_rom(last, table as u8);
            }
        }
        self.design.connect(register, 0, last);
    }
}
