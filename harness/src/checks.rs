//! Checks 6 to 10, and 17 among them, each over the whole netlist, and the orders in which the
//! layers above go through it.

use crate::format;
use crate::netlist::{tables_read, Kind, Netlist, Node};
use crate::refusal::{refuse, Answer, Refusal, LOOP, RING, SOURCE, UNREAD, UNREAD_TABLE, WIDTH};

/// A netlist that passed checks 1 to 10.
pub struct Checked<'a> {
    pub netlist: Netlist<'a>,
    /// The gates and asynchronous ROMs, sources before readers.
    pub order: Vec<u16>,
    /// The registers, sources before readers.
    pub registers: Vec<u16>,
}

/// Checks 1 to 10. Answers the file's length.
pub fn check(file: &[u8]) -> Answer {
    checked(file).map(|_| file.len())
}

pub fn checked(file: &[u8]) -> Result<Checked<'_>, Refusal> {
    let netlist = format::read(file)?;
    let read = sources(&netlist)?;
    widths(&netlist)?;
    unread(&netlist.nodes, &read)?;
    unread_tables(&netlist)?;
    let order = evaluation_order(&netlist.nodes)?;
    let registers = register_order(&netlist)?;
    Ok(Checked {
        netlist,
        order,
        registers,
    })
}

/// Check 6. Gives for each node whether it has a reader.
fn sources(netlist: &Netlist) -> Result<Vec<bool>, Refusal> {
    let nodes = &netlist.nodes;
    let mut read = vec![false; nodes.len()];
    for (number, node) in nodes.iter().enumerate() {
        for &source in node.sources() {
            match nodes.get(usize::from(source)) {
                Some(found) if found.kind != Kind::Output => read[usize::from(source)] = true,
                _ => return refuse(SOURCE, number),
            }
        }
        if node.kind.is_rom() && usize::from(node.table) >= netlist.tables.len() {
            return refuse(SOURCE, number);
        }
    }
    Ok(read)
}

/// Check 7.
fn widths(netlist: &Netlist) -> Result<(), Refusal> {
    match netlist.nodes.iter().position(|n| !width_fits(netlist, n)) {
        Some(number) => refuse(WIDTH, number),
        None => Ok(()),
    }
}

fn width_fits(netlist: &Netlist, node: &Node) -> bool {
    let width = node.width;
    let source = |operand: usize| netlist.nodes[usize::from(node.sources[operand])].width;
    match node.kind {
        Kind::Input | Kind::Constant => true,
        Kind::Output | Kind::Register | Kind::Not => source(0) == width,
        Kind::AsyncRom | Kind::ClockedRom => {
            let table = &netlist.tables[usize::from(node.table)];
            source(0) == table.address_bits && width == table.width
        }
        Kind::Equal | Kind::Less => source(0) == source(1) && width == 1,
        Kind::Choose => source(0) == 1 && source(1) == width && source(2) == width,
        Kind::Part => node.word + u16::from(width) <= u16::from(source(0)),
        Kind::Join => source(0) + source(1) == width,
        _ => source(0) == width && source(1) == width,
    }
}

/// Check 8.
fn unread(nodes: &[Node], read: &[bool]) -> Result<(), Refusal> {
    let mut both = nodes.iter().zip(read);
    match both.position(|(node, read)| !read && !node.kind.is_port()) {
        Some(number) => refuse(UNREAD, number),
        None => Ok(()),
    }
}

/// Check 17.
fn unread_tables(netlist: &Netlist) -> Result<(), Refusal> {
    let read = tables_read(&netlist.nodes, netlist.tables.len());
    match read.iter().position(|read| !read) {
        Some(number) => refuse(UNREAD_TABLE, number),
        None => Ok(()),
    }
}

/// Check 9, by one depth-first search: Tarjan's components in Pearce's form. A component of
/// more than one node, or a node that reads itself, is a loop; where there is none, the nodes
/// leave the search sources first.
fn evaluation_order(nodes: &[Node]) -> Result<Vec<u16>, Refusal> {
    const UNSEEN: u16 = 0;
    const DONE: u16 = u16::MAX;
    // When a node was met, or the earliest node on the path that it was found to reach. Loops
    // do not pass ports, registers and clocked ROMs: they are done from the start.
    let mut rank: Vec<u16> = nodes
        .iter()
        .map(|n| {
            if n.kind.is_combinational() {
                UNSEEN
            } else {
                DONE
            }
        })
        .collect();
    let mut met = UNSEEN;
    let mut path = Vec::new();
    let mut open = Vec::new();
    let mut order = Vec::with_capacity(nodes.len());
    let mut lowest = None;
    for root in 0..nodes.len() as u16 {
        if rank[usize::from(root)] != UNSEEN {
            continue;
        }
        let mut number = root;
        met += 1;
        rank[usize::from(number)] = met;
        loop {
            let sources = nodes[usize::from(number)].sources();
            let ranks = sources.iter().map(|&s| rank[usize::from(s)]);
            let earliest = ranks.min().unwrap_or(DONE);
            if earliest == UNSEEN {
                let unseen = sources.iter().find(|&&s| rank[usize::from(s)] == UNSEEN);
                path.push(number);
                number = *unseen.expect("the minimum was found among them");
                met += 1;
                rank[usize::from(number)] = met;
                continue;
            }
            let own = rank[usize::from(number)];
            if earliest == DONE {
                rank[usize::from(number)] = DONE;
                order.push(number);
            } else if earliest < own {
                rank[usize::from(number)] = earliest;
                open.push(number);
            } else {
                // The first node met of a loop: those still open since then belong to it.
                open.push(number);
                while let Some(member) = open.pop_if(|n| rank[usize::from(*n)] >= own) {
                    rank[usize::from(member)] = DONE;
                    lowest = Some(lowest.map_or(member, |l: u16| l.min(member)));
                }
            }
            match path.pop() {
                Some(reader) => number = reader,
                None => break,
            }
        }
    }
    match lowest {
        Some(number) => refuse(LOOP, usize::from(number)),
        None => Ok(order),
    }
}

/// Check 10. A register has one source, so the walk back from it never branches.
fn register_order(netlist: &Netlist) -> Result<Vec<u16>, Refusal> {
    const UNSEEN: u16 = u16::MAX;
    let nodes = &netlist.nodes;
    let registers = netlist.numbers(|kind| kind == Kind::Register);
    let mut walk = vec![UNSEEN; nodes.len()];
    let mut trail = Vec::new();
    let mut order = Vec::with_capacity(registers.len());
    let mut lowest = None;
    for start in registers {
        let mut number = start;
        let is_register = |number: u16| nodes[usize::from(number)].kind == Kind::Register;
        while is_register(number) && walk[usize::from(number)] == UNSEEN {
            walk[usize::from(number)] = start;
            trail.push(number);
            number = nodes[usize::from(number)].sources[0];
        }
        // Back at a register of this same walk: the trail from there on is a ring.
        if is_register(number) && walk[usize::from(number)] == start {
            let ring = trail.iter().rev().take_while(|&&n| n != number);
            let least = ring.fold(number, |least, &n| least.min(n));
            lowest = Some(lowest.map_or(least, |l: u16| l.min(least)));
        }
        order.extend(trail.drain(..).rev());
    }
    match lowest {
        Some(number) => refuse(RING, usize::from(number)),
        None => Ok(order),
    }
}
