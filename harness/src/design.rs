//! A netlist under construction. Nothing is checked here: tests build bad netlists too.

use crate::format;
use crate::netlist::{leave_out_unread, mask, Kind, Netlist, Node, Table};

#[derive(Clone, Default)]
pub struct Design {
    pub tables: Vec<Words>,
    pub nodes: Vec<Node>,
}

/// A table with its words as they stand in a file.
#[derive(Clone)]
pub struct Words {
    pub address_bits: u8,
    pub width: u8,
    pub fill: Option<u16>,
    pub words: Vec<u8>,
}

impl Design {
    pub fn table(&mut self, width: u8, words: &[u16]) -> u8 {
        self.any_table(words.len().ilog2() as u8, width, None, words)
    }

    /// A table whose addresses past the last word read the fill word.
    pub fn filled_table(&mut self, address_bits: u8, width: u8, fill: u16, words: &[u16]) -> u8 {
        self.any_table(address_bits, width, Some(fill), words)
    }

    pub fn node(&mut self, node: Node) -> u16 {
        self.nodes.push(node);
        self.nodes.len() as u16 - 1
    }

    pub fn input(&mut self, width: u8) -> u16 {
        self.plain(Kind::Input, width, 0, &[])
    }

    pub fn output(&mut self, source: u16) -> u16 {
        self.plain(Kind::Output, self.width(source), 0, &[source])
    }

    pub fn register(&mut self, source: u16, reset: u16) -> u16 {
        self.plain(Kind::Register, self.width(source), reset, &[source])
    }

    /// A register whose source is still to come, by [`Design::connect`].
    pub fn loose_register(&mut self, width: u8, reset: u16) -> u16 {
        self.plain(Kind::Register, width, reset, &[0])
    }

    pub fn connect(&mut self, reader: u16, operand: usize, source: u16) {
        self.nodes[usize::from(reader)].sources[operand] = source;
    }

    pub fn async_rom(&mut self, source: u16, table: u8) -> u16 {
        let width = self.tables[usize::from(table)].width;
        let number = self.plain(Kind::AsyncRom, width, 0, &[source]);
        self.nodes[usize::from(number)].table = table;
        number
    }

    pub fn clocked_rom(&mut self, source: u16, table: u8, reset: u16) -> u16 {
        let width = self.tables[usize::from(table)].width;
        let number = self.plain(Kind::ClockedRom, width, reset, &[source]);
        self.nodes[usize::from(number)].table = table;
        number
    }

    pub fn constant(&mut self, width: u8, value: u16) -> u16 {
        self.plain(Kind::Constant, width, value & mask(width), &[])
    }

    /// A gate of the operation, which is neither a constant nor a part.
    pub fn gate(&mut self, operation: Kind, width: u8, sources: &[u16]) -> u16 {
        self.plain(operation, width, 0, sources)
    }

    pub fn part(&mut self, source: u16, lowest: u8, width: u8) -> u16 {
        self.plain(Kind::Part, width, u16::from(lowest), &[source])
    }

    pub fn kind(&self, number: u16) -> Kind {
        self.nodes[usize::from(number)].kind
    }

    pub fn width(&self, number: u16) -> u8 {
        self.nodes[usize::from(number)].width
    }

    /// Lists the nodes anew: the node at `order[i]` gets the number i.
    pub fn reorder(&mut self, order: &[u16]) {
        let mut numbers = vec![0; order.len()];
        for (new, &old) in order.iter().enumerate() {
            numbers[usize::from(old)] = new as u16;
        }
        self.nodes = order.iter().map(|&n| self.nodes[usize::from(n)]).collect();
        for node in &mut self.nodes {
            for source in &mut node.sources[..node.kind.fan_in()] {
                *source = numbers[usize::from(*source)];
            }
        }
    }

    /// The nodes that nothing reads, ports apart.
    pub fn unread(&self) -> Vec<u16> {
        let mut read = vec![false; self.nodes.len()];
        for &source in self.nodes.iter().flat_map(Node::sources) {
            if let Some(read) = read.get_mut(usize::from(source)) {
                *read = true;
            }
        }
        let unread = |n: &u16| !read[usize::from(*n)] && !self.kind(*n).is_port();
        (0..self.nodes.len() as u16).filter(unread).collect()
    }

    /// Leaves out the tables that nothing reads.
    pub fn leave_out_unread_tables(&mut self) {
        leave_out_unread(&mut self.tables, &mut self.nodes);
    }

    pub fn reverse(&mut self) {
        let order: Vec<u16> = (0..self.nodes.len() as u16).rev().collect();
        self.reorder(&order);
    }

    pub fn netlist(&self) -> Netlist<'_> {
        let tables = self.tables.iter().map(|table| Table {
            address_bits: table.address_bits,
            width: table.width,
            fill: table.fill,
            words: &table.words,
        });
        Netlist {
            tables: tables.collect(),
            nodes: self.nodes.clone(),
        }
    }

    pub fn file(&self) -> Vec<u8> {
        format::write(&self.netlist())
    }

    fn any_table(&mut self, address_bits: u8, width: u8, fill: Option<u16>, words: &[u16]) -> u8 {
        self.tables.push(Words {
            address_bits,
            width,
            fill,
            words: words.iter().flat_map(|word| word.to_be_bytes()).collect(),
        });
        self.tables.len() as u8 - 1
    }

    fn plain(&mut self, kind: Kind, width: u8, word: u16, sources: &[u16]) -> u16 {
        let mut three = [0; 3];
        three[..sources.len()].copy_from_slice(sources);
        self.node(Node {
            kind,
            width,
            table: 0,
            word,
            sources: three,
        })
    }
}
