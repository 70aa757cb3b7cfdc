//! A netlist in memory: tables and nodes, each decoded once.

pub const MAX_TABLES: usize = 16;
pub const MAX_NODES: usize = 1024;

/// The kinds of node, by their number in the file; each operation of a gate counts as a kind.
#[derive(Clone, Copy, Debug, PartialEq, Eq)]
pub enum Kind {
    Input,
    Output,
    Register,
    AsyncRom,
    ClockedRom,
    Constant,
    Not,
    And,
    Or,
    Xor,
    Add,
    Subtract,
    Equal,
    Less,
    Choose,
    Part,
    Join,
}

/// How many sources each kind has.
const FAN_IN: [u8; 17] = [0, 1, 1, 1, 1, 0, 1, 2, 2, 2, 2, 2, 2, 2, 3, 1, 2];

/// Twelve bytes, so that the largest netlist stays in the first-level cache.
#[derive(Clone, Copy, Debug, PartialEq, Eq)]
pub struct Node {
    pub kind: Kind,
    pub width: u8,
    /// The number of a ROM's table, else 0.
    pub table: u8,
    /// A reset word, a constant, or the lowest bit of a part, else 0.
    pub word: u16,
    /// The operands; 0 past the fan-in.
    pub sources: [u16; 3],
}

#[derive(Clone, Copy, Debug, PartialEq, Eq)]
pub struct Table<'a> {
    pub address_bits: u8,
    pub width: u8,
    /// What an address past the last stored word reads. A table without it stores all words.
    pub fill: Option<u16>,
    /// The stored words as they stand in the file, two bytes each.
    pub words: &'a [u8],
}

#[derive(Clone, Debug, PartialEq, Eq)]
pub struct Netlist<'a> {
    pub tables: Vec<Table<'a>>,
    pub nodes: Vec<Node>,
}

impl Kind {
    pub const GATES: [Kind; 12] = [
        Kind::Constant,
        Kind::Not,
        Kind::And,
        Kind::Or,
        Kind::Xor,
        Kind::Add,
        Kind::Subtract,
        Kind::Equal,
        Kind::Less,
        Kind::Choose,
        Kind::Part,
        Kind::Join,
    ];

    pub fn fan_in(self) -> usize {
        usize::from(FAN_IN[self as usize])
    }

    pub fn is_port(self) -> bool {
        matches!(self, Kind::Input | Kind::Output)
    }

    pub fn is_rom(self) -> bool {
        matches!(self, Kind::AsyncRom | Kind::ClockedRom)
    }

    pub fn is_gate(self) -> bool {
        self as u8 >= Kind::Constant as u8
    }

    /// Holds a word of the state.
    pub fn is_clocked(self) -> bool {
        matches!(self, Kind::Register | Kind::ClockedRom)
    }

    /// Gives its word within the clock.
    pub fn is_combinational(self) -> bool {
        self == Kind::AsyncRom || self.is_gate()
    }
}

impl Node {
    pub fn sources(&self) -> &[u16] {
        &self.sources[..self.kind.fan_in()]
    }
}

impl Table<'_> {
    pub fn word(&self, address: u16) -> u16 {
        let (words, _) = self.words.as_chunks();
        match words.get(usize::from(address)) {
            Some(word) => u16::from_be_bytes(*word),
            None => self.fill.expect("without a fill word all are stored"),
        }
    }
}

impl Netlist<'_> {
    /// How many nodes are of the kind.
    pub fn count(&self, kind: Kind) -> usize {
        self.nodes.iter().filter(|node| node.kind == kind).count()
    }

    /// The numbers of the nodes of some kinds. Every number is put down and then kept or not:
    /// kinds follow no pattern, and a branch on them would be predicted wrong.
    pub fn numbers(&self, chosen: impl Fn(Kind) -> bool) -> Vec<u16> {
        let mut numbers = vec![0; self.nodes.len()];
        let mut count = 0;
        for (number, node) in self.nodes.iter().enumerate() {
            numbers[count] = number as u16;
            count += usize::from(chosen(node.kind));
        }
        numbers.truncate(count);
        numbers
    }
}

/// Which of so many tables a ROM reads.
pub fn tables_read(nodes: &[Node], tables: usize) -> Vec<bool> {
    let mut read = vec![false; tables];
    for node in nodes.iter().filter(|node| node.kind.is_rom()) {
        read[usize::from(node.table)] = true;
    }
    read
}

/// Leaves out the tables that no ROM reads, and numbers the others anew.
pub fn leave_out_unread<T>(tables: &mut Vec<T>, nodes: &mut [Node]) {
    let read = tables_read(nodes, tables.len());
    let number = |table: u8| read[..usize::from(table)].iter().filter(|&&r| r).count() as u8;
    let numbers: Vec<u8> = (0..tables.len() as u8).map(number).collect();
    for node in nodes.iter_mut().filter(|node| node.kind.is_rom()) {
        node.table = numbers[usize::from(node.table)];
    }
    let mut read = read.into_iter();
    tables.retain(|_| read.next() == Some(true));
}

/// Whether the word is below 2^width.
pub fn fits(word: u16, width: u8) -> bool {
    u32::from(word) >> width == 0
}

/// The largest word of the width (1 to 16).
pub fn mask(width: u8) -> u16 {
    u16::MAX >> (16 - width)
}
