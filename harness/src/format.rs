//! Reading a file (checks 1 to 5) and writing one.

use crate::netlist::{fits, Kind, Netlist, Node, Table, MAX_NODES, MAX_TABLES};
use crate::refusal::{refuse, Refusal, LONG, NODE, SHORT, TABLE, TAG};

pub const MAX_FILE: usize = 46_000;

/// The tag byte and the two bytes of length.
const HEADER: usize = 3;

const TAG_HEAD: u8 = 1;
pub const TAG_TABLE: u8 = 2;
const TAG_NODE: u8 = 3;
const TAG_END: u8 = 4;
pub const TAG_FILLED_TABLE: u8 = 5;

/// The kind byte of a gate. Its operation follows the width.
const GATE: u8 = 5;

/// Reads a file field by field. The tables' words stay where they are, in the file.
pub fn read(file: &[u8]) -> Result<Netlist<'_>, Refusal> {
    if file.len() > MAX_FILE {
        return refuse(LONG, 0);
    }
    if field(file, 0)? != (TAG_HEAD, &[1]) {
        return refuse(TAG, 0);
    }
    let (tables, offset) = tables(file, HEADER + 1)?;
    let nodes = nodes(file, offset)?;
    Ok(Netlist { tables, nodes })
}

/// The offsets of a well-formed file's fields with their tags, by adding whole lengths up: tag,
/// length and content. Behind the last of them the file ends.
pub fn offsets(file: &[u8]) -> Result<Vec<(usize, u8)>, Refusal> {
    let mut offsets = Vec::new();
    let mut offset = 0;
    while offset < file.len() {
        let (tag, content) = field(file, offset)?;
        offsets.push((offset, tag));
        offset += HEADER + content.len();
    }
    Ok(offsets)
}

/// The tables from the offset on, and where the first field begins that is none.
fn tables(file: &[u8], mut offset: usize) -> Result<(Vec<Table<'_>>, usize), Refusal> {
    let mut tables = Vec::new();
    loop {
        let (tag, content) = field(file, offset)?;
        let table = match tag {
            TAG_TABLE => table(content),
            TAG_FILLED_TABLE => filled_table(content),
            _ => return Ok((tables, offset)),
        };
        match table {
            Some(table) if tables.len() < MAX_TABLES => tables.push(table),
            _ => return refuse(TABLE, offset),
        }
        offset += HEADER + content.len();
    }
}

/// The nodes from the offset on, behind which the file ends.
fn nodes(file: &[u8], mut offset: usize) -> Result<Vec<Node>, Refusal> {
    let mut nodes = Vec::with_capacity(MAX_NODES);
    loop {
        let (tag, content) = field(file, offset)?;
        match tag {
            TAG_NODE => match node(content.len(), window(&file[offset + HEADER..])) {
                Some(node) if nodes.len() < MAX_NODES => nodes.push(node),
                _ => return refuse(NODE, offset),
            },
            TAG_END if content.is_empty() => {
                let end = offset + HEADER;
                if end < file.len() {
                    return refuse(TAG, end);
                }
                return Ok(nodes);
            }
            // A table among them: it comes too late.
            _ => return refuse(TAG, offset),
        }
        offset += HEADER + content.len();
    }
}

/// The tag and the content of the field at the offset. At the file's end this is check 2 too:
/// a field was still to come.
fn field(file: &[u8], offset: usize) -> Result<(u8, &[u8]), Refusal> {
    if let [tag, high, low, rest @ ..] = &file[offset..] {
        let length = usize::from(u16::from_be_bytes([*high, *low]));
        if let Some(content) = rest.get(..length) {
            return Ok((*tag, content));
        }
    }
    refuse(SHORT, offset)
}

/// The content of a table that stores all its words.
fn table(content: &[u8]) -> Option<Table<'_>> {
    let [address_bits @ 1..=10, width @ 1..=16, words @ ..] = content else {
        return None;
    };
    let table = Table {
        address_bits: *address_bits,
        width: *width,
        fill: None,
        words,
    };
    (words.len() == 2 << address_bits && all_fit(&table)).then_some(table)
}

/// The content of a table with a fill word, which stores one word at least and may store all.
fn filled_table(content: &[u8]) -> Option<Table<'_>> {
    let [address_bits @ 1..=10, width @ 1..=16, high, low, words @ ..] = content else {
        return None;
    };
    let table = Table {
        address_bits: *address_bits,
        width: *width,
        fill: Some(u16::from_be_bytes([*high, *low])),
        words,
    };
    let (stored, odd) = words.as_chunks::<2>();
    let is_length = odd.is_empty() && (1..=1 << address_bits).contains(&stored.len());
    (is_length && all_fit(&table)).then_some(table)
}

/// Whether no word is too wide, the fill word among them, be it read or not.
fn all_fit(table: &Table) -> bool {
    // All words at once: one that is too wide leaves a high bit in their union. The order of
    // the two bytes does not matter to a union, so they are put right once, at the end.
    let union = table.words.chunks_exact(2).fold(0, |union, word| {
        union | u16::from_ne_bytes([word[0], word[1]])
    });
    fits(u16::from_be(union) | table.fill.unwrap_or(0), table.width)
}

/// How the content of a node is laid out. Kind and width stand first; a gate's operation comes
/// next; a ROM's table stands behind its source.
struct Layout {
    kind: Kind,
    length: usize,
    /// Where the sources begin, two bytes each.
    sources: usize,
    /// Where the word stands, and which of the bits there are its own.
    word: (usize, u16),
}

/// The layouts of the kinds below the gates, then of the gates by operation.
const LAYOUTS: [Layout; 17] = [
    layout(Kind::Input, 2, 2, (0, 0)),
    layout(Kind::Output, 4, 2, (0, 0)),
    layout(Kind::Register, 6, 2, (4, 0xffff)),
    layout(Kind::AsyncRom, 5, 2, (0, 0)),
    layout(Kind::ClockedRom, 7, 2, (5, 0xffff)),
    layout(Kind::Constant, 5, 3, (3, 0xffff)),
    layout(Kind::Not, 5, 3, (0, 0)),
    layout(Kind::And, 7, 3, (0, 0)),
    layout(Kind::Or, 7, 3, (0, 0)),
    layout(Kind::Xor, 7, 3, (0, 0)),
    layout(Kind::Add, 7, 3, (0, 0)),
    layout(Kind::Subtract, 7, 3, (0, 0)),
    layout(Kind::Equal, 7, 3, (0, 0)),
    layout(Kind::Less, 7, 3, (0, 0)),
    layout(Kind::Choose, 9, 3, (0, 0)),
    // One byte, the lowest bit taken; the byte before it ends the source.
    layout(Kind::Part, 6, 3, (4, 0x00ff)),
    layout(Kind::Join, 7, 3, (0, 0)),
];

const fn layout(kind: Kind, length: usize, sources: usize, word: (usize, u16)) -> Layout {
    Layout {
        kind,
        length,
        sources,
        word,
    }
}

/// Where a ROM's table stands.
const TABLE_AT: usize = 4;

/// The length of the longest content of a node.
const LONGEST: usize = 9;

/// A node's content, with whatever follows it up to the longest.
type Window = [u8; LONGEST];

fn window(bytes: &[u8]) -> Window {
    match bytes.first_chunk() {
        Some(window) => *window,
        None => {
            let mut window = [0; LONGEST];
            window[..bytes.len()].copy_from_slice(bytes);
            window
        }
    }
}

/// Decodes a content of the given length. Nearly without branches: kinds follow no pattern, so
/// branches on them would be predicted wrong.
fn node(length: usize, window: Window) -> Option<Node> {
    let [kind, width @ 1..=16, operation, ..] = window else {
        return None;
    };
    if kind > GATE {
        return None;
    }
    let operation = if kind == GATE { operation } else { 0 };
    let layout = LAYOUTS.get(usize::from(kind) + usize::from(operation))?;
    let number = |at: usize| u16::from_be_bytes([window[at], window[at + 1]]);
    let source = |operand: usize| match operand < layout.kind.fan_in() {
        true => number(layout.sources + 2 * operand),
        false => 0,
    };
    let (at, mask) = layout.word;
    let word = number(at) & mask;
    // A part's lowest bit is any byte here; check 7 compares it with the source's width.
    let fits = fits(word, width) | (layout.kind == Kind::Part);
    (length == layout.length && fits).then_some(Node {
        kind: layout.kind,
        width,
        table: match layout.kind.is_rom() {
            true => window[TABLE_AT],
            false => 0,
        },
        word,
        sources: [source(0), source(1), source(2)],
    })
}

/// The length of a table's content.
fn table_len(table: &Table) -> usize {
    let fill = if table.fill.is_some() { 2 } else { 0 };
    2 + fill + table.words.len()
}

/// Where the tables end in the netlist's file.
pub fn tables_end(netlist: &Netlist) -> usize {
    let tables = netlist.tables.iter().map(|t| HEADER + table_len(t));
    HEADER + 1 + tables.sum::<usize>()
}

/// The length of the netlist's file.
pub fn file_len(netlist: &Netlist) -> usize {
    let nodes = netlist
        .nodes
        .iter()
        .map(|n| HEADER + LAYOUTS[n.kind as usize].length);
    tables_end(netlist) + nodes.sum::<usize>() + HEADER
}

/// The netlist's file. Any netlist can be written, also one that the reader refuses.
pub fn write(netlist: &Netlist) -> Vec<u8> {
    let mut file = vec![0; file_len(netlist)];
    write_to(netlist, &mut file);
    file
}

/// Writes the netlist's file into a slice of its length.
pub fn write_to(netlist: &Netlist, mut file: &mut [u8]) {
    put(&mut file, &[TAG_HEAD, 0, 1, 1]);
    for table in &netlist.tables {
        let tag = match table.fill {
            Some(_) => TAG_FILLED_TABLE,
            None => TAG_TABLE,
        };
        let [high, low] = (table_len(table) as u16).to_be_bytes();
        put(
            &mut file,
            &[tag, high, low, table.address_bits, table.width],
        );
        if let Some(fill) = table.fill {
            put(&mut file, &fill.to_be_bytes());
        }
        put(&mut file, table.words);
    }
    for node in &netlist.nodes {
        let layout = &LAYOUTS[node.kind as usize];
        put(&mut file, &[TAG_NODE, 0, layout.length as u8]);
        match file.first_chunk_mut() {
            // In place; what the content does not fill is written over by the next field.
            Some(window) => encode(node, layout, window),
            None => {
                let mut window = [0; LONGEST];
                encode(node, layout, &mut window);
                file[..layout.length].copy_from_slice(&window[..layout.length]);
            }
        }
        file = &mut file[layout.length..];
    }
    put(&mut file, &[TAG_END, 0, 0]);
}

fn put(file: &mut &mut [u8], bytes: &[u8]) {
    let (start, rest) = std::mem::take(file).split_at_mut(bytes.len());
    start.copy_from_slice(bytes);
    *file = rest;
}

/// Writes a node's content; the bytes past its length are of no meaning. What a node does not
/// have is 0 in it and changes nothing here.
fn encode(node: &Node, layout: &Layout, content: &mut Window) {
    let gate = usize::from(GATE);
    let code = node.kind as usize;
    content[0] = code.min(gate) as u8;
    content[1] = node.width;
    content[2] = code.saturating_sub(gate) as u8;
    for (operand, source) in node.sources.iter().enumerate() {
        let at = layout.sources + 2 * operand;
        content[at..at + 2].copy_from_slice(&source.to_be_bytes());
    }
    content[TABLE_AT] |= node.table;
    let (at, _) = layout.word;
    let [high, low] = node.word.to_be_bytes();
    content[at] |= high;
    content[at + 1] |= low;
}
