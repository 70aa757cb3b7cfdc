//! Damage to good files: to their bytes and fields, and to the netlist in them.

use super::Random;
use crate::design::Design;
use crate::format::MAX_FILE;
use crate::netlist::{mask, Kind};

/// The file with one to three changes of its bytes.
pub fn damaged(random: &mut Random, file: &[u8]) -> Vec<u8> {
    let mut file = file.to_vec();
    if random.chance(2) {
        // About as long as check 1 allows.
        file.resize(random.between(MAX_FILE - 1, MAX_FILE + 2), random.byte());
    }
    for _ in 0..random.pick(&[1, 1, 1, 2, 3]) {
        damage(random, &mut file);
    }
    file
}

fn damage(random: &mut Random, file: &mut Vec<u8>) {
    if file.is_empty() {
        file.push(random.byte());
        return;
    }
    let at = random.below(file.len());
    let fields = fields(file);
    let (start, end) = random.pick(&fields);
    match random.below(13) {
        0 => file[at] ^= 1 << random.below(8),
        1 => file[at] = random.byte(),
        2 => file[at] = file[at].wrapping_add(random.pick(&[1, 255])),
        3 => file.truncate(at),
        4 => file.truncate(file.len() - random.between(1, 4).min(file.len())),
        5 => insert(file, at, &[random.byte()]),
        6 => drop(file.drain(at..(at + random.between(1, 4)).min(file.len()))),
        7 => file.extend((0..random.between(1, 5)).map(|_| random.byte())),
        // A length, off by a little or by much.
        8 if end - start >= 3 => {
            let byte = &mut file[start + random.pick(&[1, 2, 2, 2])];
            *byte = byte.wrapping_add(random.pick(&[1, 2, 254, 255, 128]));
        }
        // A tag.
        9 => file[start] = random.pick(&[0, 1, 2, 3, 4, 5, 6, 7, 8, 255]),
        // One of the first bytes of a content: sizes, kinds, widths, operations.
        10 if end - start > 3 => {
            let at = start + random.between(3, 6).min(end - start - 1);
            file[at] = random.pick(&[0, 1, 2, 3, 4, 5, 6, 10, 11, 12, 16, 17, 255]);
        }
        // A field twice.
        11 => {
            let copy = file[start..end].to_vec();
            insert(file, random.pick(&fields).0, &copy);
        }
        // A field at another place.
        _ => {
            let moved: Vec<u8> = file.drain(start..end).collect();
            let to = random.pick(&fields).0.min(file.len());
            insert(file, to, &moved);
        }
    }
}

fn insert(file: &mut Vec<u8>, at: usize, bytes: &[u8]) {
    file.splice(at..at, bytes.iter().copied());
}

/// Start and end of each field, as far as the file holds together; the last one may be cut.
pub fn fields(file: &[u8]) -> Vec<(usize, usize)> {
    let mut fields = Vec::new();
    let mut start = 0;
    while start < file.len() {
        let length = match &file[start..] {
            [_, high, low, ..] => usize::from(u16::from_be_bytes([*high, *low])),
            _ => 0,
        };
        let end = (start + 3 + length).min(file.len());
        fields.push((start, end));
        start = end;
    }
    fields
}

/// The netlist with one to three of its nodes changed: other sources, widths, tables. Files of
/// such netlists pass checks 1 to 5, most of them.
pub fn rewired(random: &mut Random, design: &Design) -> Design {
    let mut design = design.clone();
    if design.nodes.is_empty() {
        return design;
    }
    for _ in 0..random.between(1, 3) {
        let number = random.below(design.nodes.len());
        let tables = design.tables.len();
        let node = &mut design.nodes[number];
        match random.below(8) {
            0 => node.width = random.between(1, 16) as u8,
            1 if node.kind.is_rom() => node.table = random.between(0, tables) as u8,
            2 if node.kind == Kind::Part => {
                node.word = random.pick(&[0, 1, 2, 8, 15, 16, 255]);
            }
            3 if node.kind == Kind::Register => node.kind = Kind::Not,
            4 if node.kind == Kind::Not => node.kind = Kind::Register,
            _ if node.kind.fan_in() > 0 => {
                let operand = random.below(node.kind.fan_in());
                let source = other_source(random, &design, number, operand);
                design.connect(number as u16, operand, source as u16);
            }
            _ => {}
        }
        // A word must still fit, or check 5 comes before all that is meant here.
        let node = &mut design.nodes[number];
        if node.kind != Kind::Part {
            node.word &= mask(node.width);
        }
    }
    // A source taken away often leaves a node unread, and then nothing is seen of 9 to 12.
    if random.chance(70) {
        for number in design.unread() {
            design.output(number);
        }
    }
    design
}

/// Another source for an operand: often one of the same width, so that later checks are
/// reached.
fn other_source(random: &mut Random, design: &Design, number: usize, operand: usize) -> usize {
    let count = design.nodes.len();
    let old = usize::from(design.nodes[number].sources[operand]);
    if let Some(old) = design.nodes.get(old).filter(|_| random.chance(75)) {
        let alike = |n: &usize| design.nodes[*n].width == old.width;
        let alike: Vec<usize> = (0..count).filter(alike).collect();
        return random.pick(&alike);
    }
    match random.below(8) {
        0 => count + random.pick(&[0, 1, 1024, 40_000]),
        1 => number,
        _ => random.below(count),
    }
}
