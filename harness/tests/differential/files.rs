//! What is given to the product and to the harness.

use harness::random::{self, Random};
use harness::workloads;

/// A file of any sort, most of them with something wrong.
pub fn any_file(random: &mut Random) -> Vec<u8> {
    match random.below(11) {
        0..=2 => random::netlist(random).file(),
        3..=5 => {
            let file = random::netlist(random).file();
            random::damaged(random, &file)
        }
        6 | 7 => {
            let design = random::netlist(random);
            random::rewired(random, &design).file()
        }
        8 => match random.chance(50) {
            true => random::closed_debt(random).file(),
            false => random::port_debt(random).file(),
        },
        9 => random::grown(random).0.file(),
        _ => random::changed_table(random).0,
    }
}

/// A file of any sort for the late start.
#[cfg(feature = "rewrite")]
pub fn any_late_file(random: &mut Random) -> Vec<u8> {
    match random.below(12) {
        0..=4 => random::late_netlist(random).file(),
        5 => {
            let file = random::late_netlist(random).file();
            random::damaged(random, &file)
        }
        6 | 7 => {
            let design = random::late_netlist(random);
            random::rewired(random, &design).file()
        }
        8 => random::grown_late(random).0.file(),
        _ => any_file(random),
    }
}

/// The named workloads.
pub fn workload_files() -> Vec<Vec<u8>> {
    let designs = [
        workloads::typical(),
        workloads::filled(),
        workloads::forward_chain(1_000),
        workloads::backward_chain(1_000),
        workloads::deep_registers(),
        workloads::deep_shared_registers(),
        workloads::long_relaxation(),
        workloads::long_relaxation_backwards(),
        workloads::largest_leads(),
        workloads::large_ring(),
        workloads::closed_debt(),
        workloads::far_loop(),
        workloads::far_loop_backwards(),
        workloads::far_ring(),
        workloads::sensors(),
        workloads::deep_sensor(),
        workloads::typical_late(),
        workloads::closed_debt_before_an_output(),
    ];
    designs.iter().map(|design| design.file()).collect()
}

/// Every cut of a file, and the file with every single byte of it changed.
pub fn cuts_and_changes(random: &mut Random, file: &[u8]) -> Vec<Vec<u8>> {
    let mut others = Vec::new();
    for at in 0..file.len() {
        others.push(file[..at].to_vec());
        for change in [1, 2, 3, 16, 128, random.byte()] {
            let mut other = file.to_vec();
            other[at] ^= change;
            others.push(other);
        }
    }
    others
}

/// A well-formed file of at most 250 bytes, every other one with a fill word.
pub fn small_file(random: &mut Random) -> Vec<u8> {
    let netlist = match random.chance(50) {
        true => random::filled_netlist,
        false => random::netlist,
    };
    loop {
        let file = netlist(random).file();
        if file.len() <= 250 {
            return file;
        }
    }
}
