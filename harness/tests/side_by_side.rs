//! Old files and those rewritten in both modes, side by side from reset on, with the same entries
//! and lists of runs, refused ones among them: through the harness's own implementation and through
//! the product alone.

use harness::checks::checked;
use harness::random::{self, Entry, List, Random};
use harness::refusal::{GROWN, WORDS};
use harness::{Services, OWN};

#[test]
fn own() {
    netlists(&OWN);
}

#[test]
fn own_for_the_late_start() {
    late_netlists(&OWN);
}

#[test]
#[cfg(feature = "rewrite")]
fn product() {
    netlists(&harness::product::SERVICES);
}

#[test]
#[cfg(feature = "rewrite")]
fn product_for_the_late_start() {
    late_netlists(&harness::product::SERVICES);
}

/// Netlists that the plain mode accepts, and so does the late start, unless they grow too large.
fn netlists(services: &Services) {
    let mut random = Random::new(31);
    let mut tally = Tally::default();
    for round in 0..2_500 {
        let old = random::netlist(&mut random).file();
        let clocks = if round % 100 == 0 { 1_000 } else { 40 };
        let [plain, late] = services.in_both_modes(&old);
        for refusal in [&plain, &late]
            .into_iter()
            .filter_map(|new| new.as_ref().err())
        {
            assert_eq!(refusal.number, GROWN);
        }
        let new = [plain, late].into_iter().flatten();
        run(
            services,
            &mut random,
            &mut tally,
            clocks,
            old,
            new.collect(),
        );
    }
    tally.print("netlists");
}

/// Netlists for the late start, most of which the plain mode refuses, and what becomes of a
/// late-started file that is rewritten again.
fn late_netlists(services: &Services) {
    let mut random = Random::new(37);
    let mut tally = Tally::default();
    let mut again = 0;
    for round in 0..2_000 {
        let old = match round % 4 {
            0 => random::port_debt(&mut random).file(),
            _ => random::late_netlist(&mut random).file(),
        };
        let clocks = if round % 100 == 0 { 1_000 } else { 40 };
        let [plain, late] = services.in_both_modes(&old);
        let mut new: Vec<Vec<u8>> = plain.into_iter().collect();
        if let Ok(late) = late {
            // Nothing of it is asynchronous, so that it can only grow too large.
            for twice in services.in_both_modes(&late) {
                match twice {
                    Ok(twice) => {
                        new.push(twice);
                        again += 1;
                    }
                    Err(refusal) => assert_eq!(refusal.number, GROWN),
                }
            }
            new.push(late);
        }
        run(services, &mut random, &mut tally, clocks, old, new);
    }
    tally.print("netlists for the late start");
    println!("{again} of the new files are late-started ones rewritten again");
}

/// What was run so far.
#[derive(Default)]
struct Tally {
    old_files: usize,
    new_files: usize,
    /// Runs, and lists of runs.
    calls: [usize; 2],
    refused: [usize; 2],
}

impl Tally {
    fn print(&self, name: &str) {
        let Tally {
            old_files,
            new_files,
            calls,
            refused,
        } = self;
        println!("{name}: {old_files} with {new_files} rewritten ones");
        assert!(*new_files > *old_files);
        for (what, (calls, refused)) in ["runs", "lists"].iter().zip(calls.iter().zip(refused)) {
            println!("{name}: {calls} {what} of each, {refused} of them refused");
            assert!(*refused > *calls / 20 && *refused < *calls / 2);
        }
    }
}

/// The old file beside the new ones, where there are any.
fn run(
    services: &Services,
    random: &mut Random,
    tally: &mut Tally,
    clocks: usize,
    old: Vec<u8>,
    new: Vec<Vec<u8>>,
) {
    if new.is_empty() {
        return;
    }
    tally.old_files += 1;
    tally.new_files += new.len();
    let netlist = checked(&old).expect("it passes the reader").netlist;
    let files = [vec![old.clone()], new].concat();
    let mut side_by_side = services.side_by_side(random, files);
    let mut last_outputs = Vec::new();
    for _ in 0..clocks {
        let is_list = random.chance(10);
        let (answer, outputs) = if is_list {
            let list = List::any(random, &netlist);
            side_by_side.run_list(random, &list)
        } else {
            let mut entry = Entry::any(random, &netlist);
            if random.chance(10) {
                // Inputs may come from earlier outputs.
                entry.inputs.clone_from(&last_outputs);
            }
            side_by_side.run(random, &entry)
        };
        tally.calls[usize::from(is_list)] += 1;
        match answer {
            Ok(_) => last_outputs = outputs,
            Err(refusal) => {
                assert_eq!(refusal.number, WORDS, "only 15 can come up");
                tally.refused[usize::from(is_list)] += 1;
            }
        }
    }
}
