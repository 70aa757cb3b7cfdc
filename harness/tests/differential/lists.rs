//! Lists of runs.

use harness::checks::checked;
use harness::product;
use harness::random::{self, Entry, List, Random};
use harness::refusal::{CLOSED_DEBT, GROWN, OUT, PORT_DEBT};
use harness::simulate::{reset_checked, state_len};
use harness::ListOfClocks;

use super::files::any_file;
use super::runs::compare;
use super::tally::Tally;

/// Lists and states of any sort, several lists over one state.
#[test]
fn run_list() {
    let mut random = Random::new(23);
    let mut tally = Tally::default();
    for _ in 0..5_000 {
        let file = match random.chance(5) {
            true => random::without_ports(&mut random).file(),
            false => any_file(&mut random),
        };
        let Ok(checked) = checked(&file) else {
            // Refused before anything lent is looked at, and before any clock.
            let list = List {
                clocks: usize::MAX,
                rows: Entry {
                    inputs: vec![0; 2],
                    outputs_len: 2,
                },
            };
            compare_list(&mut tally, &mut random, &file, &mut [1; 4], &list);
            continue;
        };
        tally.files += 1;
        let mut state = vec![0; state_len(&checked)];
        reset_checked(&checked, &mut state).expect("the length is right");
        for _ in 0..12 {
            let list = List::any(&mut random, &checked.netlist);
            compare_list(&mut tally, &mut random, &file, &mut state, &list);
        }
    }
    tally.print("lists of runs");
    tally.all_came_up_but(&[CLOSED_DEBT, PORT_DEBT, GROWN, OUT]);
}

fn compare_list(
    tally: &mut Tally,
    random: &mut Random,
    file: &[u8],
    state: &mut [u8],
    list: &List,
) {
    let services: [ListOfClocks; 2] = [harness::run_list, product::run_list];
    let calls = services.map(|run_list| list.call(run_list));
    compare(tally, random, file, state, &list.rows, calls);
}
