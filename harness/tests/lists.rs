//! Lists of runs against the runs one by one, through the harness's own implementation and through
//! the product alone; random lists are as varied as they should be; and what the benchmark steps
//! runs like the harness's runs.

use harness::checks::checked;
use harness::lent::Lent;
use harness::random::{self, Entry, List, Random};
use harness::simulate::{inputs_len, outputs_len, reset_checked, run_checked, state_len};
use harness::stepping::Stepper;
use harness::{hex, workloads, Answer, Services, OWN};

#[test]
fn own() {
    one_by_one(&OWN);
}

#[test]
#[cfg(feature = "rewrite")]
fn product() {
    one_by_one(&harness::product::SERVICES);
}

/// What was run so far.
#[derive(Debug, Default)]
struct Tally {
    files: usize,
    without_ports: usize,
    lists: usize,
    clocks: usize,
    parted: usize,
}

/// Random netlists, those with no ports among them, and large ones.
fn one_by_one(services: &Services) {
    let mut random = Random::new(40);
    let mut tally = Tally::default();
    for round in 0..1_000 {
        let design = match round % 10 {
            0 => random::without_ports(&mut random),
            1 => random::late_netlist(&mut random),
            _ => random::netlist(&mut random),
        };
        let most = if round % 100 > 97 { 1_000 } else { 12 };
        lists(services, &mut random, &mut tally, &design.file(), most);
    }
    for design in [workloads::typical(), workloads::filled()] {
        lists(services, &mut random, &mut tally, &design.file(), 1_000);
    }
    println!("{tally:?}");
    assert!(tally.without_ports >= 100 && tally.clocks > 40_000 && tally.parted > 20_000);
}

/// Lists over one state from reset on, one after the other. Each gives what its runs give one by
/// one, and so do its two parts, wherever it is parted (of a long list, at some twenty clocks).
fn lists(services: &Services, random: &mut Random, tally: &mut Tally, file: &[u8], most: usize) {
    let checked = checked(file).expect("it passes the reader");
    let rows = [inputs_len(&checked), outputs_len(&checked)];
    let mut state = Lent::random(random, state_len(&checked));
    let reset = (services.reset)(file, state.slice());
    assert!(reset.is_ok(), "{}", hex(file));
    tally.files += 1;
    tally.without_ports += usize::from(rows == [0, 0]);
    for clocks in [most, 0, random.below(most), random.below(most)] {
        let list = List::fitting(random, &checked.netlist, clocks);
        let outputs = Lent::random(random, list.rows.outputs_len);
        let in_parts = |parts: &[usize], call: Call| {
            let (mut state, mut outputs) = (state.clone(), outputs.clone());
            run_parts(rows, &list, parts, state.slice(), outputs.slice(), call);
            (state, outputs)
        };
        let one_by_one = in_parts(&vec![1; clocks], &|state, inputs, outputs, _| {
            (services.run)(file, state, inputs, outputs)
        });
        let run_list: Call = &|state, inputs, outputs, clocks| {
            (services.run_list)(file, state, inputs, outputs, clocks)
        };
        let whole = in_parts(&[clocks], run_list);
        assert!(whole == one_by_one, "{clocks} clocks: {}", hex(file));
        for first in (0..=clocks).step_by(clocks / 20 + 1) {
            let parts = [first, clocks - first];
            let parted = in_parts(&parts, run_list);
            assert!(parted == one_by_one, "{parts:?} clocks: {}", hex(file));
            tally.parted += 1;
        }
        (state, _) = one_by_one;
        tally.lists += 1;
        tally.clocks += clocks;
    }
}

/// A call for so many clocks: state, inputs, outputs, clocks.
type Call<'c> = &'c dyn Fn(&mut [u8], &[u8], &mut [u8], usize) -> Answer;

/// One call after the other for the parts of a list, each of so many clocks.
fn run_parts(
    [input_row, output_row]: [usize; 2],
    list: &List,
    parts: &[usize],
    state: &mut [u8],
    outputs: &mut [u8],
    call: Call,
) {
    let mut from = 0;
    for &clocks in parts {
        let inputs = &list.rows.inputs[from * input_row..][..clocks * input_row];
        let outputs = &mut outputs[from * output_row..][..clocks * output_row];
        assert_eq!(call(state, inputs, outputs, clocks), Ok(outputs.len()));
        from += clocks;
    }
}

#[test]
fn random_lists_are_varied() {
    let mut random = Random::new(42);
    let [mut accepted, mut no_clocks, mut too_wide, mut wrapped] = [0; 4];
    let [mut by_a_byte, mut by_a_row, mut by_a_clock, mut otherwise] = [0; 4];
    for _ in 0..10_000 {
        let file = random::netlist(&mut random).file();
        let checked = checked(&file).expect("it passes the reader");
        let list = List::any(&mut random, &checked.netlist);
        let Entry {
            inputs,
            outputs_len: outputs,
        } = &list.rows;
        let mut state = vec![0; state_len(&checked)];
        let answer =
            list.call(harness::run_list)(&file, &mut state, inputs, &mut vec![0; *outputs]);
        if answer.is_ok() {
            accepted += 1;
            no_clocks += usize::from(list.clocks == 0);
            continue;
        }
        // How much longer the rows are than they should be.
        let rows = [inputs_len(&checked), outputs_len(&checked)].map(|row| row as i128);
        let longer = |row, length: usize| length as i128 - row * list.clocks as i128;
        match [longer(rows[0], inputs.len()), longer(rows[1], *outputs)] {
            [0, 0] => too_wide += 1,
            [0, 1 | -1] | [1 | -1, 0] => by_a_byte += 1,
            [0, bytes] if bytes.abs() == rows[1] => by_a_row += 1,
            [bytes, 0] if bytes.abs() == rows[0] => by_a_row += 1,
            both if both.map(i128::abs) == rows => by_a_clock += 1,
            both if both.iter().all(|bytes| bytes % (1 << usize::BITS) == 0) => wrapped += 1,
            _ => otherwise += 1,
        }
    }
    println!("10000 lists, {accepted} accepted, {no_clocks} of these with no clocks;");
    println!("refused for a word too wide {too_wide}, for rows wrong by a byte {by_a_byte}, by a");
    println!("row {by_a_row}, by a clock {by_a_clock}, otherwise {otherwise}, and for clocks");
    println!("whose product with a row is right but for a carry {wrapped}");
    assert!(accepted > 6_000 && no_clocks > 200 && too_wide > 200 && wrapped > 20);
    assert!(by_a_byte > 50 && by_a_row > 200 && by_a_clock > 100 && otherwise > 200);
}

/// The yardstick of speed gives what the runs give.
#[test]
fn stepping_is_running() {
    let mut random = Random::new(41);
    let mut files: Vec<(Vec<u8>, usize)> = [
        workloads::typical(),
        workloads::filled(),
        workloads::typical_for_both_modes(),
        workloads::backward_chain(1_000),
        workloads::long_relaxation(),
    ]
    .map(|design| (design.file(), 500))
    .to_vec();
    for round in 0..1_500 {
        let design = match round % 5 {
            0 => random::without_ports(&mut random),
            1 => random::late_netlist(&mut random),
            _ => random::netlist(&mut random),
        };
        files.push((design.file(), 20));
    }
    for (file, clocks) in files {
        let checked = checked(&file).expect("it passes the reader");
        let mut state = vec![0; state_len(&checked)];
        reset_checked(&checked, &mut state).expect("the length is right");
        let mut stepper = Stepper::new(&checked, &state);
        for _ in 0..clocks {
            let inputs = random::inputs(&mut random, &checked.netlist);
            let mut outputs = vec![0xa5; outputs_len(&checked)];
            let mut stepped = outputs.clone();
            run_checked(&checked, &mut state, &inputs, &mut outputs).expect("all of it fits");
            stepper.step(&inputs, &mut stepped);
            assert!(stepped == outputs, "other outputs: {}", hex(&file));
            assert!(stepper.state() == state, "another state: {}", hex(&file));
        }
    }
}
