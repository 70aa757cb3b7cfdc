//! The specification's own bench netlists, with the answers it gives for them.

use harness::checks::checked;
use harness::design::Design;
use harness::format;
use harness::netlist::{Kind, Netlist, Node};
use harness::previewed::{compare_preview, Previewed};
use harness::simulate::{outputs_len, state_len};
use harness::{Answer, ListOfClocks, OnBytes, OneClock, Preview, Refusal};

const REWRITERS: &[OnBytes] = &[
    harness::rewrite,
    #[cfg(feature = "rewrite")]
    harness::product::rewrite,
];

const LATE_STARTS: &[OnBytes] = &[
    harness::rewrite_late,
    #[cfg(feature = "rewrite")]
    harness::product::rewrite_late,
];

const PREVIEWS: &[(&str, Preview)] = &[
    ("own", harness::preview),
    #[cfg(feature = "rewrite")]
    ("product", harness::product::preview),
];

const RUNS: &[(OnBytes, OneClock, ListOfClocks)] = &[
    (harness::reset, harness::run, harness::run_list),
    #[cfg(feature = "run")]
    (
        harness::product::reset,
        harness::product::run,
        harness::product::run_list,
    ),
];

const NO_INPUTS: &[u8] = &[];

fn rewritten(file: &[u8]) -> Result<Vec<u8>, Refusal> {
    rewritten_by(REWRITERS, file)
}

/// Rewrites the file by each of them; gives the new file, or the refusal.
fn rewritten_by(rewriters: &[OnBytes], file: &[u8]) -> Result<Vec<u8>, Refusal> {
    let each = rewriters.iter().map(|rewrite| {
        let mut out = vec![0; 1_000];
        let length = rewrite(file, &mut out)?;
        Ok(out[..length].to_vec())
    });
    let mut answers: Vec<_> = each.collect();
    let answer = answers.remove(0);
    assert!(answers.iter().all(|other| *other == answer));
    answer
}

fn refused(design: &Design, number: u16, place: u16) {
    let refusal = Refusal { number, place };
    assert_eq!(rewritten(&design.file()), Err(refusal));
    preview_is(&design.file(), Err(refusal));
}

/// Previews the file: clocked ROMs, registers, length, largest lead; registers by source.
fn size_is(file: &[u8], numbers: [usize; 4], by_source: &[u16]) {
    preview_is(file, Ok(Previewed::new(numbers, by_source.to_vec())));
}

fn preview_is(file: &[u8], expected: Result<Previewed, Refusal>) {
    for (name, preview) in PREVIEWS {
        compare_preview(name, *preview, file, &expected);
    }
}

/// Runs a file with one output port from reset, with the inputs, one by one and in one list, and
/// compares the outputs.
fn outputs_are(file: &[u8], inputs: &[&[u8]], outputs: &[u16]) {
    let checked = checked(file).expect("accepted");
    for (reset, run, run_list) in RUNS {
        let mut state = vec![0; state_len(&checked)];
        assert_eq!(reset(file, &mut state), Ok(state.len()));
        let mut listed = state.clone();
        for (inputs, expected) in inputs.iter().zip(outputs) {
            let mut output = vec![0; outputs_len(&checked)];
            assert_eq!(run(file, &mut state, inputs, &mut output), Ok(output.len()));
            assert_eq!(output, expected.to_be_bytes());
        }
        let all: Vec<u8> = outputs.iter().flat_map(|word| word.to_be_bytes()).collect();
        let mut rows = vec![0; all.len()];
        let answer = run_list(file, &mut listed, &inputs.concat(), &mut rows, inputs.len());
        assert_eq!((answer, rows, listed), (Ok(all.len()), all, state));
    }
}

/// The nodes of a rewritten file.
fn nodes(file: &[u8]) -> Vec<Node> {
    let Netlist { nodes, .. } = harness::format::read(file).expect("accepted");
    nodes
}

fn one_bit() -> Design {
    let mut design = Design::default();
    design.table(1, &[1, 0]);
    design
}

#[test]
fn empty() {
    let file = [1, 0, 1, 1, 4, 0, 0];
    assert_eq!(rewritten(&file), Ok(file.to_vec()));
    size_is(&file, [0, 0, 7, 0], &[]);
}

#[test]
fn adder() {
    let mut design = Design::default();
    design.table(2, &[3, 1, 2, 2]);
    let register = design.loose_register(2, 1);
    let rom = design.async_rom(register, 0);
    let add = design.gate(Kind::Add, 2, &[register, rom]);
    design.connect(register, 0, add);
    design.output(register);
    let old = design.file();
    let new = [
        0x01, 0x00, 0x01, 0x01, 0x02, 0x00, 0x0A, 0x02, 0x02, 0x00, 0x03, 0x00, 0x01, 0x00, 0x02,
        0x00, 0x02, 0x03, 0x00, 0x07, 0x04, 0x02, 0x00, 0x01, 0x00, 0x00, 0x01, 0x03, 0x00, 0x07,
        0x05, 0x02, 0x05, 0x00, 0x03, 0x00, 0x00, 0x03, 0x00, 0x04, 0x01, 0x02, 0x00, 0x04, 0x03,
        0x00, 0x06, 0x02, 0x02, 0x00, 0x01, 0x00, 0x01, 0x03, 0x00, 0x06, 0x02, 0x02, 0x00, 0x01,
        0x00, 0x01, 0x04, 0x00, 0x00,
    ];
    assert_eq!(rewritten(&old), Ok(new.to_vec()));
    // Head, table, five nodes, end: each where the one before it ends.
    let offsets = format::offsets(&new).expect("the new file is well formed");
    let offsets: Vec<usize> = offsets.into_iter().map(|(offset, _)| offset).collect();
    assert_eq!(offsets, [0, 4, 17, 27, 37, 44, 53, 62]);
    // The ROM, the adder, from which both registers come, and the port.
    size_is(&old, [1, 2, 65, 1], &[0, 2, 0]);
    outputs_are(&old, &[NO_INPUTS; 5], &[1, 2, 0, 3, 1]);
    outputs_are(&new, &[NO_INPUTS; 5], &[1, 2, 0, 3, 1]);
}

#[test]
fn toggle() {
    let mut design = one_bit();
    let register = design.loose_register(1, 0);
    let rom = design.async_rom(register, 0);
    design.connect(register, 0, rom);
    design.output(rom);
    let new = rewritten(&design.file()).expect("accepted");
    let mut expected = one_bit();
    expected.clocked_rom(0, 0, 1);
    expected.output(0);
    assert_eq!(new, expected.file());
    size_is(&design.file(), [1, 0, 33, 1], &[0; 2]);
    outputs_are(&design.file(), &[NO_INPUTS; 4], &[1, 0, 1, 0]);
    outputs_are(&new, &[NO_INPUTS; 4], &[1, 0, 1, 0]);
}

#[test]
fn input_rom_output() {
    let mut design = one_bit();
    let port = design.input(1);
    let rom = design.async_rom(port, 0);
    design.output(rom);
    refused(&design, 12, 0);
}

#[test]
fn input_register_rom_output() {
    for (reset, word) in [(0, 1), (1, 0)] {
        let mut design = one_bit();
        let port = design.input(1);
        let register = design.register(port, reset);
        let rom = design.async_rom(register, 0);
        design.output(rom);
        let new = rewritten(&design.file()).expect("accepted");
        let mut expected = one_bit();
        let port = expected.input(1);
        let rom = expected.clocked_rom(port, 0, word);
        expected.output(rom);
        assert_eq!(new, expected.file());
        size_is(&design.file(), [1, 0, 38, 1], &[0; 3]);
        outputs_are(&new, &[&[0, 0], &[0, 1], &[0, 0]], &[word, 1, 0]);
    }
}

#[test]
fn input_rom_register_output() {
    for reset in [0, 1] {
        let mut design = one_bit();
        let port = design.input(1);
        let rom = design.async_rom(port, 0);
        let register = design.register(rom, reset);
        design.output(register);
        let new = rewritten(&design.file()).expect("accepted");
        let mut expected = one_bit();
        let port = expected.input(1);
        let rom = expected.clocked_rom(port, 0, reset);
        expected.output(rom);
        assert_eq!(new, expected.file());
        size_is(&design.file(), [1, 0, 38, 0], &[0; 3]);
    }
}

#[test]
fn two_registers_of_different_reset() {
    let mut design = Design::default();
    design.table(2, &[3, 1, 2, 2]);
    let port = design.input(2);
    let rom = design.async_rom(port, 0);
    for reset in [1, 2] {
        let register = design.register(rom, reset);
        design.output(register);
    }
    let new = nodes(&rewritten(&design.file()).expect("accepted"));
    let mut expected = Design::default();
    expected.table(2, &[3, 1, 2, 2]);
    let port = expected.input(2);
    let first = expected.clocked_rom(port, 0, 1);
    let second = expected.clocked_rom(port, 0, 2);
    expected.output(first);
    expected.output(second);
    assert_eq!(new, expected.nodes);
    size_is(&design.file(), [2, 0, 59, 0], &[0; 5]);
}

#[test]
fn input_rom_not_register_output() {
    let mut design = one_bit();
    let port = design.input(1);
    let rom = design.async_rom(port, 0);
    let not = design.gate(Kind::Not, 1, &[rom]);
    let register = design.register(not, 0);
    design.output(register);
    refused(&design, 12, 0);
    // The late start accepts it.
    let old = design.file();
    let new = rewritten_by(LATE_STARTS, &old).expect("accepted");
    for file in [old, new] {
        outputs_are(&file, &[&[0, 0], &[0, 1], &[0, 1]], &[0, 0, 1]);
    }
}

#[test]
fn ring_of_two_roms_and_one_register() {
    let mut design = one_bit();
    let register = design.loose_register(1, 0);
    let first = design.async_rom(register, 0);
    let second = design.async_rom(first, 0);
    design.connect(register, 0, second);
    refused(&design, 11, 65_535);
}

#[test]
fn output_one_byte_short() {
    let mut design = Design::default();
    let port = design.input(1);
    let register = design.register(port, 0);
    design.output(register);
    let file = design.file();
    let short: Answer = Err(Refusal {
        number: 14,
        place: 65_535,
    });
    for rewrite in REWRITERS {
        let mut out = vec![0xa5; file.len()];
        assert_eq!(rewrite(&file, &mut out[1..]), short);
        assert_eq!(out, vec![0xa5; file.len()]);
        assert_eq!(rewrite(&file, &mut out), Ok(file.len()));
    }
    size_is(&file, [0, 1, file.len(), 0], &[1, 0]);
}
