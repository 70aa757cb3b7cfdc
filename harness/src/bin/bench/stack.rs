//! The product's stack.

use std::hint::black_box;

use harness::design::Design;
use harness::product;
use harness::stack::stack_use;
use harness::{workloads, Answer};

#[cfg(feature = "run")]
use harness::{
    checks::checked,
    simulate::{inputs_len, outputs_len, state_len},
    ListOfClocks,
};

#[cfg(feature = "rewrite")]
use harness::{format::MAX_FILE, preview::MAX_LIST};

/// A file and all that its services want to be lent.
struct Lent {
    file: Vec<u8>,
    #[cfg(feature = "run")]
    state: Vec<u8>,
    #[cfg(feature = "run")]
    inputs: Vec<u8>,
    #[cfg(feature = "run")]
    outputs: Vec<u8>,
    #[cfg(feature = "rewrite")]
    out: Vec<u8>,
    #[cfg(feature = "rewrite")]
    by_source: Vec<u8>,
}

impl Lent {
    fn new(file: Vec<u8>) -> Self {
        #[cfg(feature = "run")]
        let [state, inputs, outputs] = match checked(&file) {
            Ok(checked) => [state_len, inputs_len, outputs_len].map(|len| vec![0; len(&checked)]),
            Err(_) => [(); 3].map(|()| Vec::new()),
        };
        Lent {
            file,
            #[cfg(feature = "run")]
            state,
            #[cfg(feature = "run")]
            inputs,
            #[cfg(feature = "run")]
            outputs,
            #[cfg(feature = "rewrite")]
            out: vec![0; MAX_FILE],
            #[cfg(feature = "rewrite")]
            by_source: vec![0; MAX_LIST],
        }
    }

    /// A list of two clocks.
    #[cfg(feature = "run")]
    fn run_twice(&mut self, run_list: ListOfClocks) -> Answer {
        let [inputs, mut outputs] = [&self.inputs, &self.outputs].map(|row| row.repeat(2));
        run_list(&self.file, &mut self.state, &inputs, &mut outputs, 2)
    }
}

/// The deepest stack of each service over the typical netlist and the worst cases.
pub fn stack(refused: impl Iterator<Item = Vec<u8>>) {
    type Call = fn(&mut Lent) -> Answer;
    println!("stack, the deepest of all these files");
    let designs = [
        workloads::typical(),
        workloads::forward_chain(1_000),
        workloads::backward_chain(1_000),
        workloads::deep_registers(),
        workloads::deep_shared_registers(),
        workloads::long_relaxation(),
        workloads::largest_leads(),
        workloads::closed_debt(),
        workloads::typical_for_both_modes(),
        workloads::typical_late(),
        workloads::sensors(),
        workloads::deep_sensor(),
        workloads::closed_debt_before_an_output(),
    ];
    let files = designs.iter().map(Design::file).chain(refused);
    let mut lent: Vec<Lent> = files.map(Lent::new).collect();
    let mut print = |service: &str, product: Call, harness: Call| {
        let [product, harness] = [product, harness].map(|call| {
            let each = lent
                .iter_mut()
                .map(|lent| stack_use(|| _ = black_box(call(lent))));
            each.max().unwrap_or(0) as f64 / 1024.0
        });
        println!("  {service:<36} product {product:7.1} KiB  harness {harness:7.1} KiB");
    };
    print(
        "check",
        |l| product::check(&l.file),
        |l| harness::check(&l.file),
    );
    #[cfg(feature = "run")]
    print(
        "reset",
        |l| product::reset(&l.file, &mut l.state),
        |l| harness::reset(&l.file, &mut l.state),
    );
    #[cfg(feature = "run")]
    print(
        "run",
        |l| product::run(&l.file, &mut l.state, &l.inputs, &mut l.outputs),
        |l| harness::run(&l.file, &mut l.state, &l.inputs, &mut l.outputs),
    );
    #[cfg(feature = "run")]
    print(
        "list of runs",
        |l| l.run_twice(product::run_list),
        |l| l.run_twice(harness::run_list),
    );
    #[cfg(feature = "rewrite")]
    print(
        "rewrite",
        |l| product::rewrite(&l.file, &mut l.out),
        |l| harness::rewrite(&l.file, &mut l.out),
    );
    #[cfg(feature = "rewrite")]
    print(
        "late start",
        |l| product::rewrite_late(&l.file, &mut l.out),
        |l| harness::rewrite_late(&l.file, &mut l.out),
    );
    #[cfg(feature = "rewrite")]
    print(
        "preview",
        |l| product::preview(&l.file, &mut l.by_source).map(|size| size.length),
        |l| harness::preview(&l.file, &mut l.by_source).map(|size| size.length),
    );
}
