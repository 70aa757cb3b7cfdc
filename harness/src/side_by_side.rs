//! A file and those rewritten from it, side by side from reset on: each runs over its own state,
//! all with the same entries and lists, and nothing but the state tells them apart.

use crate::checks::checked;
use crate::format::MAX_FILE;
use crate::lent::Lent;
use crate::netlist::Kind;
use crate::random::{Entry, List, Random};
use crate::simulate::state_len;
use crate::{hex, Answer, Refusal, Services};

impl Services {
    /// The file rewritten plainly, and late-started. A new file passes the reader, and none of its
    /// ROMs is asynchronous.
    pub fn in_both_modes(&self, file: &[u8]) -> [Result<Vec<u8>, Refusal>; 2] {
        [self.rewrite, self.rewrite_late].map(|rewrite| {
            let mut out = vec![0; MAX_FILE];
            let length = rewrite(file, &mut out)?;
            out.truncate(length);
            assert_eq!((self.check)(&out), Ok(length), "{}", hex(file));
            let new = checked(&out).expect("the check accepts it");
            assert_eq!(new.netlist.count(Kind::AsyncRom), 0, "{}", hex(file));
            Ok(out)
        })
    }

    /// Resets the files, which pass the reader.
    pub fn side_by_side(&self, random: &mut Random, files: Vec<Vec<u8>>) -> SideBySide<'_> {
        let reset = |file: &Vec<u8>| {
            let length = state_len(&checked(file).expect("it passes the reader"));
            let mut state = Lent::random(random, length);
            let answer = (self.reset)(file, state.slice());
            assert_eq!(answer, Ok(length), "{}", hex(file));
            state
        };
        SideBySide {
            services: self,
            states: files.iter().map(reset).collect(),
            files,
        }
    }
}

pub struct SideBySide<'s> {
    services: &'s Services,
    files: Vec<Vec<u8>>,
    states: Vec<Lent>,
}

impl SideBySide<'_> {
    /// One run of each file. Gives the answer and the outputs.
    pub fn run(&mut self, random: &mut Random, entry: &Entry) -> (Answer, Vec<u8>) {
        self.each(random, entry, self.services.run)
    }

    /// The list in one call for each file. Gives the answer and the outputs.
    pub fn run_list(&mut self, random: &mut Random, list: &List) -> (Answer, Vec<u8>) {
        self.each(random, &list.rows, list.call(self.services.run_list))
    }

    /// One call for each file. All give the same answer and the same outputs; beside a refusal all
    /// that was lent stays.
    fn each(
        &mut self,
        random: &mut Random,
        entry: &Entry,
        call: impl Fn(&[u8], &mut [u8], &[u8], &mut [u8]) -> Answer,
    ) -> (Answer, Vec<u8>) {
        let lent = Lent::random(random, entry.outputs_len);
        let mut first = None;
        for (file, state) in self.files.iter().zip(&mut self.states) {
            let mut outputs = lent.clone();
            let before = state.clone();
            let answer = call(file, state.slice(), &entry.inputs, outputs.slice());
            if answer.is_err() {
                let stay = *state == before && outputs == lent;
                assert!(stay, "{answer:?}, lent bytes changed: {}", hex(file));
            }
            let shown = (answer, outputs);
            match &first {
                None => first = Some(shown),
                Some(first) => assert_eq!(shown, *first, "{}", hex(&self.files[0])),
            }
        }
        let (answer, mut outputs) = first.expect("a file");
        (answer, outputs.slice().to_vec())
    }
}
