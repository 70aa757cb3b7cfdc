//! A netlist against the same one with its tables spelled out: nothing but the tables' fields
//! tells the two apart.

use crate::checks::checked;
use crate::design::Design;
use crate::format;
use crate::previewed::{previewed, Previewed};
use crate::random::Entry;
use crate::simulate::state_len;
use crate::{hex, Answer, Refusal, Services};

/// The design with every word of its tables stored.
pub fn spelled_out(design: &Design) -> Design {
    let mut design = design.clone();
    for table in &mut design.tables {
        if let Some(fill) = table.fill.take() {
            let missing = (1 << table.address_bits) - table.words.len() / 2;
            table.words.extend(fill.to_be_bytes().repeat(missing));
        }
    }
    design
}

impl Services {
    /// Holds a netlist that passes the reader against its spelled-out one: from reset on the
    /// same entries give the same, and both are rewritten alike, each with its own tables.
    pub fn compare_spelled_out(&self, design: &Design, entries: &[Entry]) {
        let [filled, all] = [design, &spelled_out(design)].map(|d| self.shown(d, entries));
        let file = hex(&design.file());
        assert!(filled.runs == all.runs, "other runs: {file}");
        assert!(filled.rewritten == all.rewritten, "other nodes: {file}");
        assert_eq!(filled.preview, all.preview, "{file}");
    }

    fn shown(&self, design: &Design, entries: &[Entry]) -> Shown {
        let file = design.file();
        let checked = checked(&file).expect("it passes the reader");
        let mut state = vec![0; state_len(&checked)];
        let mut runs = vec![((self.reset)(&file, &mut state), state.clone(), Vec::new())];
        for entry in entries {
            let mut outputs = vec![0xa5; entry.outputs_len];
            let answer = (self.run)(&file, &mut state, &entry.inputs, &mut outputs);
            runs.push((answer, state.clone(), outputs));
        }

        let rewritten = self.in_both_modes(&file).map(|new| {
            new.map(|new| {
                let netlist = format::read(&new).expect("it passes the reader");
                let mut tables = checked.netlist.tables.iter();
                let as_they_came = netlist.tables.iter().all(|t| tables.any(|old| old == t));
                assert!(as_they_came, "other tables: {}", hex(&file));
                new[format::tables_end(&netlist)..].to_vec()
            })
        });
        let mut preview = previewed(self.preview, &file);
        if let Ok(previewed) = &mut preview {
            previewed.size.length -= format::tables_end(&checked.netlist);
        }
        Shown {
            runs,
            rewritten,
            preview,
        }
    }
}

/// All that a file shows, its tables apart.
struct Shown {
    /// The answer, the state and the outputs, after the reset and after each entry.
    runs: Vec<(Answer, Vec<u8>, Vec<u8>)>,
    /// The rewritten file of either mode from the end of its tables on.
    rewritten: [Result<Vec<u8>, Refusal>; 2],
    /// What the preview gives, the rewritten file's length counted from there.
    preview: Result<Previewed, Refusal>,
}
