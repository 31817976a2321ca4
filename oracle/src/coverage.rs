//! Counts what a run met, so that a blind spot shows.

use std::{
    collections::{BTreeMap, BTreeSet},
    fmt::{self, Display, Formatter},
};

use crate::{
    calls::Op,
    driver::Oracle,
    machine::{FRESH, Step},
    reach::{self, FLAGS, LIFE},
    registers::{BANKS, WIDTHS},
};

/// Times done, then times refused by number.
type Kinds = [u64; 6];

#[derive(Default)]
struct Register {
    reads: Kinds,
    writes: Kinds,
    listed: u64,
    widths: [u64; WIDTHS.len()],
    /// The offsets at which an access was done.
    offsets: BTreeSet<u64>,
    /// Accesses at the bank's first offset, at its last and one past it.
    ends: [u64; 3],
}

pub struct Coverage {
    calls: BTreeMap<Op, Kinds>,
    counts: [BTreeSet<u64>; 2],
    frames: BTreeSet<u64>,
    registers: [Register; BANKS.len() + 1],
    combinations: BTreeSet<u64>,
    /// A host call, its small argument and the life flags it began from.
    steps: BTreeSet<(Op, u64, u64)>,
    slots: Vec<u64>,
}

impl Default for Coverage {
    fn default() -> Self {
        Self {
            calls: Op::ALL.iter().map(|&op| (op, Kinds::default())).collect(),
            counts: Default::default(),
            frames: BTreeSet::new(),
            registers: Default::default(),
            combinations: BTreeSet::new(),
            steps: BTreeSet::new(),
            slots: Vec::new(),
        }
    }
}

impl Coverage {
    pub fn note(&mut self, step: &Step) {
        let [a, b, c, _] = step.call.args;
        let kind = usize::from(step.answer.kind);
        self.calls.get_mut(&step.call.op).unwrap()[kind] += 1;
        match step.call.op {
            Op::Create => {
                let made = if kind == 0 { a } else { 0 };
                self.slots.clear();
                self.slots.resize(made as usize, FRESH);
                self.counts[b as usize & 1].insert(a);
                self.frames.insert(c);
            }
            Op::Read | Op::Write => self.note_access(step),
            op => {
                let place = a.checked_sub(32).map(|place| place as usize);
                let slot = place.and_then(|place| self.slots.get(place));
                if let (Some(slot), true) = (slot, Op::by_spi().any(|by_spi| by_spi == op)) {
                    let mut samples = reach::samples(op);
                    let small = samples.any(|sample| sample.args[1] == b);
                    self.steps
                        .insert((op, if small { b } else { 1 }, slot & LIFE));
                }
            }
        }
        for &(place, slot) in &step.changes {
            self.slots[place as usize] = slot;
            self.combinations.insert(slot & FLAGS);
        }
    }

    fn note_access(&mut self, step: &Step) {
        let [offset, width, ..] = step.call.args;
        let kind = usize::from(step.answer.kind);
        let bank = BANKS.iter().position(|bank| bank.holds(offset));
        let register = &mut self.registers[bank.unwrap_or(BANKS.len())];
        let kinds = match step.call.op {
            Op::Read => &mut register.reads,
            _ => &mut register.writes,
        };
        kinds[kind] += 1;
        register.listed += u64::from(!step.answer.candidates.is_empty());
        register.widths[width.ilog2() as usize] += 1;
        if kind == 0 {
            register.offsets.insert(offset);
        }
        for (bank, register) in BANKS.iter().zip(&mut self.registers) {
            let ends = [bank.start, bank.last(), bank.end];
            for (end, times) in ends.into_iter().zip(&mut register.ends) {
                *times += u64::from(offset == end);
            }
        }
    }
}

impl Display for Coverage {
    fn fmt(&self, f: &mut Formatter) -> fmt::Result {
        let total: u64 = self.calls.values().flatten().sum();
        let created: u64 = self.calls[&Op::Create].iter().sum();
        writeln!(f, "{total} calls in {created} sequences")?;
        let [all, explicit] = [0, 1].map(|mode| self.counts[mode].len());
        let frames = self.frames.len();
        writeln!(
            f,
            "N: {all} values all guest-owned, {explicit} explicit; {frames} frame sizes\n"
        )?;
        self.write_calls(f)?;
        self.write_registers(f)?;
        self.write_flags(f)
    }
}

impl Coverage {
    fn write_calls(&self, f: &mut Formatter) -> fmt::Result {
        let heads = ["done", "ref 1", "ref 2", "ref 3", "ref 4", "ref 5"];
        writeln!(f, "{:28}{}", "call", cells(heads))?;
        for (op, kinds) in &self.calls {
            writeln!(f, "{:28}{}", op.name(), cells(*kinds))?;
        }
        Ok(())
    }

    fn write_registers(&self, f: &mut Formatter) -> fmt::Result {
        let heads = [
            "reads", "ref 1", "ref 3", "ref 4", "writes", "ref 1", "ref 3", "ref 4", "ref 5",
            "listed", "width 1", "2", "4", "8", "first", "last", "past", "offsets",
        ];
        writeln!(f, "\n{:12}{}", "register", cells(heads))?;
        let names = BANKS.iter().map(|bank| bank.name).chain(["elsewhere"]);
        for (name, register) in names.zip(&self.registers) {
            let [read, read_1, _, read_3, read_4, _] = register.reads;
            let [write, write_1, _, write_3, write_4, write_5] = register.writes;
            let reads = cells([read, read_1, read_3, read_4]);
            let writes = cells([write, write_1, write_3, write_4, write_5, register.listed]);
            let (widths, ends) = (cells(register.widths), cells(register.ends));
            let offsets = register.offsets.len();
            writeln!(f, "{name:12}{reads}{writes}{widths}{ends}{offsets:>8}")?;
        }
        Ok(())
    }

    fn write_flags(&self, f: &mut Formatter) -> fmt::Result {
        let reachable: BTreeSet<u64> = reach::combinations(&mut Oracle::default())
            .into_keys()
            .collect();
        let life = |flags: &BTreeSet<u64>| -> BTreeSet<u64> {
            flags.iter().map(|flags| flags & LIFE).collect()
        };
        let (life_met, life_reachable) = (life(&self.combinations), life(&reachable));
        let variants: usize = Op::by_spi().map(|op| reach::samples(op).count()).sum();
        let rows = [
            ("life flags", life_met.len(), life_reachable.len()),
            ("all flags", self.combinations.len(), reachable.len()),
            (
                "host calls by life flags",
                self.steps.len(),
                variants * life_reachable.len(),
            ),
        ];
        writeln!(f)?;
        for (name, met, of) in rows {
            writeln!(f, "{name}: {met} met of {of} reachable")?;
        }
        let never = |met: &BTreeSet<u64>, of: &BTreeSet<u64>| {
            let never: Vec<String> = of
                .difference(met)
                .map(|flags| format!("{flags:x}"))
                .collect();
            match never.len() {
                0 => "none".into(),
                _ => never.join(" "),
            }
        };
        writeln!(
            f,
            "life flags never met: {}",
            never(&life_met, &life_reachable)
        )?;
        writeln!(
            f,
            "all flags never met: {}",
            never(&self.combinations, &reachable)
        )?;
        let unreachable = never(&reachable, &self.combinations);
        writeln!(f, "met but not reachable: {unreachable}")
    }
}

pub(crate) fn cells<T: Display, const N: usize>(row: [T; N]) -> String {
    row.iter().map(|cell| format!("{cell:>8}")).collect()
}

#[cfg(test)]
mod tests {
    use super::*;
    use crate::list;

    #[test]
    fn a_run_meets_every_combination_of_life_flags() {
        let mut coverage = Coverage::default();
        for step in list::steps(Oracle::default(), 3, 240, 450) {
            coverage.note(&step);
        }
        let text = coverage.to_string();
        assert!(
            text.contains("\nlife flags: 96 met of 96 reachable\n"),
            "{text}"
        );
        assert!(text.contains("\nmet but not reachable: none\n"), "{text}");
        for (&op, kinds) in &coverage.calls {
            assert!(kinds[0] > 0, "{op:?} was never done");
        }
        for (bank, register) in BANKS.iter().zip(&coverage.registers) {
            assert!(
                register.ends.iter().all(|&times| times > 0),
                "{}",
                bank.name
            );
            assert!(
                register.widths.iter().all(|&times| times > 0),
                "{}",
                bank.name
            );
        }
    }
}
