//! What was found in a run, grouped by register and kind.

use std::collections::{BTreeMap, BTreeSet};

use oracle::calls::{Call, Op};

use crate::{choose, classify::Found, compare::Pair, difference};

/// A difference, in how many calls it showed, and the fewest calls that show it.
pub struct Group {
    calls: u64,
    example: Vec<Call>,
}

#[derive(Default)]
pub struct Report {
    pub accesses: u64,
    pub lines: u64,
    pub alike: u64,
    pub groups: BTreeMap<Found, Group>,
}

impl Report {
    /// Runs sequences until `calls` calls are done.
    pub fn new(pair: &mut Pair, seed: u64, calls: u64) -> Self {
        let mut report = Self::default();
        for index in 0.. {
            if report.accesses + report.lines >= calls {
                break;
            }
            let calls = choose::sequence(seed, index, pair.count);
            let (ran, found) = pair.run(&calls);
            report.note(&calls[..ran], found);
        }
        for (found, group) in &mut report.groups {
            group.example = smallest(pair, *found, &group.example);
        }
        report
    }

    fn note(&mut self, calls: &[Call], found: Vec<(usize, Found)>) {
        let lines = calls.iter().filter(|call| call.op == Op::SetLevel).count();
        let unlike: BTreeSet<usize> = found.iter().map(|&(past, _)| past).collect();
        let unlike = unlike.iter().filter(|&&past| past > 0).count();
        self.lines += lines as u64;
        self.accesses += (calls.len() - lines) as u64;
        self.alike += (calls.len() - unlike) as u64;
        for (past, one) in found {
            let example = &calls[..past];
            let group = self.groups.entry(one).or_insert_with(|| Group {
                calls: 0,
                example: example.to_vec(),
            });
            group.calls += 1;
            if past < group.example.len() {
                group.example = example.to_vec();
            }
        }
    }

    /// How many differences have no entry, or one that is not on the page.
    pub fn unexplained(&self, page: &str) -> usize {
        let explained = |&&(register, kind): &&Found| {
            let title = difference::entry(register, kind);
            title.is_some_and(|title| difference::stands(page, title))
        };
        self.groups.len() - self.groups.keys().filter(explained).count()
    }

    /// Two rows a difference: what it is, in how many calls and by which entry;
    /// and the fewest calls that show it.
    pub fn text(&self, page: &str) -> String {
        let mut text = String::new();
        for ((register, kind), group) in &self.groups {
            let verdict = match difference::entry(register, *kind) {
                Some(title) if difference::stands(page, title) => title.to_string(),
                Some(title) => format!("NOT ON THE PAGE: {title}"),
                None => "UNEXPLAINED".to_string(),
            };
            let (kind, calls) = (kind.to_string(), group.calls);
            text += &format!("{register:11} {kind:50} {calls:7}  {verdict}\n");
            text += &format!("{:14}{}\n", "", shown(&group.example));
        }
        text
    }
}

/// Drops calls, then bits of what is written, as long as the difference stays.
fn smallest(pair: &mut Pair, found: Found, example: &[Call]) -> Vec<Call> {
    let mut shows = |calls: &[Call]| pair.run(calls).1.iter().any(|&(_, one)| one == found);
    let mut calls = example.to_vec();
    for at in (0..calls.len()).rev() {
        let mut fewer = calls.clone();
        fewer.remove(at);
        if shows(&fewer) {
            calls = fewer;
        }
    }
    for at in 0..calls.len() {
        for bit in 0..64 {
            let mut fewer = calls.clone();
            fewer[at].args[2] &= !(1 << bit);
            if fewer != calls && shows(&fewer) {
                calls = fewer;
            }
        }
    }
    calls
}

fn shown(calls: &[Call]) -> String {
    let one = |call: &Call| {
        let [a, b, c, _] = call.args;
        match call.op {
            Op::Read => format!("{} r {a:#x}", difference::word(b)),
            Op::Write => format!("{} w {a:#x}, {c:#x}", difference::word(b)),
            _ => format!("line {a} {}", if b == 1 { "high" } else { "low" }),
        }
    };
    match calls {
        [] => "no call".to_string(),
        _ => calls.iter().map(one).collect::<Vec<_>>().join("; "),
    }
}

#[cfg(test)]
mod tests {
    use std::fs;

    use oracle::{
        driver::Oracle,
        machine::Machine,
        registers::{BANKS, Bank},
    };

    use super::*;
    use crate::{difference::Kind, stand_in::StandIn, wrong::Wrong};

    /// Holds a machine against the Rust, which has no halves of IROUTER.
    fn report(mut machine: Box<dyn Machine>, sequences: u64) -> Report {
        let mut peer = StandIn::new(Oracle::default(), 40);
        let mut pair = Pair::new(&mut *machine, &mut peer);
        let mut report = Report::default();
        for index in 0..sequences {
            let mut calls = choose::sequence(1, index, pair.count);
            calls.retain(|call| {
                let [offset, width, ..] = call.args;
                width != 4 || !crate::state::bank("IROUTER").holds(offset)
            });
            let (ran, found) = pair.run(&calls);
            report.note(&calls[..ran], found);
        }
        report
    }

    fn page() -> String {
        fs::read_to_string(crate::PAGE).unwrap()
    }

    fn wrong(op: Op, bank: &'static Bank) -> usize {
        let machine = Wrong::new(Box::new(Oracle::default()), op, bank);
        report(Box::new(machine), 300).unexplained(&page())
    }

    #[test]
    fn a_machine_differs_from_itself_in_refusals_alone() {
        let report = report(Box::new(Oracle::default()), 300);
        let kinds: BTreeSet<Kind> = report.groups.keys().map(|&(_, kind)| kind).collect();
        let refusals = [Kind::Misaligned, Kind::PastFrame, Kind::Width];
        assert_eq!(kinds, BTreeSet::from(refusals));
        assert_eq!(report.unexplained(&page()), 0);
    }

    #[test]
    fn a_wrong_bit_that_is_read_is_unexplained() {
        for bank in &BANKS {
            assert!(wrong(Op::Read, bank) > 0, "{}", bank.name);
        }
    }

    #[test]
    fn a_wrong_bit_that_is_written_is_unexplained() {
        let ignored = ["TYPER", "IIDR", "IGROUPR", "ITARGETSR", "component"];
        for bank in &BANKS {
            let found = wrong(Op::Write, bank) > 0;
            assert_eq!(found, !ignored.contains(&bank.name), "{}", bank.name);
        }
    }

    #[test]
    fn an_entry_that_is_not_on_the_page_explains_nothing() {
        let report = report(Box::new(Oracle::default()), 300);
        assert_eq!(report.unexplained(""), report.groups.len());
        assert!(
            report
                .text("")
                .contains("NOT ON THE PAGE: A wrong width is refused")
        );
    }

    #[test]
    fn an_example_is_made_small() {
        let machine = Box::new(Oracle::default());
        let mut machine = Wrong::new(machine, Op::Write, crate::state::bank("ISENABLER"));
        let mut peer = StandIn::new(Oracle::default(), 40);
        let mut pair = Pair::new(&mut machine, &mut peer);
        let call = |op: Op, args: &[u64]| Call::new(op, args);
        let long = [
            call(Op::Read, &[0x4, 4]),
            call(Op::SetLevel, &[32, 1]),
            call(Op::Write, &[0x104, 4, 0xff, 40]),
        ];
        let found = ("ISENABLER", Kind::After(difference::Field::Enabled));
        let small = smallest(&mut pair, found, &long);
        assert_eq!(shown(&small), "Dword w 0x104, 0x0");
    }
}
