//! Runs calls on ours and on a peer and finds where they differ: in what a read
//! answers, and in every SPI after the call.
//!
//! After a call both sides are brought to the same state again, so that a
//! difference is found under the call that makes it and hides nothing after it.
//! A sequence ends at a difference that no entry explains.

use std::collections::BTreeSet;

use oracle::{
    calls::{Call, Op},
    machine::Machine,
};

use crate::{
    classify::{Found, Ran, others, register},
    difference::{CREATION, END, Kind, entry},
    peer::{Peer, read, write},
    state::{self, Look, Settling, Spi, bank},
};

pub const FRAME: u64 = 0x1_0000;
const TYPER: u64 = 0x4;

pub struct Pair<'a> {
    ours: &'a mut dyn Machine,
    peer: &'a mut dyn Peer,
    pub count: u64,
    pub typer: u64,
    slots: Vec<u64>,
    /// Every SPI with its line, as both sides have it.
    before: Vec<(Spi, bool)>,
}

impl<'a> Pair<'a> {
    /// Asks the peer for its N and its TYPER, which give our settings.
    pub fn new(ours: &'a mut dyn Machine, peer: &'a mut dyn Peer) -> Self {
        peer.reset();
        let enable = bank("ISENABLER");
        let words = (enable.start..enable.end).step_by(4);
        let ask = words.flat_map(|offset| [write(offset, 4, u64::MAX), read(offset, 4)]);
        let taken = peer.run(&ask.collect::<Vec<Call>>());
        let count = taken.iter().map(|word| u64::from(word.count_ones())).sum();
        let typer = peer.run(&[read(TYPER, 4)])[0];
        Self {
            ours,
            peer,
            count,
            typer,
            slots: Vec::new(),
            before: Vec::new(),
        }
    }

    /// All guest-owned, with the LPI, level-3 and range flags and the id bits
    /// that the peer's TYPER tells. Ids are told by an ITS and its LPI limit.
    fn creation(&self) -> Call {
        let flag = |at: u64| self.typer >> at & 1;
        let settings = flag(17) << 1 | 1 << 2 | flag(24) << 3 | flag(26) << 4;
        let id_bits = (self.typer >> 19 & 0x1f) + 1;
        Call::new(
            Op::Create,
            &[self.count, settings, FRAME, (1 << id_bits) - 1],
        )
    }

    /// Runs calls from a fresh start, up to the first difference that is not
    /// explained. Gives how many were run and what was found, each with the
    /// number of calls up to and with it.
    pub fn run(&mut self, calls: &[Call]) -> (usize, Vec<(usize, Found)>) {
        let mut all = Vec::new();
        for past in 0..calls.len() + 2 {
            let (past, found) = match past.checked_sub(1) {
                None => (0, self.reset()),
                Some(at) if at < calls.len() => (past, self.step(&calls[at])),
                Some(_) => (calls.len(), self.end()),
            };
            let mut names = found.iter();
            let explained = names.all(|&(name, kind)| entry(name, kind).is_some());
            all.extend(found.into_iter().map(|one| (past, one)));
            if !explained {
                return (past, all);
            }
        }
        (calls.len(), all)
    }

    fn reset(&mut self) -> BTreeSet<Found> {
        let creation = self.creation();
        self.ours.run(&creation);
        self.peer.reset();
        self.before = state::ours(self.ours, &mut self.slots);
        let look = Look::whole(self.count);
        let values = self.peer.run(&look.reads);
        self.states(&look, &values, |_, now, shown| {
            let priority = shown.priority;
            if (Spi { priority, ..*now }) == *shown {
                let (here, peer) = (now.priority, priority);
                return vec![(CREATION, Kind::Fresh { here, peer })];
            }
            others(CREATION, now, shown)
        })
    }

    fn step(&mut self, call: &Call) -> BTreeSet<Found> {
        let answer = self.ours.run(call);
        let look = Look::after(call, self.count);
        let mut asked = vec![*call];
        asked.extend(&look.reads);
        let values = self.peer.run(&asked);
        let (value, values) = match call.op {
            Op::Read => (values[0], &values[1..]),
            _ => (0, &values[..]),
        };
        let before = self.before.clone();
        let ran = Ran {
            call,
            register: register(call),
            before: &before,
            answer,
            value,
        };
        let mut found: BTreeSet<Found> = ran.answers().into_iter().collect();
        found.extend(self.states(&look, values, |intid, now, shown| {
            ran.changes(intid, now, shown)
        }));
        found
    }

    /// Looks at everything once more.
    fn end(&mut self) -> BTreeSet<Found> {
        let look = Look::whole(self.count);
        let values = self.peer.run(&look.reads);
        self.states(&look, &values, |_, now, shown| others(END, now, shown))
    }

    /// Holds every SPI of ours against the peer's, and settles those that differ.
    fn states(
        &mut self,
        look: &Look,
        values: &[u64],
        differences: impl Fn(u64, &Spi, &Spi) -> Vec<Found>,
    ) -> BTreeSet<Found> {
        let mut found = BTreeSet::new();
        let mut settling = Settling::default();
        let now = state::ours(self.ours, &mut self.slots);
        let mut shown: Vec<Spi> = self.before.iter().map(|(spi, _)| *spi).collect();
        look.take(values, &mut shown);
        for (intid, ((now, _), shown)) in (32..).zip(now.iter().zip(&shown)) {
            if now != shown {
                found.extend(differences(intid, now, shown));
                settling.add(intid, shown, now);
            }
        }
        self.peer.run(&settling.peer);
        for call in &settling.ours {
            self.ours.run(call);
        }
        self.before = state::ours(self.ours, &mut self.slots);
        found
    }
}
