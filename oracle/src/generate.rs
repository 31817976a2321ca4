//! Sequences of calls from a seed.
//!
//! A sequence begins with a creation. The rest comes from plans: a plan is a few
//! calls that belong together, such as a claim, a route and a release. A few hot
//! SPIs get most of the calls, so that flags, claims and routes meet. Even
//! sequences are long and mostly have a whole frame; odd ones are short and try
//! the end of an odd frame, or a creation that is refused.

use std::collections::VecDeque;

use crate::{
    calls::{Arg, Call, Op},
    machine::{ACTIVE, EDGE, ENABLED, INFLIGHT, LINE, PENDING, REDELIVERY},
    registers::{BANKS, Bank, CTLR, ICFGR, IPRIORITYR, TYPER, WIDTHS},
};

const CAPACITY: u64 = 988;
const COUNTS: [u64; 11] = [0, 1, 31, 32, 33, 40, 63, 64, 256, 987, CAPACITY];
const REFUSED_COUNTS: [u64; 4] = [CAPACITY + 1, 990, 1020, 65535];
const LPI_LIMITS: [u64; 8] = [0, 1, 8192, 65534, 65535, 65536, 0xff_ffff, 0xffff_ffff];
const WHOLE_FRAME: u64 = 0x1_0000;
const ODD_FRAMES: [u64; 10] = [
    0,
    1,
    2,
    4,
    0x100,
    0xfffc,
    WHOLE_FRAME + 8,
    1 << 63,
    u64::MAX - 8,
    u64::MAX,
];
/// Small distances up and, wrapping, down.
const NEAR: [u64; 9] = [
    0,
    1,
    2,
    4,
    8,
    u64::MAX,
    u64::MAX - 1,
    u64::MAX - 3,
    u64::MAX - 7,
];
/// The ends of the ranges of identifiers.
const NUMBERS: [u64; 14] = [
    0,
    15,
    16,
    31,
    32,
    1019,
    1020,
    1023,
    8191,
    8192,
    0xff_ffff,
    0x100_0000,
    0x7fff_ffff,
    0xffff_ffff,
];
const BYTES: [u64; 10] = [0, 1, 0xf, 0x10, 0x1f, 0x20, 0x7f, 0x80, 0xfe, 0xff];
const AFFINITIES: [u64; 6] = [0, 1, 0x1_8002_0304, 0xff_00ff_ffff, 1 << 31, u64::MAX];
/// How many calls the short sequences have.
const FRAME_CALLS: usize = 2 + NEAR.len() * WIDTHS.len();
const REFUSED_CALLS: usize = 12;

type Plan = fn(&mut Sequence);

/// The plans of a long sequence, each with its weight.
const LONG: [(u64, Plan); 10] = [
    (6, Sequence::host_calls),
    (5, Sequence::life),
    (9, Sequence::combination),
    (5, Sequence::claims),
    (36, Sequence::guest),
    (12, Sequence::table_end),
    (3, Sequence::switch),
    (18, Sequence::bank_edge),
    (4, Sequence::far_end),
    (3, Sequence::identifier),
];
const FRAME: [(u64, Plan); 1] = [(1, Sequence::frame_end)];
const REFUSED: [(u64, Plan); 1] = [(1, Sequence::identifier)];

/// Splitmix64.
pub struct Random(u64);

impl Random {
    pub fn new(seed: u64) -> Self {
        Self(seed)
    }

    pub fn any(&mut self) -> u64 {
        self.0 = self.0.wrapping_add(0x9e37_79b9_7f4a_7c15);
        let mut z = self.0;
        z = (z ^ z >> 30).wrapping_mul(0xbf58_476d_1ce4_e5b9);
        z = (z ^ z >> 27).wrapping_mul(0x94d0_49bb_1331_11eb);
        z ^ z >> 31
    }

    pub fn below(&mut self, limit: u64) -> u64 {
        self.any() % limit
    }

    pub fn chance(&mut self, percent: u64) -> bool {
        self.below(100) < percent
    }

    pub fn pick<'a, T>(&mut self, from: &'a [T]) -> &'a T {
        &from[self.below(from.len() as u64) as usize]
    }

    /// One of some choices, each with its weight.
    pub fn weighted<'a, T>(&mut self, choices: &'a [(u64, T)]) -> &'a T {
        let mut at = self.below(choices.iter().map(|(weight, _)| weight).sum());
        for (weight, choice) in choices {
            if at < *weight {
                return choice;
            }
            at -= weight;
        }
        unreachable!("the weights add up")
    }
}

/// An iterator over the calls of one sequence.
pub struct Sequence {
    random: Random,
    left: usize,
    planned: VecDeque<Call>,
    plans: &'static [(u64, Plan)],
    count: u64,
    frame: u64,
    /// The INTIDs that get most of the calls, all in the table.
    hot: Vec<u64>,
    /// How far `bank_edge` has come; each long sequence starts further on.
    turn: usize,
}

impl Iterator for Sequence {
    type Item = Call;

    fn next(&mut self) -> Option<Call> {
        self.left = self.left.checked_sub(1)?;
        while self.planned.is_empty() {
            let plan = self.random.weighted(self.plans);
            plan(self);
        }
        self.planned.pop_front()
    }
}

impl Sequence {
    /// The sequence with this index; a long one has `calls` calls.
    pub fn new(seed: u64, index: u64, calls: usize) -> Self {
        let mut random = Random::new(seed);
        random.0 = random.any() ^ index;
        let mut sequence = Self {
            random,
            left: calls,
            planned: VecDeque::new(),
            plans: &LONG,
            count: 0,
            frame: WHOLE_FRAME,
            hot: Vec::new(),
            turn: 0,
        };
        let round = index / 2;
        if index.is_multiple_of(2) {
            sequence.long(round);
        } else if round % 8 == 7 {
            sequence.left = REFUSED_CALLS;
            sequence.plans = &REFUSED;
            let count = sequence.random.pick(&REFUSED_COUNTS);
            sequence.create(*count, round % 2);
        } else {
            sequence.left = FRAME_CALLS;
            sequence.plans = &FRAME;
            sequence.frame = sequence.odd_frame(round - round / 8);
            let count = sequence.random.below(72);
            sequence.create(count, round % 2);
        }
        sequence
    }

    /// The first rounds take each of `COUNTS` in either ownership mode. Each
    /// begins with some claims and with accesses across the table's end.
    fn long(&mut self, round: u64) {
        let (count, ownership) = match COUNTS.get(round as usize / 2) {
            Some(&count) => (count, round % 2),
            None => (self.any_count(), self.random.below(2)),
        };
        if self.random.chance(8) {
            self.frame = *self.random.pick(&[0x7000, 0x8000, 0xfffc, u64::MAX]);
        }
        self.turn = 30 * round as usize;
        self.create(count, ownership);
        let claimed = if ownership == 1 { 75 } else { 25 };
        for intid in self.hot.clone() {
            if self.random.chance(claimed) {
                let op = *self.random.pick(&[Op::ClaimSoftware, Op::ClaimPhysical]);
                self.host_call(op, intid);
            }
        }
        for op in [Op::Read, Op::Write] {
            for (bank, width) in [(IPRIORITYR, 8), (ICFGR, 4)] {
                let last = bank.offset_of(31 + count);
                self.access(op, last - last % width, width, &[]);
            }
        }
    }

    fn any_count(&mut self) -> u64 {
        match self.random.below(10) {
            0 => self.random.below(CAPACITY + 1),
            1..=2 => *self.random.pick(&COUNTS),
            _ => self.random.below(100),
        }
    }

    /// A frame that ends at or near a bank's start or end, each in turn.
    fn odd_frame(&mut self, turn: u64) -> u64 {
        let edges = BANKS.iter().flat_map(|bank| [bank.start, bank.end]);
        let edges: Vec<u64> = ODD_FRAMES.into_iter().chain(edges).collect();
        let at = turn as usize % (2 * edges.len());
        if at < edges.len() {
            return edges[at];
        }
        edges[at - edges.len()].wrapping_add(*self.random.pick(&NEAR))
    }

    fn create(&mut self, count: u64, ownership: u64) {
        self.count = count;
        let settings = self.random.below(16) << 1 | ownership;
        let limit = *self.random.pick(&LPI_LIMITS);
        self.plan(Op::Create, &[count, settings, self.frame, limit]);
        if count > CAPACITY {
            return;
        }
        self.plan(Op::Read, &[TYPER.start, 4]);
        if count > 0 {
            let near = 32 + self.random.below(count);
            let far = [(); 2].map(|()| 32 + self.random.below(count));
            self.hot = vec![near, near + 1, 31 + count, far[0], far[1]];
            self.hot.retain(|&intid| intid < 32 + count);
        }
    }

    fn plan(&mut self, op: Op, args: &[u64]) {
        self.planned.push_back(Call::new(op, args));
    }

    // Plans.

    fn host_calls(&mut self) {
        for _ in 0..1 + self.random.below(3) {
            let intid = self.intid();
            self.any_host_call(intid);
        }
    }

    /// Many calls on one SPI, whatever its state.
    fn life(&mut self) {
        let intid = self.intid();
        for _ in 0..2 + self.random.below(6) {
            self.any_host_call(intid);
        }
    }

    /// Drives an SPI to a chosen combination of flags, and goes on from there.
    fn combination(&mut self) {
        let intid = self.intid();
        let mut flags = self.random.below(128);
        if flags & REDELIVERY != 0 {
            flags |= INFLIGHT;
        }
        let bit = |flag: u64| u64::from(flags & flag != 0);
        self.plan(Op::ClearDelivery, &[intid]);
        self.plan(Op::SetEnabled, &[intid, bit(ENABLED)]);
        self.plan(Op::SetTrigger, &[intid, bit(EDGE)]);
        if bit(LINE) == 1 {
            self.plan(Op::SetLevel, &[intid, 1]);
        }
        if bit(INFLIGHT) == 1 {
            self.plan(Op::MarkInflight, &[intid]);
        }
        if bit(REDELIVERY) == 1 {
            self.plan(Op::Pulse, &[intid]);
        }
        self.plan(Op::SetState, &[intid, bit(PENDING) + 2 * bit(ACTIVE)]);
        for _ in 0..1 + self.random.below(3) {
            if self.random.chance(25) {
                self.guest_at(intid, &[intid]);
            } else {
                self.any_host_call(intid);
            }
        }
    }

    fn claims(&mut self) {
        let ops = [
            Op::ClaimSoftware,
            Op::ClaimPhysical,
            Op::Release,
            Op::SetMask,
            Op::SetMask,
            Op::Mask,
            Op::SetRoute,
            Op::ClearRoute,
            Op::Route,
            Op::SetTrigger,
        ];
        let intid = self.intid();
        for _ in 0..3 + self.random.below(5) {
            if self.random.chance(30) {
                self.guest_at(intid, &[intid]);
            } else {
                let op = *self.random.pick(&ops);
                self.host_call(op, intid);
            }
        }
    }

    fn guest(&mut self) {
        let anywhere = self.random.chance(25);
        let intid = if anywhere {
            self.random.below(1024)
        } else {
            self.intid()
        };
        let hot = self.hot.clone();
        self.guest_at(intid, &hot);
    }

    /// Accesses around the first INTID past the table, and around 32 and 1020.
    fn table_end(&mut self) {
        let past = *self
            .random
            .pick(&[32 + self.count, 32 + self.count, 1020, 32]);
        let mut aims = self.hot.clone();
        aims.extend([past - 1, past, past + 1]);
        let near = past + self.random.below(10) - 8;
        match self.random.below(3) {
            0 => self.bank_at(&IPRIORITYR, near, &aims),
            1 => self.bank_at(&ICFGR, near, &aims),
            _ => self.guest_at(near, &aims),
        }
    }

    /// Makes some SPIs deliverable and turns the switch.
    fn switch(&mut self) {
        for intid in self.hot.clone() {
            if self.random.chance(40) {
                let raise = *self.random.pick(&[Op::Pulse, Op::SetLevel, Op::SetPending]);
                self.plan(Op::SetEnabled, &[intid, 1]);
                self.host_call(raise, intid);
            }
        }
        self.access(Op::Write, CTLR.start, 4, &[]);
        match self.random.below(4) {
            0 => self.plan(Op::Switch, &[]),
            1 => {
                let on = self.random.below(2);
                self.plan(Op::Rollback, &[on]);
            }
            _ => self.plan(Op::Read, &[CTLR.start, 4]),
        }
    }

    /// Reads and writes of any width at or near a bank's first offset, its last
    /// and the one past it, each in turn.
    fn bank_edge(&mut self) {
        // Any factor prime to the number of choices scatters them.
        let mut turn = self.turn * 1009;
        self.turn += 1;
        let mut choose = |choices: usize| {
            let choice = turn % choices;
            turn /= choices;
            choice
        };
        let bank = &BANKS[choose(BANKS.len())];
        let edge = [bank.start, bank.last(), bank.end][choose(3)];
        let offset = edge.wrapping_add(NEAR[choose(NEAR.len())]);
        let width = WIDTHS[choose(WIDTHS.len())];
        let op = [Op::Read, Op::Write][choose(2)];
        let value = self.value(offset, &[]);
        match op {
            Op::Read => self.plan(op, &[offset, width]),
            _ => self.plan(op, &[offset, width, value, self.count]),
        }
    }

    /// Every width at and near the end of the frame.
    fn frame_end(&mut self) {
        for near in NEAR {
            for width in WIDTHS {
                self.near(self.frame.wrapping_add(near), width);
            }
        }
    }

    /// Any width at or near the end of the frame or of 2^64.
    fn far_end(&mut self) {
        let end = *self.random.pick(&[self.frame, 0]);
        let near = *self.random.pick(&NEAR);
        let width = *self.random.pick(&WIDTHS);
        self.near(end.wrapping_add(near), width);
    }

    fn identifier(&mut self) {
        let ops = Op::identifiers().count() as u64;
        let at = self.random.below(ops) as usize;
        let op = Op::identifiers().nth(at).unwrap();
        let args: Vec<u64> = op
            .arguments()
            .iter()
            .map(|&arg| self.argument(arg))
            .collect();
        self.plan(op, &args);
    }

    // Calls.

    fn any_host_call(&mut self, intid: u64) {
        let ops = Op::by_spi().count() as u64;
        let at = self.random.below(ops) as usize;
        self.host_call(Op::by_spi().nth(at).unwrap(), intid);
    }

    fn host_call(&mut self, op: Op, intid: u64) {
        let mut args = vec![intid];
        let rest = op.arguments()[1..].iter();
        args.extend(rest.map(|&arg| self.argument(arg)));
        self.plan(op, &args);
    }

    fn guest_at(&mut self, intid: u64, aims: &[u64]) {
        let by_intid = self.random.chance(85);
        let bank = loop {
            let bank = self.random.pick(&BANKS);
            if by_intid == (bank.bits > 0) {
                break bank;
            }
        };
        self.bank_at(bank, intid, aims);
    }

    /// An access to a bank, where it covers `intid` if the bank is by INTID. A
    /// write is aimed at `aims`.
    fn bank_at(&mut self, bank: &Bank, intid: u64, aims: &[u64]) {
        let made_for = !self.random.chance(6);
        let widths = if made_for { bank.widths } else { &WIDTHS };
        let width = *self.random.pick(widths);
        let mut offset = match bank.bits {
            0 => bank.start + self.random.below(bank.end - bank.start),
            _ => bank.offset_of(intid),
        };
        if self.random.chance(96) {
            offset -= offset % width;
        }
        let write = self.random.chance(65);
        let op = if write { Op::Write } else { Op::Read };
        self.access(op, offset, width, aims);
    }

    fn near(&mut self, mut offset: u64, width: u64) {
        if self.random.chance(50) {
            offset -= offset % width;
        }
        let op = *self.random.pick(&[Op::Read, Op::Write]);
        self.access(op, offset, width, &[]);
    }

    fn access(&mut self, op: Op, offset: u64, width: u64, aims: &[u64]) {
        if op == Op::Read {
            return self.plan(op, &[offset, width]);
        }
        let value = self.value(offset, aims);
        let places = match self.random.below(24) {
            0 => self.count.saturating_sub(1),
            1 => self.random.below(self.count + 1),
            2..=4 => self.count + 1 + self.random.below(8),
            _ => self.count,
        };
        self.plan(op, &[offset, width, value, places]);
    }

    // Arguments.

    fn intid(&mut self) -> u64 {
        let in_table = !self.random.chance(8);
        match self.random.below(10) {
            _ if in_table && !self.hot.is_empty() => *self.random.pick(&self.hot),
            0..=2 => 32 + self.count + self.random.below(3),
            3..=4 => 32 + self.random.below(self.count + 1),
            _ => self.argument(Arg::Number),
        }
    }

    /// Mostly bits of the SPIs aimed at, with noise in the bits that do not
    /// count; else few bits, all, or any.
    fn value(&mut self, offset: u64, aims: &[u64]) -> u64 {
        let bank = BANKS.iter().find(|bank| bank.holds(offset));
        let any = self.random.any();
        match (self.random.below(24), bank.map(|bank| bank.bits)) {
            (0, _) => u64::MAX,
            (1, _) => 0,
            (2, _) => any,
            (3, _) => 1 << (any % 64),
            (4, _) => any & self.random.any() & self.random.any() & self.random.any(),
            (_, Some(bits @ (1 | 2))) => {
                let counting = if bits == 1 { 0xffff_ffff } else { 0xaaaa_aaaa };
                let mut value = any & !counting;
                for &intid in aims {
                    let word = bank.map(|bank| bank.offset_of(intid) & !3);
                    if word == Some(offset) && self.random.chance(60) {
                        value |= bits << (intid * bits % 32);
                    }
                }
                value
            }
            (_, Some(64)) => self.argument(Arg::Affinity),
            (_, Some(0)) if any & 8 == 0 => any & 3,
            _ => any,
        }
    }

    fn argument(&mut self, arg: Arg) -> u64 {
        let known: &[u64] = match arg {
            Arg::Bit | Arg::Trigger | Arg::State => arg.samples(),
            Arg::Byte => &BYTES,
            Arg::Number => &NUMBERS,
            Arg::Affinity => &AFFINITIES,
            _ => unreachable!("made where it is used"),
        };
        let any = self.random.any();
        match arg {
            Arg::Byte if any & 1 == 0 => any >> 8 & 0xff,
            Arg::Number if any & 3 == 0 => (any >> 8) % 1100,
            Arg::Number if any & 3 == 1 => any >> 32,
            Arg::Affinity if any & 1 == 0 => any,
            _ => *self.random.pick(known),
        }
    }
}
