//! What both sides show of an SPI, and how it is looked at.

use oracle::{
    calls::{Call, Op},
    machine::{ACTIVE, EDGE, ENABLED, LINE, Machine, PENDING, ROUTED},
    registers::{BANKS, Bank},
};

use crate::peer::{read, write};

/// The bits of IROUTER that name a core.
pub const AFFINITY: u64 = 0xff_00ff_ffff;

#[derive(Clone, Copy, Debug, Default, Eq, PartialEq)]
pub struct Spi {
    pub enabled: bool,
    pub pending: bool,
    pub active: bool,
    pub edge: bool,
    pub priority: u8,
    pub route: u64,
}

pub fn bank(name: &str) -> &'static Bank {
    let found = BANKS.iter().find(|bank| bank.name == name);
    found.expect("a bank has this name")
}

/// Every SPI of ours with its line, by its slot.
pub fn ours(machine: &mut dyn Machine, slots: &mut Vec<u64>) -> Vec<(Spi, bool)> {
    machine.look(slots);
    slots.iter().map(|&slot| by_slot(slot)).collect()
}

fn by_slot(slot: u64) -> (Spi, bool) {
    let has = |flag: u64| slot & flag != 0;
    let levels = slot >> 32;
    let route = (levels & 0xff00_0000) << 8 | levels & 0xff_ffff;
    let spi = Spi {
        enabled: has(ENABLED),
        pending: has(PENDING),
        active: has(ACTIVE),
        edge: has(EDGE),
        priority: (slot >> 16) as u8,
        route: if has(ROUTED) { route } else { 0 },
    };
    (spi, has(LINE))
}

/// A field, the bank that shows it, the width it is read by, and how it is put
/// into an SPI.
type Part = (&'static str, u64, fn(&mut Spi, u64));

const PARTS: [Part; 6] = [
    ("ISENABLER", 4, |spi, bits| spi.enabled = bits & 1 != 0),
    ("ISPENDR", 4, |spi, bits| spi.pending = bits & 1 != 0),
    ("ISACTIVER", 4, |spi, bits| spi.active = bits & 1 != 0),
    ("ICFGR", 4, |spi, bits| spi.edge = bits & 2 != 0),
    ("IPRIORITYR", 4, |spi, bits| spi.priority = bits as u8),
    ("IROUTER", 8, |spi, bits| spi.route = bits),
];

/// The reads that show a peer's SPIs.
pub struct Look {
    parts: Vec<&'static Part>,
    pub reads: Vec<Call>,
}

impl Look {
    /// All there is.
    pub fn whole(count: u64) -> Self {
        Self::new(count, PARTS.iter().collect())
    }

    /// The flags, which any call may change, and of the rest what the access is
    /// in or next to.
    pub fn after(call: &Call, count: u64) -> Self {
        let [offset, width, ..] = call.args;
        let near = |name: &str| {
            let bank = bank(name);
            call.op != Op::SetLevel && offset < bank.end && bank.start < offset + width
        };
        let wanted = |part: &&Part| bank(part.0).bits == 1 || near(part.0);
        Self::new(count, PARTS.iter().filter(wanted).collect())
    }

    fn new(count: u64, parts: Vec<&'static Part>) -> Self {
        let intids = |each: u64| (32..32 + count).step_by(each as usize);
        let reads = parts.iter().flat_map(|&&(name, width, _)| {
            let bank = bank(name);
            intids(8 * width / bank.bits).map(move |intid| read(bank.offset_of(intid), width))
        });
        let reads = reads.collect();
        Self { parts, reads }
    }

    /// Puts what the peer answered to the reads into what was known of it.
    pub fn take(&self, mut values: &[u64], spis: &mut [Spi]) {
        for &&(name, width, put) in &self.parts {
            let bits = bank(name).bits;
            let each = (8 * width / bits) as usize;
            let (mine, others) = values.split_at(spis.len().div_ceil(each));
            for (place, spi) in spis.iter_mut().enumerate() {
                put(spi, mine[place / each] >> (place % each * bits as usize));
            }
            values = others;
        }
    }
}

/// What brings both sides to one state of an SPI: calls of the host on ours, and
/// writes on the peer.
#[derive(Default)]
pub struct Settling {
    pub ours: Vec<Call>,
    pub peer: Vec<Call>,
}

impl Settling {
    /// Ours goes to what the peer shows. But the peer takes our priority, and
    /// loses the bits of a route that ours has no place for.
    pub fn add(&mut self, intid: u64, shown: &Spi, now: &Spi) {
        let route = shown.route & AFFINITY;
        let set =
            |name: &str, width: u64, value: u64| write(bank(name).offset_of(intid), width, value);
        if shown.priority != now.priority {
            self.peer.push(set("IPRIORITYR", 1, now.priority.into()));
        }
        if shown.route != route {
            self.peer.push(set("IROUTER", 8, route));
        }
        let flag = |op: Op, shown: bool, now: bool| (op, u64::from(shown), u64::from(now));
        let fields = [
            flag(Op::SetEnabled, shown.enabled, now.enabled),
            flag(Op::SetTrigger, shown.edge, now.edge),
            flag(Op::SetActive, shown.active, now.active),
            (Op::SetRoute, route, now.route),
            flag(Op::SetPending, shown.pending, now.pending),
        ];
        // Pending comes last, and after any other, since that may change it.
        let before = self.ours.len();
        for (op, shown, now) in fields {
            let changed = self.ours.len() > before;
            if shown != now || changed && op == Op::SetPending {
                self.ours.push(Call::new(op, &[intid, shown]));
            }
        }
    }
}

#[cfg(test)]
mod tests {
    use super::*;
    use crate::{peer::Peer as _, stand_in::StandIn};
    use oracle::driver::Oracle;

    #[test]
    fn both_looks_see_the_same() {
        let count = 40;
        let mut stand_in = StandIn::new(Oracle::default(), count);
        stand_in.reset();
        let machine = &mut stand_in.machine;
        for (op, intid, value) in [
            (Op::SetEnabled, 33, 1),
            (Op::SetPending, 63, 1),
            (Op::SetActive, 64, 1),
            (Op::SetTrigger, 71, 1),
            (Op::SetPriority, 70, 0xa5),
            (Op::SetRoute, 65, 0x44_ff33_2211),
        ] {
            machine.run(&Call::new(op, &[intid, value]));
        }
        let here: Vec<Spi> = ours(machine, &mut Vec::new())
            .into_iter()
            .map(|(spi, _)| spi)
            .collect();
        assert_eq!(here[33].route, 0x44_0033_2211);
        let look = Look::whole(count);
        let mut shown = vec![Spi::default(); count as usize];
        look.take(&stand_in.run(&look.reads), &mut shown);
        assert_eq!(shown, here);
    }
    #[test]
    fn settling_brings_both_to_one_state() {
        let [mut here, mut peer] = [(); 2].map(|_| StandIn::new(Oracle::default(), 40));
        here.reset();
        peer.reset();
        for (op, intid, value) in [
            (Op::SetEnabled, 33, 1),
            (Op::SetPriority, 34, 0xa5),
            (Op::SetTrigger, 35, 1),
            (Op::SetActive, 36, 1),
            (Op::SetRoute, 37, 0x44_0033_2211),
            (Op::SetPending, 38, 1),
        ] {
            peer.machine.run(&Call::new(op, &[intid, value]));
        }
        here.machine.run(&Call::new(Op::SetPending, &[39, 1]));
        let look = |one: &mut StandIn<Oracle>| ours(&mut one.machine, &mut Vec::new());
        let mut settling = Settling::default();
        for (intid, (now, shown)) in (32..).zip(look(&mut here).iter().zip(&look(&mut peer))) {
            settling.add(intid, &shown.0, &now.0);
        }
        peer.run(&settling.peer);
        here.run(&settling.ours);
        let both = [look(&mut here), look(&mut peer)];
        assert_eq!(both[0], both[1]);
        assert!(both[0][6].0.pending && !both[0][7].0.pending);
        assert_eq!(both[0][2].0.priority, 0x80);
    }
}
