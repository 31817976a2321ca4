//! Names the differences of a call that both sides have run. It knows what the
//! call was and the state before it, not which differences are expected.

use oracle::{
    calls::{Answer, Call, Op},
    registers::BANKS,
};

use crate::{
    compare::FRAME,
    difference::{ELSEWHERE, Field, Kind, LOWERED, RAISED},
    state::{AFFINITY, Spi, bank},
};

/// A difference: the register or the call, and how the two sides differ.
pub type Found = (&'static str, Kind);

/// What can be told of a call once both sides have run it.
pub struct Ran<'a> {
    pub call: &'a Call,
    pub register: &'static str,
    /// Every SPI with its line, as both sides had it before the call.
    pub before: &'a [(Spi, bool)],
    pub answer: Answer,
    /// What the peer read.
    pub value: u64,
}

impl Ran<'_> {
    /// How the answers differ.
    pub fn answers(&self) -> Vec<Found> {
        let [offset, width, ..] = self.call.args;
        let reads = self.call.op == Op::Read;
        let kinds = match self.answer.kind {
            0 if reads => self.values(),
            0 => vec![],
            3 if self.misaligned() => vec![Kind::Misaligned],
            3 if offset + width > FRAME => vec![Kind::PastFrame],
            4 if self.half() => {
                let intid = (offset - bank("IROUTER").start) / 8;
                let route = self.spi(intid).route;
                let half = route >> (8 * (offset % 8)) & 0xffff_ffff;
                let same = !reads || self.value == half;
                vec![if same { Kind::Half } else { Kind::Value }]
            }
            4 if self.value == 0 && !bank(self.register).widths.contains(&width) => {
                vec![Kind::Width]
            }
            number => vec![Kind::Refused(number)],
        };
        kinds
            .into_iter()
            .map(|kind| (self.register, kind))
            .collect()
    }

    /// How the values of a read differ that is done here.
    fn values(&self) -> Vec<Kind> {
        let [offset, width, ..] = self.call.args;
        let (here, peer) = (self.answer.payload, self.value);
        let in_ours = |bit: u32| here >> bit & 1 != 0;
        let by_bit = |bit: u32| Kind::Bit {
            bit,
            here: in_ours(bit),
        };
        let unlike = (0..64).filter(|bit| (here ^ peer) >> bit & 1 != 0);
        match self.register {
            _ if here == peer => vec![],
            "CTLR" => unlike.map(by_bit).collect(),
            "TYPER" => {
                let (here, peer) = (here & 0x1f, peer & 0x1f);
                let lines = (here != peer).then_some(Kind::Lines { here, peer });
                let bits = unlike.filter(|&bit| bit > 4).map(by_bit);
                bits.chain(lines).collect()
            }
            "IGROUPR" => {
                let first = (offset - bank("IGROUPR").start) * 8;
                let kind = |bit: u32| match self.place(first + u64::from(bit)) {
                    Some(_) => Kind::Group { here: in_ours(bit) },
                    None => by_bit(bit),
                };
                unlike.map(kind).collect()
            }
            "IPRIORITYR" if self.word_or_qword() && peer == 0 => {
                let first = offset - bank("IPRIORITYR").start;
                let byte = |at: u64| u64::from(self.spi(first + at).priority) << (8 * at);
                let same = here == (0..width).map(byte).sum();
                vec![if same { Kind::WidthHere } else { Kind::Value }]
            }
            _ => vec![Kind::Value],
        }
    }

    /// How an SPI differs after the call.
    pub fn changes(&self, intid: u64, now: &Spi, shown: &Spi) -> Vec<Found> {
        let (before, line) = self.before[intid as usize - 32];
        if let Some(kind) = self.change_on_one_side(intid, &before, now, shown) {
            return vec![(self.register, kind)];
        }
        let mut kinds = Vec::new();
        let mut rest = *now;
        if now.pending != shown.pending {
            let (here, edge, active) = (now.pending, before.edge, before.active);
            kinds.push(Kind::Pending {
                here,
                edge,
                line,
                active,
            });
            rest.pending = shown.pending;
        }
        if now.route != shown.route && now.route == shown.route & AFFINITY {
            let (more, any_core) = (shown.route & !AFFINITY, 1 << 31);
            kinds.extend((more & any_core != 0).then_some(Kind::AnyCore));
            kinds.extend((more & !any_core != 0).then_some(Kind::Reserved));
            rest.route = shown.route;
        }
        let mut found: Vec<Found> = kinds
            .into_iter()
            .map(|kind| (self.register, kind))
            .collect();
        found.extend(others(self.register, &rest, shown));
        found
    }

    /// What an access did that only one side serves, if it did just that.
    fn change_on_one_side(&self, intid: u64, before: &Spi, now: &Spi, shown: &Spi) -> Option<Kind> {
        let [offset, _, value, _] = self.call.args;
        if self.answer.kind == 3 && self.misaligned() {
            return (now == before).then_some(Kind::Misaligned);
        }
        if self.half() {
            let shift = 8 * (offset % 8);
            let kept = before.route & !(0xffff_ffff << shift);
            let route = kept | (value & 0xffff_ffff) << shift;
            let its_own = bank("IROUTER").offset_of(intid) == offset - offset % 8;
            let served = its_own && *shown == (Spi { route, ..*before });
            return (now == before && served).then_some(Kind::Half);
        }
        if self.register == "IPRIORITYR" && self.word_or_qword() {
            let at = bank("IPRIORITYR").offset_of(intid).checked_sub(offset)?;
            let priority = (value.checked_shr(8 * at as u32)?) as u8;
            let served = at < self.call.args[1]
                && *now
                    == (Spi {
                        priority,
                        ..*before
                    });
            return (shown == before && served).then_some(Kind::WidthHere);
        }
        None
    }

    fn misaligned(&self) -> bool {
        let [offset, width, ..] = self.call.args;
        !offset.is_multiple_of(width)
    }

    fn word_or_qword(&self) -> bool {
        matches!(self.call.args[1], 2 | 8)
    }

    /// Whether it is an aligned Dword of IROUTER that is refused here.
    fn half(&self) -> bool {
        self.register == "IROUTER" && self.call.args[1] == 4 && self.answer.kind == 4
    }

    fn place(&self, intid: u64) -> Option<usize> {
        let place = intid.checked_sub(32)? as usize;
        (place < self.before.len()).then_some(place)
    }

    /// An SPI before the call; nothing where there is none.
    fn spi(&self, intid: u64) -> Spi {
        let place = self.place(intid);
        place.map_or(Spi::default(), |place| self.before[place].0)
    }
}

/// The fields that differ.
pub fn others(register: &'static str, now: &Spi, shown: &Spi) -> Vec<Found> {
    let fields = [
        (Field::Enabled, now.enabled != shown.enabled),
        (Field::Pending, now.pending != shown.pending),
        (Field::Active, now.active != shown.active),
        (Field::Trigger, now.edge != shown.edge),
        (Field::Priority, now.priority != shown.priority),
        (Field::Route, now.route != shown.route),
    ];
    let differing = fields.into_iter().filter(|&(_, differs)| differs);
    differing
        .map(|(field, _)| (register, Kind::After(field)))
        .collect()
}

/// The bank an access begins in, or which line call it is.
pub fn register(call: &Call) -> &'static str {
    let [offset, high, ..] = call.args;
    if call.op == Op::SetLevel {
        return if high == 1 { RAISED } else { LOWERED };
    }
    let mut banks = BANKS.iter();
    let bank = banks.find(|bank| (bank.start..bank.end).contains(&offset));
    bank.map_or(ELSEWHERE, |bank| bank.name)
}
