//! Runs calls on the Rust and tells its answers in the paper's terms.
//!
//! The Rust hides some fields of a record, the claims and the fixed marks. The
//! operations show them: a hidden flag by what an operation does to a clone of
//! the record, a claim by IGROUPR under explicit claims, a fixed mark by whether
//! a target mask takes.

use crate::{
    AccessWidth, DistributorState, GicAffinity, GicV3SpiOwnership, IntId, InterruptRecord,
    InterruptState, LpiId, PpiId, Priority, SgiId, SpiId, TriggerMode, VgicError, VgicResult,
    calls::{Answer, Call, Op, UNTOUCHED},
    controller::ControllerConfig,
    interrupt::made,
    machine::{
        ACTIVE, CLAIMED, EDGE, ENABLED, FIXED, INFLIGHT, LINE, MASKED, Machine, PENDING,
        REDELIVERY, ROUTED,
    },
    register::GICD_IGROUPR,
};

/// The Rust, with at most one Distributor.
#[derive(Default)]
pub struct Oracle {
    made: Option<Made>,
}

struct Made {
    config: ControllerConfig,
    state: DistributorState,
}

impl Machine for Oracle {
    fn run(&mut self, call: &Call) -> Answer {
        let mut answer = self.answer(call).unwrap_or_else(refusal);
        if call.op == Op::Write {
            answer.lent = answer.candidates.clone();
            answer.lent.resize(call.args[3] as usize, UNTOUCHED);
        }
        answer
    }

    fn switch(&self) -> bool {
        self.made.as_ref().is_some_and(|made| made.state.enabled())
    }

    fn look(&mut self, slots: &mut Vec<u64>) {
        slots.clear();
        let Some(Made { config, state }) = &mut self.made else {
            return;
        };
        let explicit = ControllerConfig::explicit(config.spi_count, u64::MAX);
        let mut claims = 0;
        for raw in 32..config.spi_limit() {
            if raw % 32 == 0 {
                let offset = GICD_IGROUPR + u64::from(raw) / 8;
                claims = state.read(offset, AccessWidth::Dword, &explicit).unwrap();
            }
            let spi = SpiId::new(raw).unwrap();
            let mut slot = pack(state.interrupt(spi).unwrap());
            if claims >> (raw % 32) & 1 != 0 {
                slot |= CLAIMED;
            }
            if fixed(state, spi) {
                slot |= FIXED;
            }
            slots.push(slot);
        }
    }
}

impl Oracle {
    /// Makes a Distributor with the settings of a creation, in any state: a slot
    /// may be one that no call reaches.
    pub fn load(&mut self, creation: &Call, switch: bool, slots: &[u64]) {
        self.create(creation).expect("N is at most 988");
        let state = self.state();
        state.set_enabled_for_rollback(switch);
        for (raw, &slot) in (32..).zip(slots) {
            let spi = SpiId::new(raw).unwrap();
            let claim = match (slot & CLAIMED != 0, slot & FIXED != 0) {
                (false, _) => Ok(()),
                (true, false) => state.claim_software_spi(spi),
                (true, true) => state.claim_physical_spi(spi, GicAffinity::from_mpidr(0)),
            };
            claim.expect("a new SPI is not claimed");
            *state.interrupt_mut(spi).unwrap() = made::record(spi, slot);
        }
    }

    /// The answer without the lent list, which the Rust does not have: it hands
    /// back a list of its own. A row a call; `done` is for those without a value.
    #[allow(clippy::unit_arg)]
    fn answer(&mut self, call: &Call) -> VgicResult<Answer> {
        let [a, b, c, d] = call.args;
        let payload = match call.op {
            Op::Sgi => SgiId::new(byte(a))?.raw().into(),
            Op::Ppi => PpiId::new(byte(a))?.raw().into(),
            Op::Spi => SpiId::new(word(a))?.raw().into(),
            Op::Lpi => LpiId::new(word(a))?.raw().into(),
            Op::IntId => kind_and_raw(IntId::new(word(a))?),
            Op::Mpidr => GicAffinity::from_mpidr(a).mpidr(),
            Op::Levels => u64::from_le_bytes(levels(GicAffinity::from_mpidr(a))) >> 32,
            Op::NewRecord => pack(&InterruptRecord::new(IntId::new(word(a))?, trigger(b))),

            Op::Create => return self.create(call),
            Op::Read => {
                let Made { config, state } = self.made();
                state.read(a, width(b), config)?
            }
            Op::Write => return self.write(a, width(b), c, d),
            Op::Switch => self.state().enabled().into(),
            Op::Rollback => done(self.state().set_enabled_for_rollback(bit(a))),
            Op::ClaimSoftware => done(self.state().claim_software_spi(spi(a)?)?),
            Op::ClaimPhysical => {
                let route = GicAffinity::from_mpidr(b);
                done(self.state().claim_physical_spi(spi(a)?, route)?)
            }
            Op::Release => done(self.state().release_spi_claim(spi(a)?)?),
            Op::SetMask => {
                // Outside the table the Rust stops here; the paper has refusal 1.
                self.record(a)?;
                done(self.state().set_cpu_target_mask(spi(a)?, byte(b))?)
            }
            Op::Mask => self.state().cpu_target_mask(spi(a)?)?.into(),

            Op::Intid => self.record(a)?.intid().raw().into(),
            Op::Enabled => self.record(a)?.enabled().into(),
            Op::SetEnabled => done(self.record(a)?.set_enabled(bit(b))),
            Op::Pending => self.record(a)?.pending().into(),
            Op::SetPending => done(self.record(a)?.set_pending(bit(b))),
            Op::Active => self.record(a)?.active().into(),
            Op::SetActive => done(self.record(a)?.set_active(bit(b))),
            Op::State => number(self.state().state(spi(a)?)?),
            Op::SetState => done(self.record(a)?.set_state(life(b))),
            Op::HasDelivery => self.record(a)?.has_delivery_state().into(),
            Op::ClearDelivery => done(self.record(a)?.clear_delivery_state()),
            Op::MarkInflight => done(self.record(a)?.mark_inflight()),
            Op::Synchronize => number(self.record(a)?.synchronize_inflight(life(b))),
            Op::Cancel => done(self.record(a)?.cancel_inflight()),
            Op::Finish => done(self.record(a)?.finish_inflight()),
            Op::Deactivate => done(self.record(a)?.deactivate_inflight(bit(b))),
            Op::Priority => self.record(a)?.priority().raw().into(),
            Op::SetPriority => done(self.record(a)?.set_priority(Priority::new(byte(b)))),
            Op::Trigger => (self.record(a)?.trigger() == TriggerMode::Edge).into(),
            Op::SetTrigger => done(self.state().set_trigger(spi(a)?, trigger(b))?),
            Op::Route => {
                let route = self.record(a)?.route();
                route.map_or(0, |route| 1 << 40 | route.mpidr())
            }
            Op::SetRoute => {
                let route = GicAffinity::from_mpidr(b);
                done(self.state().set_route(spi(a)?, route)?)
            }
            Op::ClearRoute => done(self.record(a)?.clear_route()),
            Op::SetLevel => done(self.state().set_level(spi(a)?, bit(b))?),
            Op::Pulse => done(self.state().pulse(spi(a)?)?),
            Op::Complete => done(self.record(a)?.complete()),
            Op::Deliverable => self.record(a)?.deliverable().into(),
        };
        Ok(Answer {
            payload,
            ..Answer::default()
        })
    }

    fn create(&mut self, call: &Call) -> VgicResult<Answer> {
        self.made = None;
        self.made = Some(Made {
            state: DistributorState::new(call.args[0] as usize)?,
            config: config(call),
        });
        Ok(Answer::default())
    }

    fn write(
        &mut self,
        at: u64,
        width: AccessWidth,
        value: u64,
        places: u64,
    ) -> VgicResult<Answer> {
        let Made { config, state } = self.made();
        if places < config.spi_count.into() {
            // Added by the port: the Rust hands back a list of its own.
            return Ok(Answer {
                kind: 5,
                ..Answer::default()
            });
        }
        let listed = state.write(at, width, value, config)?.into_candidates();
        Ok(Answer {
            candidates: listed.into_iter().map(SpiId::raw).collect(),
            ..Answer::default()
        })
    }

    fn made(&mut self) -> &mut Made {
        self.made.as_mut().expect("a call needs a Distributor")
    }

    fn state(&mut self) -> &mut DistributorState {
        &mut self.made().state
    }

    fn record(&mut self, raw: u64) -> VgicResult<&mut InterruptRecord> {
        self.state().interrupt_mut(spi(raw)?)
    }
}

/// The settings of a creation.
pub(crate) fn config(call: &Call) -> ControllerConfig {
    let [count, settings, frame_size, lpi_limit] = call.args;
    let flag = |at: u32| settings >> at & 1 != 0;
    ControllerConfig {
        spi_count: word(count),
        ownership: if flag(0) {
            GicV3SpiOwnership::ExplicitClaims
        } else {
            GicV3SpiOwnership::AllGuestOwned
        },
        frame_size,
        lpi: flag(1),
        its: flag(2),
        lpi_limit: word(lpi_limit),
        level_3: flag(3),
        range: flag(4),
    }
}

/// Refusals 3 and 4 are one error in the Rust. Only its text tells them apart.
pub(crate) fn refusal(error: VgicError) -> Answer {
    let (kind, payload) = match error {
        VgicError::InvalidIntId { raw } => (1, raw.into()),
        VgicError::ResourceConflict { .. } => (2, 0),
        VgicError::InvalidAccess { detail, .. } if detail.starts_with("access is") => (3, 0),
        VgicError::InvalidAccess { detail, .. } if detail.starts_with("register") => (4, 0),
        other => panic!("no number for {other:?}"),
    };
    Answer {
        kind,
        payload,
        ..Answer::default()
    }
}

/// A record's slot, without claim and fixed mark.
fn pack(record: &InterruptRecord) -> u64 {
    let shown = |change: fn(&mut InterruptRecord), ask: fn(&InterruptRecord) -> bool| {
        let mut copy = record.clone();
        change(&mut copy);
        ask(&copy)
    };
    let inflight = shown(
        |copy| {
            copy.set_state(InterruptState::Inactive);
            copy.set_pending(false);
        },
        InterruptRecord::has_delivery_state,
    );
    let redelivery = shown(
        |copy| {
            copy.set_state(InterruptState::Inactive);
            copy.cancel_inflight();
        },
        InterruptRecord::pending,
    );
    let line = shown(
        |copy| {
            copy.set_pending(false);
            copy.set_enabled(true);
        },
        InterruptRecord::pending,
    );
    let (route, mask) = (record.route(), record.cpu_target_mask());
    let flags = [
        (record.enabled(), ENABLED),
        (record.pending(), PENDING),
        (record.active(), ACTIVE),
        (inflight, INFLIGHT),
        (redelivery, REDELIVERY),
        (line, LINE),
        (record.trigger() == TriggerMode::Edge, EDGE),
        (route.is_some(), ROUTED),
        (mask.is_some(), MASKED),
    ];
    let flags: u64 = flags.iter().map(|&(set, bit)| u64::from(set) * bit).sum();
    let levels = route.map_or([0; 8], levels);
    flags
        | u64::from(record.priority().raw()) << 16
        | u64::from(mask.unwrap_or(0)) << 24
        | u64::from_le_bytes(levels)
}

/// The affinity levels 0 to 3 where a slot has them.
fn levels(route: GicAffinity) -> [u8; 8] {
    let [zero, one, two, three] = [route.aff0(), route.aff1(), route.aff2(), route.aff3()];
    [0, 0, 0, 0, zero, one, two, three]
}

fn fixed(state: &mut DistributorState, spi: SpiId) -> bool {
    let saved = state.interrupt(spi).unwrap().clone();
    let mask = saved.cpu_target_mask();
    let other = !mask.unwrap_or(0);
    state.set_cpu_target_mask(spi, other).unwrap();
    let record = state.interrupt_mut(spi).unwrap();
    let kept = record.cpu_target_mask() == mask;
    *record = saved;
    kept
}

fn done((): ()) -> u64 {
    0
}

fn spi(raw: u64) -> VgicResult<SpiId> {
    SpiId::new(word(raw))
}

fn kind_and_raw(id: IntId) -> u64 {
    let kind = match id {
        IntId::Sgi(_) => 0,
        IntId::Ppi(_) => 1,
        IntId::Spi(_) => 2,
        IntId::Lpi(_) => 3,
    };
    kind << 32 | u64::from(id.raw())
}

fn number(state: InterruptState) -> u64 {
    match state {
        InterruptState::Inactive => 0,
        InterruptState::Pending => 1,
        InterruptState::Active => 2,
        InterruptState::ActivePending => 3,
    }
}

fn life(number: u64) -> InterruptState {
    match number {
        0 => InterruptState::Inactive,
        1 => InterruptState::Pending,
        2 => InterruptState::Active,
        3 => InterruptState::ActivePending,
        _ => panic!("no state has the number {number}"),
    }
}

fn trigger(number: u64) -> TriggerMode {
    if bit(number) {
        TriggerMode::Edge
    } else {
        TriggerMode::Level
    }
}

pub(crate) fn width(bytes: u64) -> AccessWidth {
    match bytes {
        1 => AccessWidth::Byte,
        2 => AccessWidth::Word,
        4 => AccessWidth::Dword,
        8 => AccessWidth::Qword,
        _ => panic!("no width has {bytes} bytes"),
    }
}

fn bit(number: u64) -> bool {
    assert!(number < 2, "{number} is not a bit");
    number == 1
}

fn byte(number: u64) -> u8 {
    number.try_into().expect("an argument over a byte")
}

fn word(number: u64) -> u32 {
    number.try_into().expect("an argument over 32 bits")
}

#[cfg(test)]
mod tests {
    use std::panic;

    use super::*;
    use crate::{image, reach};

    /// A record's slot by the text that `Debug` gives of it.
    fn slot_by_text(record: &InterruptRecord) -> u64 {
        let text = format!("{record:?}");
        let field = |name: &str| {
            let (_, rest) = text.split_once(&format!(" {name}: ")).unwrap();
            rest.to_string()
        };
        let number = |text: &str| {
            let digits: String = text.chars().take_while(char::is_ascii_digit).collect();
            digits.parse::<u64>().unwrap()
        };
        let mut slot = number(&field("priority")["Priority(".len()..]) << 16;
        for (flag, name, set) in [
            (ENABLED, "enabled", "true"),
            (PENDING, "pending", "true"),
            (ACTIVE, "active", "true"),
            (INFLIGHT, "inflight", "true"),
            (REDELIVERY, "redelivery_pending", "true"),
            (LINE, "line_asserted", "true"),
            (EDGE, "trigger", "Edge"),
            (ROUTED, "route", "Some"),
            (MASKED, "cpu_target_mask", "Some"),
        ] {
            if field(name).starts_with(set) {
                slot |= flag;
            }
        }
        if slot & MASKED != 0 {
            slot |= number(&field("cpu_target_mask")["Some(".len()..]) << 24;
        }
        if slot & ROUTED != 0 {
            for (level, name) in ["aff0", "aff1", "aff2", "aff3"].iter().enumerate() {
                slot |= number(&field(name)) << (32 + 8 * level);
            }
        }
        slot
    }

    fn run(oracle: &mut Oracle, op: Op, args: &[u64]) -> Answer {
        oracle.run(&Call::new(op, args))
    }

    fn slots(oracle: &mut Oracle) -> Vec<u64> {
        let mut slots = Vec::new();
        oracle.look(&mut slots);
        slots
    }

    #[test]
    fn a_slot_is_what_debug_shows() {
        let mut oracle = Oracle::default();
        let ways = reach::combinations(&mut oracle);
        assert!(ways.len() > 500);
        for (flags, way) in ways {
            for call in &way {
                oracle.run(call);
            }
            run(&mut oracle, Op::SetPriority, &[32, 0xa5]);
            let slot = slots(&mut oracle)[0];
            let record = oracle.record(32).unwrap();
            assert_eq!(slot & !(CLAIMED | FIXED), slot_by_text(record));
            assert_eq!(slot & reach::FLAGS, flags);
        }
    }

    #[test]
    fn routes_and_masks_are_seen_in_their_bytes() {
        let mut oracle = Oracle::default();
        run(&mut oracle, Op::Create, &[2, 0, 0x1_0000, 0]);
        run(&mut oracle, Op::SetRoute, &[32, 0x44_ff33_2211]);
        run(&mut oracle, Op::SetMask, &[33, 0x5a]);
        let expected = [0x4433_2211_0080_0200, 0x5a80_0400];
        assert_eq!(slots(&mut oracle), expected);
        for (raw, slot) in [32, 33].into_iter().zip(expected) {
            assert_eq!(slot_by_text(oracle.record(raw).unwrap()), slot);
        }
    }

    #[test]
    fn claims_and_fixed_marks_are_seen_and_left_alone() {
        for ownership in [0, 1] {
            let mut oracle = Oracle::default();
            run(&mut oracle, Op::Create, &[40, ownership, 0, 0]);
            run(&mut oracle, Op::ClaimSoftware, &[33]);
            run(&mut oracle, Op::SetMask, &[33, 7]);
            run(&mut oracle, Op::ClaimPhysical, &[64, 1]);
            let seen = slots(&mut oracle);
            let marks = |place: usize| seen[place] & (CLAIMED | FIXED);
            assert_eq!([0, 1, 32].map(marks), [0, CLAIMED, CLAIMED | FIXED]);
            assert_eq!(slots(&mut oracle), seen);
            run(&mut oracle, Op::Release, &[64]);
            assert_eq!(slots(&mut oracle)[32] & (CLAIMED | FIXED), 0);
        }
    }

    /// Every good combination of flags, whether calls reach it or not.
    #[test]
    fn any_state_can_be_loaded() {
        let mut oracle = Oracle::default();
        let reached = reach::combinations(&mut oracle);
        let mut loaded = Vec::new();
        let mut met = 0;
        for flags in 0..=reach::FLAGS {
            let mut slot = flags | 0xa5 << 16;
            if slot & ROUTED != 0 {
                slot |= 0x4433_2211 << 32;
            }
            if slot & MASKED != 0 {
                slot |= 0x5a << 24;
            }
            if image::bad_record(slot).is_some() {
                continue;
            }
            loaded.push(slot);
            met += usize::from(reached.contains_key(&flags));
        }
        assert_eq!((loaded.len(), met), (128 * 9, reached.len()));
        for (switch, slots) in [false, true].into_iter().zip(loaded.chunks(900)) {
            let creation = Call::new(Op::Create, &[slots.len() as u64, 1, 0, 0]);
            oracle.load(&creation, switch, slots);
            assert_eq!(oracle.switch(), switch);
            assert_eq!(self::slots(&mut oracle), slots);
        }
    }

    #[test]
    fn a_record_that_is_made_is_the_one_that_calls_reach() {
        let mut oracle = Oracle::default();
        for way in reach::combinations(&mut oracle).values() {
            for call in way {
                oracle.run(call);
            }
            let slot = slots(&mut oracle)[0];
            let reached = oracle.record(32).unwrap();
            let made = made::record(SpiId::new(32).unwrap(), slot);
            assert_eq!(format!("{made:?}"), format!("{reached:?}"));
        }
    }

    #[test]
    fn the_rust_stops_at_a_target_mask_outside_the_table() {
        let mut oracle = Oracle::default();
        run(&mut oracle, Op::Create, &[1, 0, 0x1_0000, 0]);
        let answer = run(&mut oracle, Op::SetMask, &[33, 1]);
        assert_eq!((answer.kind, answer.payload), (1, 33));
        let stopped = panic::catch_unwind(move || {
            let outside = SpiId::new(33).unwrap();
            oracle.state().set_cpu_target_mask(outside, 1).is_ok()
        });
        assert!(stopped.is_err());
    }
}
