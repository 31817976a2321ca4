//! The calls, a row each: number, name in the Rust, arguments. And what an
//! answer is.

/// What an argument may be.
#[derive(Clone, Copy, Debug, Eq, PartialEq)]
pub enum Arg {
    /// 0 or 1.
    Bit,
    /// 0 level, 1 edge.
    Trigger,
    /// pending + 2 * active.
    State,
    /// A priority, a target mask, or the raw number of an SGI or PPI.
    Byte,
    /// A raw INTID for a maker of identifiers, any 32-bit number.
    Number,
    /// The INTID that a host call is about, any 32-bit number.
    Spi,
    /// An affinity packed as in MPIDR, any 64-bit number.
    Affinity,
    /// N.
    Count,
    /// Ownership in bit 0 (1 explicit), then the LPI, ITS, level-3 and range
    /// flags.
    Settings,
    /// The frame size, any 64-bit number.
    Frame,
    /// The LPI limit, any 32-bit number.
    LpiLimit,
    /// The offset of a guest access, any 64-bit number.
    Offset,
    /// The width of a guest access in bytes: 1, 2, 4 or 8.
    Width,
    /// A value written by the guest, any 64-bit number.
    Value,
    /// Places in the lent candidate list.
    Places,
}

impl Arg {
    /// Every value of a small domain, one value of a large one.
    pub fn samples(self) -> &'static [u64] {
        match self {
            Self::Bit | Self::Trigger => &[0, 1],
            Self::State => &[0, 1, 2, 3],
            _ => &[1],
        }
    }
}

macro_rules! calls {
    ($($number:literal $op:ident $name:literal [$($arg:ident)*])*) => {
        #[derive(Clone, Copy, Debug, Eq, Hash, Ord, PartialEq, PartialOrd)]
        #[repr(u8)]
        pub enum Op {
            $($op = $number),*
        }

        impl Op {
            pub const ALL: &[Op] = &[$(Op::$op),*];

            pub const fn name(self) -> &'static str {
                match self {
                    $(Op::$op => $name),*
                }
            }

            pub const fn arguments(self) -> &'static [Arg] {
                match self {
                    $(Op::$op => &[$(Arg::$arg),*]),*
                }
            }
        }
    };
}

calls! {
    0x01 Sgi "SgiId::new" [Byte]
    0x02 Ppi "PpiId::new" [Byte]
    0x03 Spi "SpiId::new" [Number]
    0x04 Lpi "LpiId::new" [Number]
    0x05 IntId "IntId::new" [Number]
    0x06 Mpidr "GicAffinity::mpidr" [Affinity]
    0x07 Levels "GicAffinity::aff0 to aff3" [Affinity]
    0x08 NewRecord "InterruptRecord::new" [Number Trigger]

    0x10 Create "DistributorState::new" [Count Settings Frame LpiLimit]
    0x11 Read "read" [Offset Width]
    0x12 Write "write" [Offset Width Value Places]
    0x13 Switch "DistributorState::enabled" []
    0x14 Rollback "set_enabled_for_rollback" [Bit]
    0x15 ClaimSoftware "claim_software_spi" [Spi]
    0x16 ClaimPhysical "claim_physical_spi" [Spi Affinity]
    0x17 Release "release_spi_claim" [Spi]
    0x18 SetMask "set_cpu_target_mask" [Spi Byte]
    0x19 Mask "cpu_target_mask" [Spi]

    0x20 Intid "intid" [Spi]
    0x21 Enabled "enabled" [Spi]
    0x22 SetEnabled "set_enabled" [Spi Bit]
    0x23 Pending "pending" [Spi]
    0x24 SetPending "set_pending" [Spi Bit]
    0x25 Active "active" [Spi]
    0x26 SetActive "set_active" [Spi Bit]
    0x27 State "state" [Spi]
    0x28 SetState "set_state" [Spi State]
    0x29 HasDelivery "has_delivery_state" [Spi]
    0x2a ClearDelivery "clear_delivery_state" [Spi]
    0x2b MarkInflight "mark_inflight" [Spi]
    0x2c Synchronize "synchronize_inflight" [Spi State]
    0x2d Cancel "cancel_inflight" [Spi]
    0x2e Finish "finish_inflight" [Spi]
    0x2f Deactivate "deactivate_inflight" [Spi Bit]
    0x30 Priority "priority" [Spi]
    0x31 SetPriority "set_priority" [Spi Byte]
    0x32 Trigger "trigger" [Spi]
    0x33 SetTrigger "set_trigger" [Spi Trigger]
    0x34 Route "route" [Spi]
    0x35 SetRoute "set_route" [Spi Affinity]
    0x36 ClearRoute "clear_route" [Spi]
    0x37 SetLevel "set_level" [Spi Bit]
    0x38 Pulse "pulse" [Spi]
    0x39 Complete "complete" [Spi]
    0x3a Deliverable "deliverable" [Spi]
}

impl Op {
    /// The host calls that are about one SPI.
    pub fn by_spi() -> impl Iterator<Item = Op> {
        let by_spi = |op: &Op| op.arguments().first() == Some(&Arg::Spi);
        Op::ALL.iter().copied().filter(by_spi)
    }

    /// The calls that need no Distributor.
    pub fn identifiers() -> impl Iterator<Item = Op> {
        Op::ALL.iter().copied().filter(|&op| op < Op::Create)
    }
}

/// A call: unused arguments are 0.
#[derive(Clone, Copy, Debug, Eq, PartialEq)]
pub struct Call {
    pub op: Op,
    pub args: [u64; 4],
}

impl Call {
    pub fn new(op: Op, given: &[u64]) -> Self {
        assert_eq!(given.len(), op.arguments().len(), "{op:?}");
        let mut args = [0; 4];
        args[..given.len()].copy_from_slice(given);
        Self { op, args }
    }
}

/// An answer: `kind` is 0 when done, else the refusal's number. `payload` is the
/// value when done, the number that refusal 1 carries, else 0. `lent` is the
/// list that a write was lent, as the call leaves it: `UNTOUCHED` stands in each
/// of its places before.
#[derive(Clone, Debug, Default, Eq, PartialEq)]
pub struct Answer {
    pub kind: u8,
    pub payload: u64,
    pub candidates: Vec<u32>,
    pub lent: Vec<u32>,
}

/// No INTID.
pub const UNTOUCHED: u32 = u32::MAX;

#[cfg(test)]
mod tests {
    use super::*;

    #[test]
    fn the_page_has_a_row_for_every_call() {
        let page = concat!(env!("CARGO_MANIFEST_DIR"), "/../docs/ORACLE.md");
        let page = std::fs::read_to_string(page).unwrap();
        for &op in Op::ALL {
            let row = format!("\n| {:x} | `{}` |", op as u8, op.name());
            assert!(page.contains(&row), "no row for {op:?}");
        }
    }
}
