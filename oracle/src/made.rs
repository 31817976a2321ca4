//! A record from its fields, those included that no call reaches, such as a
//! redelivery mark on an interrupt that is not in flight. Only a child of
//! interrupt.rs can put fields into a record: see build.rs.

use super::InterruptRecord;
use crate::{
    GicAffinity, IntId, Priority, SpiId, TriggerMode,
    machine::{
        ACTIVE, EDGE, ENABLED, INFLIGHT, LINE, MASKED, PENDING, REDELIVERY, ROUTED,
    },
};

/// The record in a slot.
pub(crate) fn record(spi: SpiId, slot: u64) -> InterruptRecord {
    let has = |flag: u64| slot & flag != 0;
    let [_, _, priority, mask, zero, one, two, three] = slot.to_le_bytes();
    InterruptRecord {
        intid: IntId::Spi(spi),
        enabled: has(ENABLED),
        pending: has(PENDING),
        active: has(ACTIVE),
        inflight: has(INFLIGHT),
        redelivery_pending: has(REDELIVERY),
        line_asserted: has(LINE),
        priority: Priority::new(priority),
        trigger: if has(EDGE) {
            TriggerMode::Edge
        } else {
            TriggerMode::Level
        },
        route: has(ROUTED).then(|| GicAffinity::new(three, two, one, zero)),
        cpu_target_mask: has(MASKED).then_some(mask),
    }
}
