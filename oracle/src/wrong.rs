//! Faces that are wrong in one way each, for the tests: each has to be found.

use std::ops::Range;

use crate::{
    face::{Face, FaceCall},
    image::{self, CAPACITY, HEADER, RECORD, Settings},
    machine::{CLAIMED, FIXED, FRESH, INFLIGHT, MASKED, REDELIVERY, ROUTED},
    reference::{self, Reference, is_width},
    trial::mend_records,
};

/// What is wrong with a face that is otherwise the reference.
#[derive(Clone, Copy, Debug, Eq, PartialEq)]
pub enum Fault {
    // The order of the refusals.
    WidthBeforeHeader,
    AccessBeforeList,
    RecordBeforeList,
    BeyondBeforeRecord,
    ConflictBeforeRecord,
    LengthBeforeCount,
    // Which records are looked at.
    UnnamedRefused,
    UnnamedMended,
    UnownedPassed,
    SwitchPassed,
    UnreachedRefused,
    // What is bad.
    SpareBitPassed,
    RouteAndMaskPassed,
    FixedPassed,
    SpareBytePassed,
    TooManyPassed,
    OldImageRefused,
    // What is written.
    MaskKept,
    PlacePastCount,
    BytesLeftOver,
    RefusedLists,
    OutKept,
    ReadStores,
    // How numbers are taken.
    OneIsHigh,
    WidthCut,
    IntidCut,
    FlagsCut,
}

impl Fault {
    pub const ALL: [Fault; 27] = [
        Fault::WidthBeforeHeader,
        Fault::AccessBeforeList,
        Fault::RecordBeforeList,
        Fault::BeyondBeforeRecord,
        Fault::ConflictBeforeRecord,
        Fault::LengthBeforeCount,
        Fault::UnnamedRefused,
        Fault::UnnamedMended,
        Fault::UnownedPassed,
        Fault::SwitchPassed,
        Fault::UnreachedRefused,
        Fault::SpareBitPassed,
        Fault::RouteAndMaskPassed,
        Fault::FixedPassed,
        Fault::SpareBytePassed,
        Fault::TooManyPassed,
        Fault::OldImageRefused,
        Fault::MaskKept,
        Fault::PlacePastCount,
        Fault::BytesLeftOver,
        Fault::RefusedLists,
        Fault::OutKept,
        Fault::ReadStores,
        Fault::OneIsHigh,
        Fault::WidthCut,
        Fault::IntidCut,
        Fault::FlagsCut,
    ];

    /// Whether good images show it too.
    pub fn shows_on_good_images(self) -> bool {
        matches!(
            self,
            Self::AccessBeforeList
                | Self::LengthBeforeCount
                | Self::OldImageRefused
                | Self::MaskKept
                | Self::PlacePastCount
                | Self::BytesLeftOver
                | Self::RefusedLists
                | Self::OutKept
                | Self::ReadStores
                | Self::OneIsHigh
                | Self::IntidCut
        )
    }
}

pub struct Wrong {
    reference: Reference,
    fault: Fault,
}

impl Face for Wrong {
    fn call(&mut self, call: &FaceCall, image: &mut [u8], list: &mut [u8], out: &mut u64) -> u32 {
        let (held, before) = (*out, image.to_vec());
        let creates = matches!(call, FaceCall::Create(_));
        let is_whole = image.len() >= HEADER;
        let call = self.renumbered(*call);
        if let Some((refusal, told)) = self.refuses(&call, image, list) {
            *out = told;
            return refusal;
        }
        if self.fault == Fault::SpareBytePassed && !creates && is_whole {
            image[SPARE_BYTES].fill(0);
        }
        let refusal = match self.passes(&call, image) {
            Some(other) => self.through(&call, image, list, out, other),
            None => self.reference.call(&call, image, list, out),
        };
        match self.fault {
            Fault::UnnamedMended if is_good(image) && !matches!(refusal, 6 | 7) => {
                change(image, |_, slot| without_bad(slot));
            }
            Fault::MaskKept if is_good(image) && refusal == 0 => {
                let before: Vec<u64> = image::slots(&before).collect();
                change(image, |place, slot| match slot & ROUTED {
                    0 => slot,
                    _ => slot | before[place] & (MASKED | MASK),
                });
            }
            Fault::SpareBytePassed if !creates && is_whole => {
                image[SPARE_BYTES].copy_from_slice(&before[SPARE_BYTES]);
            }
            Fault::PlacePastCount if refusal == 0 => spoil(list.get_mut(4 * *out as usize)),
            Fault::BytesLeftOver => spoil(list.as_chunks_mut::<4>().1.last_mut()),
            Fault::RefusedLists if refusal == 1 => spoil(list.first_mut()),
            Fault::OutKept if refusal != 0 => *out = held,
            Fault::ReadStores if matches!(call, FaceCall::Read { .. }) => spoil(image.get_mut(8)),
            _ => {}
        }
        refusal
    }
}

impl Wrong {
    pub fn new(fault: Fault) -> Self {
        Self {
            reference: Reference::default(),
            fault,
        }
    }

    /// The call with a number that is taken wrongly.
    fn renumbered(&self, mut call: FaceCall) -> FaceCall {
        match (self.fault, &mut call) {
            (Fault::OneIsHigh, FaceCall::SetLevel { level, .. }) => *level = (*level == 1).into(),
            (Fault::WidthCut, FaceCall::Read { width, .. } | FaceCall::Write { width, .. }) => {
                *width &= 0xff;
            }
            (Fault::IntidCut, FaceCall::Pulse { intid }) => *intid &= 0xffff,
            (Fault::FlagsCut, FaceCall::Create(Settings { flags, .. })) => *flags &= 0xff,
            _ => {}
        }
        call
    }

    /// A refusal that is given too early, or that there is none of, and its `out`.
    fn refuses(&mut self, call: &FaceCall, image: &[u8], list: &[u8]) -> Option<(u32, u64)> {
        let creates = matches!(call, FaceCall::Create(_));
        let right = self.said(call, image, list);
        let names = |test: fn(u64) -> bool| {
            let slots: Vec<u64> = image::slots(image).collect();
            let mut named = reference::named(call, slots.len() as u32);
            named.any(|place| test(slots[place]))
        };
        let wrong = match (self.fault, right.0) {
            (Fault::WidthBeforeHeader, 6) if !call.width().is_none_or(is_width) => 7,
            (Fault::AccessBeforeList | Fault::RecordBeforeList, 5) => {
                let behind = self.said(call, image, &[0; 4 * CAPACITY as usize]).0;
                match self.fault {
                    Fault::AccessBeforeList if matches!(behind, 3 | 4) => behind,
                    Fault::RecordBeforeList if behind == 6 => behind,
                    _ => return None,
                }
            }
            (Fault::BeyondBeforeRecord | Fault::ConflictBeforeRecord, 6) if is_good(image) => {
                let mut mended = image.to_vec();
                mend_records(&mut mended);
                let behind = self.said(call, &mended, list);
                let early = match self.fault {
                    Fault::BeyondBeforeRecord => 1,
                    _ => 2,
                };
                return (behind.0 == early).then_some(behind);
            }
            (Fault::LengthBeforeCount, 1) if creates => 6,
            (Fault::OldImageRefused, 0) if creates && !is_good(image) => 6,
            (Fault::UnnamedRefused, _) if is_good(image) && !creates => {
                match image::slots(image).any(is_bad) {
                    true => 6,
                    false => return None,
                }
            }
            (Fault::UnreachedRefused, 0) if !creates => {
                match names(|slot| slot & (REDELIVERY | INFLIGHT) == REDELIVERY) {
                    true => 6,
                    false => return None,
                }
            }
            (Fault::TooManyPassed, 6) if !creates && image.len() > LONGEST => {
                match image.len() == image::settings(image).length() {
                    true => 0,
                    false => return None,
                }
            }
            _ => return None,
        };
        Some((wrong, 0))
    }

    /// What stands for a record that is bad and is let pass.
    fn passes(&self, call: &FaceCall, image: &[u8]) -> Option<fn(u64) -> u64> {
        if !is_good(image) {
            return None;
        }
        let explicit = image::settings(image).ownership == 1;
        match (self.fault, call) {
            (Fault::UnownedPassed, FaceCall::Read { .. } | FaceCall::Write { .. }) if explicit => {
                Some(|slot| match slot & CLAIMED {
                    0 => without_bad(slot),
                    _ => slot,
                })
            }
            (Fault::SwitchPassed, FaceCall::Write { offset: 0, .. }) => Some(without_bad),
            (Fault::SpareBitPassed, _) => Some(|slot| slot & !SPARE),
            (Fault::RouteAndMaskPassed, _) => Some(|slot| match slot & (ROUTED | MASKED) {
                BOTH => slot & !(MASKED | MASK),
                _ => slot,
            }),
            (Fault::FixedPassed, _) => Some(|slot| match slot & CLAIMED {
                0 => slot & !FIXED,
                _ => slot,
            }),
            _ => None,
        }
    }

    /// Runs a call as if each record were another. A record that the call leaves so
    /// is put back.
    fn through(
        &mut self,
        call: &FaceCall,
        image: &mut [u8],
        list: &mut [u8],
        out: &mut u64,
        other: fn(u64) -> u64,
    ) -> u32 {
        let held: Vec<u64> = image::slots(image).collect();
        change(image, |_, slot| other(slot));
        let refusal = self.reference.call(call, image, list, out);
        change(image, |place, slot| match slot == other(held[place]) {
            true => held[place],
            false => slot,
        });
        refusal
    }

    /// What the reference says to a call.
    fn said(&mut self, call: &FaceCall, image: &[u8], list: &[u8]) -> (u32, u64) {
        let (mut image, mut list) = (image.to_vec(), list.to_vec());
        let mut out = 0;
        let refusal = (self.reference).call(call, &mut image, &mut list, &mut out);
        (refusal, out)
    }
}

const LONGEST: usize = HEADER + RECORD * CAPACITY as usize;
const SPARE_BYTES: Range<usize> = 12..16;
const SPARE: u64 = 0xf800;
const MASK: u64 = 0xff00_0000;
const BOTH: u64 = ROUTED | MASKED;

fn is_good(image: &[u8]) -> bool {
    image::bad_header(image).is_none()
}

fn is_bad(slot: u64) -> bool {
    image::bad_record(slot).is_some()
}

fn without_bad(slot: u64) -> u64 {
    if is_bad(slot) { FRESH } else { slot }
}

fn change(image: &mut [u8], other: impl Fn(usize, u64) -> u64) {
    let slots: Vec<u64> = image::slots(image).collect();
    for (place, slot) in slots.into_iter().enumerate() {
        image::put_slot(image, place, other(place, slot));
    }
}

fn spoil(byte: Option<&mut u8>) {
    if let Some(byte) = byte {
        *byte ^= 1;
    }
}
