//! The C face over the Rust, slow and plain: the image is decoded, the Rust runs the
//! call, and what it leaves is encoded. The face's own rules, which the Rust does not
//! have, stand here: the order of the refusals, the bad records, and which SPIs a
//! call names.
//!
//! The order:
//!
//! - 6 for the image's length and header;
//! - 7 for the width;
//! - 5, 3 and 4, and 1 of a host call: these calls name nothing;
//! - 6 for a bad record that the call names, owned or not;
//! - 1 beyond the table, and 2.
//!
//! A creation tests 1, and then 6 for the length and the settings.

use std::ops::Range;

use crate::{
    calls::{Answer, Op},
    driver::Oracle,
    face::{Face, FaceCall},
    image::{self, CAPACITY, Settings},
    machine::{FRESH, Machine},
    registers::{BANKS, Bank, CTLR, WIDTHS},
};

const BAD_IMAGE: u32 = 6;
const NO_WIDTH: u32 = 7;

#[derive(Default)]
pub struct Reference {
    rust: Oracle,
    after: Vec<u64>,
}

impl Face for Reference {
    fn call(&mut self, call: &FaceCall, image: &mut [u8], list: &mut [u8], out: &mut u64) -> u32 {
        let (refusal, told) = match call {
            FaceCall::Create(settings) => self.create(settings, image),
            _ => self.run(call, image, list),
        };
        *out = told;
        refusal
    }
}

impl Reference {
    fn create(&mut self, settings: &Settings, image: &mut [u8]) -> (u32, u64) {
        if settings.count > CAPACITY {
            // The Rust first asks for memory for all N records: it is left out where
            // there are very many.
            let mut few = *settings;
            few.count = few.count.min(u16::MAX.into());
            few.ownership = 0;
            few.flags = 0;
            let answer = self.rust.run(&few.creation());
            return (answer.kind.into(), answer.payload);
        }
        if image.len() != settings.length() || !settings.allowed() {
            return (BAD_IMAGE, 0);
        }
        let answer = self.rust.run(&settings.creation());
        assert_eq!(answer, Answer::default());
        self.rust.look(&mut self.after);
        image.copy_from_slice(&settings.image(self.rust.switch(), &self.after));
        (0, 0)
    }

    fn run(&mut self, call: &FaceCall, image: &mut [u8], list: &mut [u8]) -> (u32, u64) {
        if image::bad_header(image).is_some() {
            return (BAD_IMAGE, 0);
        }
        if !call.width().is_none_or(is_width) {
            return (NO_WIDTH, 0);
        }
        let settings = image::settings(image);
        let held: Vec<u64> = image::slots(image).collect();
        let is_bad = |slot: u64| image::bad_record(slot).is_some();
        // A bad record counts as a fresh one. Where the call names it, it is refused
        // below.
        let meant = held
            .iter()
            .map(|&slot| if is_bad(slot) { FRESH } else { slot });
        let meant: Vec<u64> = meant.collect();
        self.rust.load(&settings.creation(), image[0] == 1, &meant);
        let call_in_list = call.in_list(list.len() / 4);
        let answer = self.rust.run(&call_in_list);
        self.rust.look(&mut self.after);

        let names_nothing = matches!(answer.kind, 3..=5);
        let named: Vec<usize> = match names_nothing {
            true => Vec::new(),
            false => named(call, settings.count).collect(),
        };
        if named.iter().any(|&place| is_bad(held[place])) {
            return (BAD_IMAGE, 0);
        }
        for place in named {
            image::put_slot(image, place, self.after[place]);
            self.after[place] = meant[place];
        }
        assert_eq!(self.after, meant, "{call} changes what it does not name");
        image[0] = self.rust.switch().into();

        let (places, _) = list.as_chunks_mut();
        for (place, intid) in places.iter_mut().zip(&answer.candidates) {
            *place = intid.to_le_bytes();
        }
        let out = match (call_in_list.op, answer.kind) {
            (Op::Write, 0) => answer.candidates.len() as u64,
            _ => answer.payload,
        };
        (answer.kind.into(), out)
    }
}

pub fn is_width(width: u32) -> bool {
    WIDTHS.contains(&width.into())
}

/// The places of the SPIs that a call names in a table of so many, if it is not
/// refused 3, 4, 5 or 7.
pub fn named(call: &FaceCall, count: u32) -> impl Iterator<Item = usize> {
    const ALL: u64 = u64::MAX;
    let every = 0..u64::MAX;
    // The INTIDs that it reaches, and the bits of a word that count.
    let (intids, bits) = match *call {
        FaceCall::Create(_) => (0..0, 0),
        FaceCall::Read { offset, width } => (covered(offset, width), ALL),
        // With the switch on every deliverable SPI is listed.
        FaceCall::Write { offset, value, .. } if offset == CTLR.start => match value & 2 {
            0 => (0..0, 0),
            _ => (every, ALL),
        },
        FaceCall::Write {
            offset,
            width,
            value,
        } => {
            let bits = match bank_at(offset) {
                Some(bank) if bank.name == "IGROUPR" => 0,
                Some(bank) if bank.bits == 1 => value,
                _ => ALL,
            };
            (covered(offset, width), bits)
        }
        FaceCall::ClaimSoftware { intid }
        | FaceCall::ClaimPhysical { intid, .. }
        | FaceCall::Release { intid }
        | FaceCall::SetLevel { intid, .. }
        | FaceCall::Pulse { intid } => (u64::from(intid)..u64::from(intid) + 1, ALL),
    };
    let inside = intids.start.max(32)..intids.end.min(32 + u64::from(count));
    let counts = move |intid: &u64| bits >> (intid % 32) & 1 != 0;
    inside.filter(counts).map(|intid| intid as usize - 32)
}

/// The bank with a field for each INTID at an offset. In the place of ITARGETSR
/// there is none.
fn bank_at(offset: u64) -> Option<&'static Bank> {
    let mut banks = BANKS.iter().filter(|bank| bank.name != "ITARGETSR");
    banks.find(|bank| bank.bits > 0 && bank.holds(offset))
}

/// The INTIDs whose fields an access covers.
fn covered(offset: u64, width: u32) -> Range<u64> {
    let Some(bank) = bank_at(offset) else {
        return 0..0;
    };
    let first = (offset - bank.start) * 8 / bank.bits;
    first..first + u64::from(width) * 8 / bank.bits
}
