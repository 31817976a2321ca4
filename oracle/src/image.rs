//! The image that a caller of the C face lends: a header of 24 bytes, then 8 bytes
//! an SPI. Numbers have their lowest byte first.
//!
//! | bytes of the header | hold |
//! |---|---|
//! | 0 | the switch, 0 or 1 |
//! | 1 | ownership: 0 all guest-owned, 1 explicit |
//! | 2 | the LPI, ITS, level-3 and range flags, from bit 0 |
//! | 4, 5 | N, at most 988 |
//! | 8 to 11 | the LPI limit |
//! | 16 to 23 | the frame size |
//!
//! The others are 0. The 8 bytes of an SPI are those of its slot (`machine`).

use std::ops::Range;

use crate::{
    calls::{Call, Op},
    machine::{CLAIMED, FIXED, FRESH, MASKED, ROUTED},
};

pub const HEADER: usize = 24;
pub const RECORD: usize = 8;
/// The most SPIs that there can be.
pub const CAPACITY: u32 = 988;

/// The bits of a slot that mean nothing.
const SPARE: u64 = 0xf800;
const MASK: u64 = 0xff00_0000;
const AFFINITY: u64 = 0xffff_ffff << 32;

/// What a creation is given, as the C function takes it.
#[derive(Clone, Copy, Debug, Default, Eq, PartialEq)]
pub struct Settings {
    pub count: u32,
    pub ownership: u32,
    pub flags: u32,
    pub lpi_limit: u32,
    pub frame_size: u64,
}

impl Settings {
    /// Those of a creation in the list.
    pub fn of(creation: &Call) -> Self {
        let [count, settings, frame_size, lpi_limit] = creation.args;
        Self {
            count: count as u32,
            ownership: settings as u32 & 1,
            flags: settings as u32 >> 1,
            lpi_limit: lpi_limit as u32,
            frame_size,
        }
    }

    /// The creation in the list that has them.
    pub fn creation(&self) -> Call {
        let settings = u64::from(self.flags) << 1 | u64::from(self.ownership);
        let (count, limit) = (self.count.into(), self.lpi_limit.into());
        Call::new(Op::Create, &[count, settings, self.frame_size, limit])
    }

    /// How long an image of theirs is.
    pub fn length(&self) -> usize {
        HEADER + RECORD * self.count as usize
    }

    /// Whether an image can hold them: N aside.
    pub fn allowed(&self) -> bool {
        self.ownership <= 1 && self.flags <= 0xf
    }

    /// The image of a state with these settings. They are allowed, and there are N
    /// slots.
    pub fn image(&self, switch: bool, slots: &[u64]) -> Vec<u8> {
        let mut image = vec![0; HEADER];
        image[0] = switch.into();
        image[1] = self.ownership as u8;
        image[2] = self.flags as u8;
        image[4..6].copy_from_slice(&(self.count as u16).to_le_bytes());
        image[8..12].copy_from_slice(&self.lpi_limit.to_le_bytes());
        image[16..24].copy_from_slice(&self.frame_size.to_le_bytes());
        image.extend(slots.iter().flat_map(|slot| slot.to_le_bytes()));
        image
    }

    /// The image of a new Distributor.
    pub fn fresh(&self) -> Vec<u8> {
        self.image(false, &vec![FRESH; self.count as usize])
    }
}

/// What can be bad about an image's length or header, each with its test. A test is
/// made where those before it found nothing.
pub const BAD_HEADERS: [Rule<[u8]>; 7] = [
    ("length under 24", |image| image.len() < HEADER),
    ("switch above 1", |image| image[0] > 1),
    ("ownership above 1", |image| image[1] > 1),
    ("flags above 15", |image| image[2] > 0xf),
    ("count above 988", |image| settings(image).count > CAPACITY),
    ("spare byte not 0", |image| {
        [3, 6, 7, 12, 13, 14, 15].iter().any(|&at| image[at] != 0)
    }),
    ("length not that of the count", |image| {
        image.len() != settings(image).length()
    }),
];

/// What can be bad about an SPI's 8 bytes.
pub const BAD_RECORDS: [Rule<u64>; 5] = [
    ("spare bit not 0", |slot| slot & SPARE != 0),
    ("absent mask not 0", |slot| {
        slot & MASKED == 0 && slot & MASK != 0
    }),
    ("absent route not 0", |slot| {
        slot & ROUTED == 0 && slot & AFFINITY != 0
    }),
    ("route and mask", |slot| {
        slot & ROUTED != 0 && slot & MASKED != 0
    }),
    ("fixed without claim", |slot| {
        slot & FIXED != 0 && slot & CLAIMED == 0
    }),
];

/// A fault in words, and whether it is there.
pub type Rule<T> = (&'static str, fn(&T) -> bool);

fn first<T: ?Sized>(rules: &[Rule<T>], of: &T) -> Option<&'static str> {
    let broken = rules.iter().find(|(_, holds)| holds(of));
    broken.map(|&(words, _)| words)
}

/// What is bad about an image's length or header, if anything is.
pub fn bad_header(image: &[u8]) -> Option<&'static str> {
    first(&BAD_HEADERS, image)
}

/// What is bad about an SPI's 8 bytes, if anything is.
pub fn bad_record(slot: u64) -> Option<&'static str> {
    first(&BAD_RECORDS, &slot)
}

/// The settings in an image with a whole header.
pub fn settings(image: &[u8]) -> Settings {
    let number = |bytes: Range<usize>| {
        let bytes = image[bytes].iter().rev();
        bytes.fold(0, |number: u64, &byte| number << 8 | u64::from(byte))
    };
    Settings {
        count: number(4..6) as u32,
        ownership: image[1].into(),
        flags: image[2].into(),
        lpi_limit: number(8..12) as u32,
        frame_size: number(16..24),
    }
}

/// The 8 bytes of each SPI, by place.
pub fn slots(image: &[u8]) -> impl Iterator<Item = u64> {
    let (records, _) = image[HEADER..].as_chunks::<RECORD>();
    records.iter().map(|&bytes| u64::from_le_bytes(bytes))
}

pub fn put_slot(image: &mut [u8], place: usize, slot: u64) {
    let at = HEADER + RECORD * place;
    image[at..at + RECORD].copy_from_slice(&slot.to_le_bytes());
}

#[cfg(test)]
mod tests {
    use super::*;

    #[test]
    fn an_image_has_the_bytes_of_the_page() {
        let settings = Settings {
            count: 0x102,
            ownership: 1,
            flags: 0b1010,
            lpi_limit: 0x0403_0201,
            frame_size: 0x0807_0605_0403_0201,
        };
        let image = settings.fresh();
        assert_eq!(image.len(), 24 + 8 * 0x102);
        let header = [
            0, 1, 10, 0, 2, 1, 0, 0, 1, 2, 3, 4, 0, 0, 0, 0, 1, 2, 3, 4, 5, 6, 7, 8,
        ];
        assert_eq!(image[..24], header);
        assert_eq!(image[24..32], [0, 0, 0x80, 0, 0, 0, 0, 0]);
        assert_eq!(bad_header(&image), None);
        assert_eq!(super::settings(&image), settings);
        assert_eq!(Settings::of(&settings.creation()), settings);
    }

    #[test]
    fn each_rule_is_broken_by_what_it_speaks_of() {
        let settings = Settings {
            count: 1,
            ..Settings::default()
        };
        let with = |at: usize, byte: u8| {
            let mut image = settings.fresh();
            image[at] = byte;
            bad_header(&image)
        };
        assert_eq!([0, 1, 2, 8, 19].map(|at| with(at, 1)), [None; 5]);
        let spoilt = [(0, 2), (1, 2), (2, 16), (5, 4), (3, 1), (4, 2)];
        let mut words = vec![bad_header(&[0; 23])];
        words.extend(spoilt.map(|(at, byte)| with(at, byte)));
        assert_eq!(words, BAD_HEADERS.map(|(words, _)| Some(words)));
        for at in [3, 6, 7, 12, 13, 14, 15] {
            assert_eq!(with(at, 0x80), Some("spare byte not 0"));
        }

        let spoilt = [
            0x800,
            1 << 24,
            1 << 63,
            ROUTED | MASKED | CLAIMED,
            FIXED | ROUTED,
        ];
        let words = BAD_RECORDS.map(|(words, _)| Some(words));
        assert_eq!(spoilt.map(bad_record), words);
        let good = [
            0,
            FRESH,
            0xff,
            FIXED | CLAIMED | MASKED | MASK,
            AFFINITY | ROUTED,
        ];
        assert_eq!(good.map(bad_record), [None; 5]);
    }
}
