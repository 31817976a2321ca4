//! The C face: its calls, the library that has them, and the third machine of the
//! comparison, which holds an image and follows the Rust.

use std::fmt::{self, Display, Formatter};

use crate::{
    calls::{Call, Op},
    image::{self, CAPACITY, HEADER, RECORD, Settings},
    lent::{Lender, filler},
    machine::Step,
};

/// A call of the face, with its numbers as C passes them.
#[derive(Clone, Copy, Debug, Eq, PartialEq)]
pub enum FaceCall {
    Create(Settings),
    Read { offset: u64, width: u32 },
    Write { offset: u64, width: u32, value: u64 },
    ClaimSoftware { intid: u32 },
    ClaimPhysical { intid: u32, affinity: u64 },
    Release { intid: u32 },
    SetLevel { intid: u32, level: u32 },
    Pulse { intid: u32 },
}

impl FaceCall {
    pub const NAMES: [&str; 8] = [
        "create",
        "read",
        "write",
        "claim_software",
        "claim_physical",
        "release",
        "set_level",
        "pulse",
    ];

    /// A call of the list, if the face has it.
    pub fn of(call: &Call) -> Option<Self> {
        let [a, b, c, _] = call.args;
        let (intid, width) = (a as u32, b as u32);
        Some(match call.op {
            Op::Create => Self::Create(Settings::of(call)),
            Op::Read => Self::Read { offset: a, width },
            Op::Write => Self::Write {
                offset: a,
                width,
                value: c,
            },
            Op::ClaimSoftware => Self::ClaimSoftware { intid },
            Op::ClaimPhysical => Self::ClaimPhysical { intid, affinity: b },
            Op::Release => Self::Release { intid },
            Op::SetLevel => Self::SetLevel {
                intid,
                level: b as u32,
            },
            Op::Pulse => Self::Pulse { intid },
            _ => return None,
        })
    }

    /// The call of the list that it is, with so many places lent. Its width is one
    /// that there is.
    pub fn in_list(&self, places: usize) -> Call {
        let (op, args) = match *self {
            Self::Create(settings) => return settings.creation(),
            Self::Read { offset, width } => (Op::Read, vec![offset, width.into()]),
            Self::Write {
                offset,
                width,
                value,
            } => (Op::Write, vec![offset, width.into(), value, places as u64]),
            Self::ClaimSoftware { intid } => (Op::ClaimSoftware, vec![intid.into()]),
            Self::ClaimPhysical { intid, affinity } => {
                (Op::ClaimPhysical, vec![intid.into(), affinity])
            }
            Self::Release { intid } => (Op::Release, vec![intid.into()]),
            Self::SetLevel { intid, level } => {
                (Op::SetLevel, vec![intid.into(), u64::from(level != 0)])
            }
            Self::Pulse { intid } => (Op::Pulse, vec![intid.into()]),
        };
        Call::new(op, &args)
    }

    /// Its number in `NAMES`.
    pub fn number(&self) -> usize {
        match self {
            Self::Create(_) => 0,
            Self::Read { .. } => 1,
            Self::Write { .. } => 2,
            Self::ClaimSoftware { .. } => 3,
            Self::ClaimPhysical { .. } => 4,
            Self::Release { .. } => 5,
            Self::SetLevel { .. } => 6,
            Self::Pulse { .. } => 7,
        }
    }

    /// The width of a guest access.
    pub fn width(&self) -> Option<u32> {
        match *self {
            Self::Read { width, .. } | Self::Write { width, .. } => Some(width),
            _ => None,
        }
    }

    /// The INTID that a host call is about.
    pub fn intid(&self) -> Option<u32> {
        match *self {
            Self::ClaimSoftware { intid }
            | Self::ClaimPhysical { intid, .. }
            | Self::Release { intid }
            | Self::SetLevel { intid, .. }
            | Self::Pulse { intid } => Some(intid),
            _ => None,
        }
    }
}

/// As C would write it, the slices and `out` left out.
impl Display for FaceCall {
    fn fmt(&self, f: &mut Formatter) -> fmt::Result {
        write!(f, "dhunglebi_{}", Self::NAMES[self.number()])?;
        match *self {
            Self::Create(settings) => {
                let Settings {
                    count,
                    ownership,
                    flags,
                    lpi_limit,
                    frame_size,
                } = settings;
                write!(
                    f,
                    "({count}, {ownership}, {flags:#x}, {lpi_limit:#x}, {frame_size:#x})"
                )
            }
            Self::Read { offset, width } => write!(f, "({offset:#x}, {width})"),
            Self::Write {
                offset,
                width,
                value,
            } => write!(f, "({offset:#x}, {width}, {value:#x})"),
            Self::ClaimPhysical { intid, affinity } => write!(f, "({intid}, {affinity:#x})"),
            Self::SetLevel { intid, level } => write!(f, "({intid}, {level:#x})"),
            Self::ClaimSoftware { intid } | Self::Release { intid } | Self::Pulse { intid } => {
                write!(f, "({intid})")
            }
        }
    }
}

/// An implementation of the face.
pub trait Face {
    /// Runs a call on a lent image and answers its refusal, 0 when it is done. The
    /// list is lent to a write; nothing is there for the other calls.
    fn call(&mut self, call: &FaceCall, image: &mut [u8], list: &mut [u8], out: &mut u64) -> u32;
}

/// What is seen of a call.
#[derive(Clone, Copy, Debug)]
pub struct Seen<'a> {
    pub refusal: u32,
    pub out: u64,
    pub image: &'a [u8],
    pub list: &'a [u8],
}

impl Seen<'_> {
    /// In which way it is not what was expected.
    pub fn departs_from(&self, expected: &Seen) -> Option<String> {
        if (self.refusal, self.out) != (expected.refusal, expected.out) {
            let words = |seen: &Seen| format!("answer {}, out {:#x}", seen.refusal, seen.out);
            return Some(format!("{}, not {}", words(self), words(expected)));
        }
        let differs = |of: &[u8], expected: &[u8]| {
            let at = of
                .iter()
                .zip(expected)
                .position(|(one, other)| one != other)?;
            let (is, not) = (of[at], expected[at]);
            Some((at, format!("is {is:#04x}, not {not:#04x}")))
        };
        if let Some((at, words)) = differs(self.list, expected.list) {
            return Some(format!("byte {at} of the list {words}"));
        }
        let (at, words) = differs(self.image, expected.image)?;
        let whose = match at.checked_sub(HEADER) {
            Some(at) => format!(", byte {} of SPI {},", at % RECORD, 32 + at / RECORD),
            None => String::new(),
        };
        Some(format!("byte {at} of the image{whose} {words}"))
    }
}

/// Numbers that are a high level, as is every other but 0.
pub const HIGH: [u32; 6] = [1, 2, 0x100, 0x1_0000, 0x8000_0000, u32::MAX];

/// The third machine. For a call that the face has, the face runs it on the image,
/// and all that is seen of it has to be what the Rust's step says. For any other
/// call the image gets the bytes of the state that the Rust has afterwards, so that
/// the face meets states that its own calls alone would not reach.
pub struct Follower<F> {
    face: F,
    lender: Lender,
    turn: usize,
    /// Whether there is a Distributor.
    made: bool,
    image: Vec<u8>,
    /// The image of the Rust's state.
    expected: Vec<u8>,
}

impl<F: Face> Follower<F> {
    pub fn new(face: F) -> Self {
        Self {
            face,
            lender: Lender::default(),
            turn: 0,
            made: false,
            image: Vec::new(),
            expected: Vec::new(),
        }
    }

    /// Takes a step of the Rust. An error says how the face departs from it.
    pub fn follow(&mut self, step: &Step) -> Result<(), String> {
        self.turn += 1;
        let Some(mut call) = FaceCall::of(&step.call) else {
            self.expect(step);
            self.image.clone_from(&self.expected);
            return Ok(());
        };
        match &mut call {
            // What the image held before is no part of a creation.
            FaceCall::Create(settings) => {
                let length = match settings.count {
                    0..=CAPACITY => settings.length(),
                    _ => self.turn % 100,
                };
                self.image = filler(length, self.turn);
                self.expected.clone_from(&self.image);
            }
            FaceCall::SetLevel {
                level: level @ 1, ..
            } => *level = HIGH[self.turn % HIGH.len()],
            _ => {}
        }
        let mut list = match call {
            FaceCall::Write { .. } => {
                let places = step.call.args[3] as usize;
                filler(4 * places + self.turn % 4, self.turn)
            }
            _ => Vec::new(),
        };
        let mut expected_list = list.clone();
        let (places, _) = expected_list.as_chunks_mut();
        for (place, intid) in places.iter_mut().zip(&step.answer.candidates) {
            *place = intid.to_le_bytes();
        }
        self.expect(step);

        let (refusal, out) =
            (self.lender).run(&mut self.face, &call, &mut self.image, &mut list)?;
        let seen = Seen {
            refusal,
            out,
            image: &self.image,
            list: &list,
        };
        let expected = Seen {
            refusal: step.answer.kind.into(),
            out: out_of(step),
            image: &self.expected,
            list: &expected_list,
        };
        match seen.departs_from(&expected) {
            Some(words) => Err(format!("{call}: {words}")),
            None => Ok(()),
        }
    }

    fn expect(&mut self, step: &Step) {
        if step.call.op == Op::Create {
            self.made = step.answer.kind == 0;
            if self.made {
                self.expected = Settings::of(&step.call).fresh();
            }
        }
        if self.made {
            self.expected[0] = step.switch.into();
            for &(place, slot) in &step.changes {
                image::put_slot(&mut self.expected, place as usize, slot);
            }
        }
    }
}

/// What a step of the Rust puts into `out`: of a write that is done how many
/// candidates it lists, else the answer's number.
fn out_of(step: &Step) -> u64 {
    match (step.call.op, step.answer.kind) {
        (Op::Write, 0) => step.answer.candidates.len() as u64,
        _ => step.answer.payload,
    }
}

/// The face of the static library `face`.
#[cfg(feature = "face")]
pub mod linked {
    use super::{Face, FaceCall, Settings};
    use crate::{
        calls::Call,
        slices::{Slice, lend, lend_mut},
        straight::Sum,
    };

    // As include/dhunglebi.h has them. Safe, since a `Slice` comes from lent bytes
    // alone.
    unsafe extern "C" {
        safe fn dhunglebi_create(
            image: Slice<*mut u8>,
            count: u32,
            ownership: u32,
            flags: u32,
            lpi_limit: u32,
            frame_size: u64,
            out: &mut u64,
        ) -> u32;
        safe fn dhunglebi_read(
            image: Slice<*const u8>,
            offset: u64,
            width: u32,
            out: &mut u64,
        ) -> u32;
        safe fn dhunglebi_write(
            image: Slice<*mut u8>,
            list: Slice<*mut u8>,
            offset: u64,
            width: u32,
            value: u64,
            out: &mut u64,
        ) -> u32;
        safe fn dhunglebi_claim_software(image: Slice<*mut u8>, intid: u32, out: &mut u64) -> u32;
        safe fn dhunglebi_claim_physical(
            image: Slice<*mut u8>,
            intid: u32,
            affinity: u64,
            out: &mut u64,
        ) -> u32;
        safe fn dhunglebi_release(image: Slice<*mut u8>, intid: u32, out: &mut u64) -> u32;
        safe fn dhunglebi_set_level(
            image: Slice<*mut u8>,
            intid: u32,
            level: u32,
            out: &mut u64,
        ) -> u32;
        safe fn dhunglebi_pulse(image: Slice<*mut u8>, intid: u32, out: &mut u64) -> u32;
    }

    pub struct Linked;

    impl Face for Linked {
        fn call(
            &mut self,
            call: &FaceCall,
            image: &mut [u8],
            list: &mut [u8],
            out: &mut u64,
        ) -> u32 {
            let lent = lend_mut(image);
            match *call {
                FaceCall::Create(Settings {
                    count,
                    ownership,
                    flags,
                    lpi_limit,
                    frame_size,
                }) => dhunglebi_create(lent, count, ownership, flags, lpi_limit, frame_size, out),
                FaceCall::Read { offset, width } => dhunglebi_read(lend(image), offset, width, out),
                FaceCall::Write {
                    offset,
                    width,
                    value,
                } => dhunglebi_write(lent, lend_mut(list), offset, width, value, out),
                FaceCall::ClaimSoftware { intid } => dhunglebi_claim_software(lent, intid, out),
                FaceCall::ClaimPhysical { intid, affinity } => {
                    dhunglebi_claim_physical(lent, intid, affinity, out)
                }
                FaceCall::Release { intid } => dhunglebi_release(lent, intid, out),
                FaceCall::SetLevel { intid, level } => dhunglebi_set_level(lent, intid, level, out),
                FaceCall::Pulse { intid } => dhunglebi_pulse(lent, intid, out),
            }
        }
    }

    /// A creation and the reads and writes after it, for the benchmark.
    pub struct Accesses {
        settings: Settings,
        accesses: Vec<FaceCall>,
    }

    impl Accesses {
        pub fn new(calls: &[Call]) -> Self {
            let access = |call: &Call| FaceCall::of(call).expect("a read or a write");
            Self {
                settings: Settings::of(&calls[0]),
                accesses: calls[1..].iter().map(access).collect(),
            }
        }

        /// Runs them on a new image, and hands back the same sum of their answers
        /// as the Rust.
        pub fn sum(&self) -> u64 {
            let mut image = vec![0; self.settings.length()];
            let mut list = vec![0; 4 * self.settings.count as usize];
            let mut out = 0;
            Linked.call(
                &FaceCall::Create(self.settings),
                &mut image,
                &mut [],
                &mut out,
            );
            let mut sum = Sum::default();
            for access in &self.accesses {
                match *access {
                    FaceCall::Read { offset, width } => {
                        let refusal = dhunglebi_read(lend(&image), offset, width, &mut out);
                        sum.answer(refusal.into(), out, 0);
                    }
                    FaceCall::Write {
                        offset,
                        width,
                        value,
                    } => {
                        let (image, places) = (lend_mut(&mut image), lend_mut(&mut list));
                        match dhunglebi_write(image, places, offset, width, value, &mut out) {
                            0 => {
                                sum.answer(0, 0, out);
                                let (places, _) = list.as_chunks();
                                for &intid in &places[..out as usize] {
                                    sum.more(u32::from_le_bytes(intid).into());
                                }
                            }
                            refusal => sum.answer(refusal.into(), out, 0),
                        }
                    }
                    call => panic!("{call} is no access"),
                }
            }
            sum.total()
        }
    }
}

#[cfg(test)]
mod tests {
    use super::*;
    use crate::{
        compare::{Difference, Other, compare},
        driver::Oracle,
        generate::Sequence,
        reference::Reference,
        wrong::{Fault, Wrong},
    };

    /// Whether a face departs from the Rust in the first sequences of a seed.
    fn departs(face: impl Face, sequences: u64) -> bool {
        let mut follower = Follower::new(face);
        (0..sequences).any(|index| {
            let calls: Vec<Call> = Sequence::new(5, index, 300).collect();
            let [one, other] = [Oracle::default(), Oracle::default()];
            let difference = compare(&calls, one, other, |step| follower.follow(step));
            matches!(
                difference,
                Some(Difference {
                    other: Other::Face(_),
                    ..
                })
            )
        })
    }

    #[test]
    fn the_reference_follows_the_rust() {
        assert!(!departs(Reference::default(), 60));
    }

    #[test]
    fn a_wrong_face_does_not() {
        for fault in Fault::ALL {
            if fault.shows_on_good_images() {
                assert!(departs(Wrong::new(fault), 100), "{fault:?}");
            }
        }
    }

    #[test]
    fn a_call_is_the_same_in_the_list() {
        for call in Sequence::new(2, 12, 400) {
            let Some(on_image) = FaceCall::of(&call) else {
                continue;
            };
            let places = call.args[3] as usize;
            assert_eq!(on_image.in_list(places), call);
            let name = format!("{on_image:?}").to_lowercase();
            let number = FaceCall::NAMES[on_image.number()].replace('_', "");
            assert!(name.starts_with(&number), "{name}");
        }
    }
}
