//! Damaged images: trials on images that calls did not leave so. The calls are those
//! of generated sequences, with other numbers now and then; before each, the image
//! may be damaged.

use std::vec::IntoIter;

use crate::{
    face::{FaceCall, HIGH},
    generate::{Random, Sequence},
    image::{self, CAPACITY, HEADER, RECORD, Settings},
    machine::{CLAIMED, FIXED, FRESH, MASKED, ROUTED},
    reference,
    trial::{Trial, mend_records},
};

/// The calls of a long sequence.
const CALLS: usize = 300;
/// The sequences of one seed, as in `oracle/compare`.
const OF_A_SEED: u64 = 64;
const INDICES: u64 = 512;

/// Numbers that are no width, some of which would be if they were cut to a byte or
/// two.
const NO_WIDTHS: [u32; 14] = [
    0,
    3,
    5,
    7,
    9,
    16,
    32,
    0x101,
    0x102,
    0x104,
    0x1_0004,
    0x1_0008,
    0x8000_0004,
    u32::MAX,
];
/// Counts for a creation: the ends, and numbers that are small when they are cut.
const COUNTS: [u32; 14] = [
    0,
    1,
    31,
    32,
    33,
    40,
    987,
    988,
    989,
    1020,
    0xffff,
    0x1_0000,
    0x1_0028,
    u32::MAX,
];
const OWNERSHIPS: [u32; 8] = [0, 0, 0, 1, 1, 1, 2, 0x101];

type Damage = fn(&mut Trials, &mut Trial);

/// What happens to the image before a call, each with its weight. What befalls a
/// record stays in the image until it is mended; what befalls the rest is for this
/// call alone.
const DAMAGES: [(u64, Damage); 11] = [
    (36, |_, _| ()),
    (14, Trials::spoil_named),
    (12, Trials::spoil_any),
    (10, Trials::other_named),
    (4, Trials::other_any),
    (8, Trials::mend),
    (6, Trials::spoil_header),
    (5, Trials::other_length),
    (2, Trials::too_many),
    (1, Trials::random_records),
    (2, Trials::random_image),
];

/// Trials from a seed.
pub struct Trials {
    random: Random,
    seed: u64,
    sequence: u64,
    calls: IntoIter<FaceCall>,
    /// The image as the calls so far left it, with a good header.
    image: Vec<u8>,
    /// Whether the trial at hand is made on the image.
    stays: bool,
}

impl Trials {
    pub fn new(seed: u64) -> Self {
        Self {
            random: Random::new(seed),
            seed,
            sequence: 0,
            calls: Vec::new().into_iter(),
            image: Settings::default().fresh(),
            stays: false,
        }
    }

    pub fn next_trial(&mut self) -> Trial {
        let mut call = loop {
            match self.calls.next() {
                Some(FaceCall::Create(settings)) => {
                    if let Some(trial) = self.begin(settings) {
                        return trial;
                    }
                }
                Some(call) => break call,
                None => self.next_sequence(),
            }
        };
        if self.random.chance(3) {
            return self.creation();
        }
        self.other_numbers(&mut call);
        let mut trial = Trial {
            call,
            image: self.image.clone(),
            list: Vec::new(),
        };
        self.stays = true;
        let damage = *self.random.weighted(&DAMAGES);
        damage(self, &mut trial);
        if let FaceCall::Write { .. } = call {
            trial.list = self.list();
        }
        trial
    }

    /// Takes the image that a trial left.
    pub fn take(&mut self, image: &[u8]) {
        if self.stays {
            self.image = image.to_vec();
        }
    }

    fn next_sequence(&mut self) {
        let seed = self.seed.wrapping_add(self.sequence / OF_A_SEED);
        let calls = Sequence::new(seed, self.sequence % INDICES, CALLS);
        let calls: Vec<FaceCall> = calls.filter_map(|call| FaceCall::of(&call)).collect();
        self.calls = calls.into_iter();
        self.sequence += 1;
    }

    /// A sequence begins with its creation, or with an image of its settings that no
    /// call made.
    fn begin(&mut self, settings: Settings) -> Option<Trial> {
        if settings.count > CAPACITY || self.random.chance(50) {
            self.stays = settings.count <= CAPACITY;
            let length = settings.length().min(0x1_0000);
            return Some(Trial {
                call: FaceCall::Create(settings),
                image: self.bytes(length),
                list: Vec::new(),
            });
        }
        let slots: Vec<u64> = (0..settings.count).map(|_| self.good_slot()).collect();
        self.image = settings.image(self.random.chance(50), &slots);
        None
    }

    /// A creation with any numbers, on an image that mostly has the right length.
    fn creation(&mut self) -> Trial {
        let any = self.random.any();
        let count = match any & 3 {
            0 => *self.random.pick(&COUNTS),
            1 => any as u32 >> 16,
            _ => self.random.below(100) as u32,
        };
        let ownership = *self.random.pick(&OWNERSHIPS);
        let flags = match self.random.below(8) {
            0 => 0x100 | any as u32 >> 28,
            1 => self.random.any() as u32,
            2 => 16,
            _ => any as u32 >> 28,
        };
        let settings = Settings {
            count,
            ownership,
            flags,
            lpi_limit: self.random.any() as u32,
            frame_size: self.random.any() >> self.random.below(64),
        };
        let mut length = settings.length().min(0x1_0000);
        if self.random.chance(20) {
            length = self.length_near(length);
        }
        self.stays = false;
        Trial {
            call: FaceCall::Create(settings),
            image: self.bytes(length),
            list: Vec::new(),
        }
    }

    /// Now and then a number that no sequence has.
    fn other_numbers(&mut self, call: &mut FaceCall) {
        let odd = self.random.chance(6);
        let any = self.random.any();
        match call {
            FaceCall::Read { offset, width } | FaceCall::Write { offset, width, .. } if odd => {
                match any % 8 {
                    0 => *offset = any,
                    1 => *offset += 1 << 32,
                    2 => *width = (any >> 8) as u32,
                    _ => *width = *self.random.pick(&NO_WIDTHS),
                }
            }
            FaceCall::SetLevel { level, .. } if *level != 0 => *level = *self.random.pick(&HIGH),
            FaceCall::ClaimSoftware { intid }
            | FaceCall::ClaimPhysical { intid, .. }
            | FaceCall::Release { intid }
            | FaceCall::SetLevel { intid, .. }
            | FaceCall::Pulse { intid }
                if odd =>
            {
                match any % 4 {
                    0 => *intid = (any >> 8) as u32,
                    1 => *intid = intid.wrapping_add(1 << 16),
                    2 => *intid = intid.wrapping_add(1 << 10),
                    _ => *intid = 32 + image::settings(&self.image).count,
                }
            }
            _ => {}
        }
    }

    /// N places and none to three bytes left over, most of the time.
    fn list(&mut self) -> Vec<u8> {
        let whole = 4 * image::settings(&self.image).count as usize;
        let any = self.random.any() as usize >> 8;
        let count = match self.random.below(24) {
            0 => whole.saturating_sub(1 + any % 4),
            1 => any % (whole + 8),
            2 => any % 4,
            3..=5 => whole + any % 40,
            _ => whole + any % 4,
        };
        self.bytes(count)
    }

    // Damages.

    fn spoil_named(&mut self, trial: &mut Trial) {
        let named: Vec<usize> = self.named(&trial.call);
        if !named.is_empty() {
            let place = *self.random.pick(&named);
            self.spoil(trial, place);
        }
    }

    fn spoil_any(&mut self, trial: &mut Trial) {
        if let Some(place) = self.any_place() {
            self.spoil(trial, place);
        }
    }

    fn other_named(&mut self, trial: &mut Trial) {
        for place in self.named(&trial.call) {
            let slot = self.good_slot();
            image::put_slot(&mut trial.image, place, slot);
        }
    }

    fn other_any(&mut self, trial: &mut Trial) {
        if let Some(place) = self.any_place() {
            let slot = self.good_slot();
            image::put_slot(&mut trial.image, place, slot);
        }
    }

    fn mend(&mut self, trial: &mut Trial) {
        mend_records(&mut trial.image);
    }

    fn spoil_header(&mut self, trial: &mut Trial) {
        self.stays = false;
        let at = self.random.below(HEADER as u64) as usize;
        trial.image[at] = match self.random.below(3) {
            0 => self.random.any() as u8,
            1 => trial.image[at] ^ 1,
            _ => trial.image[at] ^ 1 << self.random.below(8),
        };
    }

    fn other_length(&mut self, trial: &mut Trial) {
        self.stays = false;
        let length = self.length_near(trial.image.len());
        let more = self.bytes(length);
        trial.image.truncate(length);
        trial.image.extend(&more[trial.image.len()..]);
    }

    /// A count above 988, with the length that would be right for it.
    fn too_many(&mut self, trial: &mut Trial) {
        self.stays = false;
        let count = CAPACITY as u16 + 1 + self.random.below(60) as u16;
        trial.image[4..6].copy_from_slice(&count.to_le_bytes());
        let length = image::settings(&trial.image).length();
        trial.image.resize(length, 0);
    }

    fn random_records(&mut self, trial: &mut Trial) {
        let records = self.bytes(trial.image.len() - HEADER);
        trial.image[HEADER..].copy_from_slice(&records);
    }

    fn random_image(&mut self, trial: &mut Trial) {
        self.stays = false;
        trial.image = self.bytes(trial.image.len());
    }

    // What they are made from.

    fn named(&self, call: &FaceCall) -> Vec<usize> {
        let count = image::settings(&self.image).count;
        reference::named(call, count).collect()
    }

    fn any_place(&mut self) -> Option<usize> {
        match image::settings(&self.image).count {
            0 => None,
            count => Some(self.random.below(count.into()) as usize),
        }
    }

    /// One bit of a record's second byte, any byte of it, or all of them.
    fn spoil(&mut self, trial: &mut Trial, place: usize) {
        let any = self.random.any();
        let slot = image::slots(&trial.image).nth(place).unwrap();
        let at = 8 * self.random.below(8);
        let slot = match self.random.below(8) {
            0..=3 => slot ^ FIXED << self.random.below(8),
            4..=6 => slot & !(0xff << at) | (any & 0xff) << at,
            _ => any,
        };
        image::put_slot(&mut trial.image, place, slot);
    }

    /// Any good record, whether calls reach it or not; now and then a fresh one.
    fn good_slot(&mut self) -> u64 {
        let any = self.random.any();
        if self.random.chance(20) {
            return FRESH;
        }
        let mut slot = any & 0xff_00ff;
        if slot & CLAIMED != 0 && self.random.chance(40) {
            slot |= FIXED;
        }
        match self.random.below(3) {
            0 => slot |= ROUTED | any & 0xffff_ffff << 32,
            1 => slot |= MASKED | any & 0xff << 24,
            _ => {}
        }
        slot
    }

    fn length_near(&mut self, length: usize) -> usize {
        let any = self.random.any() as usize >> 8;
        let near = [
            0,
            1,
            HEADER - 1,
            HEADER,
            HEADER + 1,
            length.saturating_sub(RECORD),
            length + RECORD,
            length.saturating_sub(1),
            length + 1,
            any % (2 * length + 1),
        ];
        *self.random.pick(&near)
    }

    fn bytes(&mut self, count: usize) -> Vec<u8> {
        let words = (0..count.div_ceil(8)).flat_map(|_| self.random.any().to_le_bytes());
        words.take(count).collect()
    }
}
