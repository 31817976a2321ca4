//! A trial: one call of the face with the image and the list that it is lent. It
//! needs no history. A judge runs it on a face and on the reference.

use std::iter;

use crate::{
    face::{Face, FaceCall, Seen},
    image::{self, CAPACITY, HEADER, RECORD},
    lent::Lender,
    machine::FRESH,
    reference::Reference,
};

#[derive(Clone, Debug)]
pub struct Trial {
    pub call: FaceCall,
    pub image: Vec<u8>,
    pub list: Vec<u8>,
}

/// A face held to the reference.
pub struct Judge<F> {
    face: F,
    reference: Reference,
    lender: Lender,
}

/// What the reference makes of a trial.
pub struct Verdict {
    pub refusal: u32,
    pub out: u64,
    pub image: Vec<u8>,
}

impl<F: Face> Judge<F> {
    pub fn new(face: F) -> Self {
        Self {
            face,
            reference: Reference::default(),
            lender: Lender::default(),
        }
    }

    /// Runs a trial on both. An error says how the face departs.
    pub fn judge(&mut self, trial: &Trial) -> Result<Verdict, String> {
        let Trial { call, image, list } = trial;
        let (mut image, mut list) = (image.clone(), list.clone());
        let (refusal, out) = (self.lender).run(&mut self.face, call, &mut image, &mut list)?;
        let seen = Seen {
            refusal,
            out,
            image: &image,
            list: &list,
        };
        let (verdict, list) = self.expected(trial);
        let expected = Seen {
            refusal: verdict.refusal,
            out: verdict.out,
            image: &verdict.image,
            list: &list,
        };
        match seen.departs_from(&expected) {
            Some(words) => Err(words),
            None => Ok(verdict),
        }
    }

    fn expected(&mut self, trial: &Trial) -> (Verdict, Vec<u8>) {
        let Trial { call, image, list } = trial;
        let (mut image, mut list) = (image.clone(), list.clone());
        let mut out = 0;
        let refusal = self.reference.call(call, &mut image, &mut list, &mut out);
        let verdict = Verdict {
            refusal,
            out,
            image,
        };
        (verdict, list)
    }

    /// What the reference would refuse next if the reason for this refusal were
    /// mended.
    pub fn next_refusal(&mut self, trial: &Trial, refusal: u32) -> Option<u32> {
        let mended = trial.mended(refusal)?;
        Some(self.expected(&mended).0.refusal)
    }

    /// Leaves out of a trial whatever can be left out so that the face still
    /// departs, and says how.
    pub fn shorten(&mut self, trial: &Trial) -> (Trial, String) {
        let mut short = trial.clone();
        let mut words = self.judge(trial).err().unwrap_or_default();
        let mut attempt = |fewer: Trial, short: &mut Trial| {
            if let Err(departs) = self.judge(&fewer) {
                *short = fewer;
                words = departs;
            }
        };
        let records = trial.image.len().saturating_sub(HEADER) / RECORD;
        for place in 0..records {
            let mut fewer = short.clone();
            image::put_slot(&mut fewer.image, place, FRESH);
            attempt(fewer, &mut short);
        }
        let mut fewer = short.clone();
        fewer.list.truncate(4 * records);
        attempt(fewer, &mut short);
        (short, words)
    }
}

impl Trial {
    /// The same without the reason for which it was refused, where that is one of
    /// the face's own. What stands behind it then shows.
    fn mended(&self, refusal: u32) -> Option<Self> {
        let mut mended = self.clone();
        match (refusal, &mut mended.call) {
            (1, FaceCall::Create(settings)) => settings.count = CAPACITY,
            (5, _) => mended.list.resize(4 * CAPACITY as usize, 0),
            (6, FaceCall::Create(_)) => return None,
            (6, _) if image::bad_header(&self.image).is_some() => mend_header(&mut mended.image),
            (6, _) => mend_records(&mut mended.image),
            (7, FaceCall::Read { width, .. } | FaceCall::Write { width, .. }) => *width = 4,
            _ => return None,
        }
        Some(mended)
    }
}

/// A good header and the length for it, as near as can be to what is there.
fn mend_header(image: &mut Vec<u8>) {
    image.resize(image.len().max(HEADER), 0);
    let mut settings = image::settings(image);
    settings.count = settings.count.min(CAPACITY);
    settings.ownership &= 1;
    settings.flags &= 0xf;
    let slots = image::slots(image).chain(iter::repeat(FRESH));
    let slots: Vec<u64> = slots.take(settings.count as usize).collect();
    *image = settings.image(image[0] & 1 == 1, &slots);
}

/// Each bad record loses what is bad about it, and keeps its claim.
pub fn mend_records(image: &mut [u8]) {
    let slots: Vec<u64> = image::slots(image).collect();
    for (place, slot) in slots.into_iter().enumerate() {
        if image::bad_record(slot).is_some() {
            image::put_slot(image, place, slot & 0xff_00ff);
        }
    }
}

#[cfg(test)]
mod tests {
    use super::*;
    use crate::{
        damage::Trials,
        met::Met,
        wrong::{Fault, Wrong},
    };

    /// Whether a face departs in so many trials. Cut down, the trial still shows it.
    fn departs(face: impl Face, count: usize) -> bool {
        let mut trials = Trials::new(3);
        let mut judge = Judge::new(face);
        (0..count).any(|_| {
            let trial = trials.next_trial();
            match judge.judge(&trial) {
                Ok(verdict) => trials.take(&verdict.image),
                Err(_) => {
                    let (short, _) = judge.shorten(&trial);
                    assert!(judge.judge(&short).is_err(), "{trial:?}");
                    return true;
                }
            }
            false
        })
    }

    #[test]
    fn the_reference_agrees_with_itself() {
        assert!(!departs(Reference::default(), 5000));
    }

    #[test]
    fn every_wrong_face_is_found() {
        for fault in Fault::ALL {
            assert!(departs(Wrong::new(fault), 30_000), "{fault:?}");
        }
    }

    #[test]
    fn a_run_meets_everything_that_it_looks_for() {
        let mut trials = Trials::new(1);
        let mut judge = Judge::new(Reference::default());
        let mut met = Met::default();
        for _ in 0..20_000 {
            let trial = trials.next_trial();
            let verdict = judge.judge(&trial).unwrap();
            let behind = judge.next_refusal(&trial, verdict.refusal);
            met.note(&trial, &verdict, behind);
            trials.take(&verdict.image);
        }
        let text = met.to_string();
        assert!(text.ends_with("never met: nothing\n"), "{text}");
    }
}
