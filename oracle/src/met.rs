//! Counts what a run of damaged images met, so that a run that tries nothing shows.

use std::{
    collections::BTreeMap,
    fmt::{self, Display, Formatter},
};

use crate::{
    coverage::cells,
    face::FaceCall,
    image::{self, BAD_HEADERS, BAD_RECORDS, HEADER, Settings},
    machine::{CLAIMED, FIXED, INFLIGHT, MASKED, REDELIVERY},
    reference,
    trial::{Trial, Verdict},
};

/// Times done, then times refused by number.
type Kinds = [u64; 8];

const SIZES: [u32; 8] = [0, 1, 31, 32, 33, 40, 987, 988];

/// Wrong lengths of an image, each with its test. `right` is the length for its
/// count; an image without a whole header has none.
const LENGTHS: [LengthRule; 6] = [
    ("0", |length, _| length == 0),
    ("23", |length, _| length == 23),
    ("24", |length, _| length == 24),
    ("one too few", |length, right| Some(length + 1) == right),
    ("one too many", |length, right| {
        Some(length) == right.map(|right| right + 1)
    }),
    ("odd", |length, _| length % 2 == 1),
];

type LengthRule = (&'static str, fn(usize, Option<usize>) -> bool);

/// What a creation is refused 6 for.
const BAD_CREATIONS: [&str; 2] = ["creation: length", "creation: settings"];

/// Each call with the refusals that it can get.
const REFUSALS: [(&str, &[usize]); 8] = [
    ("create", &[0, 1, 6]),
    ("read", &[0, 1, 3, 4, 6, 7]),
    ("write", &[0, 1, 3, 4, 5, 6, 7]),
    ("claim_software", &[0, 1, 2, 6]),
    ("claim_physical", &[0, 1, 2, 6]),
    ("release", &[0, 1, 6]),
    ("set_level", &[0, 1, 6]),
    ("pulse", &[0, 1, 6]),
];

/// A refusal with those that can stand behind it.
const BEHIND: [(usize, &[usize]); 4] = [
    (1, &[6]),
    (5, &[1, 3, 4, 6]),
    (6, &[1, 2, 3, 4, 5, 6, 7]),
    (7, &[1, 3, 4, 5, 6]),
];

#[derive(Default)]
pub struct Met {
    calls: [Kinds; FaceCall::NAMES.len()],
    /// By the first refusal, the one that shows once its reason is mended.
    behind: [Kinds; 8],
    /// Of refusal 6.
    reasons: BTreeMap<&'static str, u64>,
    /// A bad record that a guest access names and the guest does not own.
    unowned: u64,
    /// Of those that are wrong.
    lengths: [u64; LENGTHS.len()],
    sizes: [[u64; 2]; SIZES.len()],
    /// Calls that were done beside bad records that they do not name, and how many
    /// such records.
    beside: [u64; 2],
    /// Calls that were done on a record with the redelivery mark that is not in
    /// flight, and on one with fixed mark and target mask.
    unreached: [u64; 2],
    /// Writes that were done, by the bytes left over in their list, and those that
    /// listed.
    left_over: [u64; 4],
    listed: u64,
}

impl Met {
    /// Notes a trial. `behind` is the refusal behind its refusal.
    pub fn note(&mut self, trial: &Trial, verdict: &Verdict, behind: Option<u32>) {
        let refusal = verdict.refusal as usize;
        self.calls[trial.call.number()][refusal] += 1;
        if let Some(behind) = behind {
            self.behind[refusal][behind as usize] += 1;
        }
        if refusal == 6 {
            let reason = reason(trial);
            *self.reasons.entry(reason).or_default() += 1;
            if reason.starts_with("length") {
                self.note_length(&trial.image);
            }
        }
        if image::bad_header(&verdict.image).is_some() {
            return;
        }
        let settings = image::settings(&verdict.image);
        let size = SIZES.iter().position(|&size| size == settings.count);
        if let Some(size) = size {
            self.sizes[size][settings.ownership as usize] += 1;
        }
        if refusal == 0 && !matches!(trial.call, FaceCall::Create(_)) {
            self.note_done(trial, verdict, settings);
        } else if refusal == 6 && settings.ownership == 1 && trial.call.width().is_some() {
            let unowned = |slot: u64| slot & CLAIMED == 0;
            self.unowned += u64::from(bad_named(trial).any(unowned));
        }
    }

    fn note_length(&mut self, image: &[u8]) {
        let is_whole = image.len() >= HEADER;
        let right = is_whole.then(|| image::settings(image).length());
        for ((_, test), times) in LENGTHS.iter().zip(&mut self.lengths) {
            *times += u64::from(test(image.len(), right));
        }
    }

    fn note_done(&mut self, trial: &Trial, verdict: &Verdict, settings: Settings) {
        let slots = image::slots(&trial.image);
        let bad = slots.filter(|&slot| image::bad_record(slot).is_some());
        let bad = bad.count() as u64;
        self.beside[0] += u64::from(bad > 0);
        self.beside[1] += bad;

        let slots: Vec<u64> = image::slots(&trial.image).collect();
        let has = |flags: u64, of: u64| {
            let mut named = reference::named(&trial.call, settings.count);
            named.any(|place| slots[place] & of == flags)
        };
        self.unreached[0] += u64::from(has(REDELIVERY, REDELIVERY | INFLIGHT));
        self.unreached[1] += u64::from(has(FIXED | MASKED, FIXED | MASKED));

        if let FaceCall::Write { .. } = trial.call {
            self.left_over[trial.list.len() % 4] += 1;
            self.listed += u64::from(verdict.out > 0);
        }
    }

    /// What was looked for and not met.
    fn never(&self) -> Vec<String> {
        let mut never = Vec::new();
        let mut miss = |times: u64, what: String| {
            if times == 0 {
                never.push(what);
            }
        };
        for ((name, kinds), met) in REFUSALS.iter().zip(&self.calls) {
            for &kind in *kinds {
                miss(met[kind], format!("{name} refused {kind}"));
            }
        }
        for (first, kinds) in BEHIND {
            for &kind in kinds {
                miss(self.behind[first][kind], format!("{kind} behind {first}"));
            }
        }
        for words in reasons() {
            let times = self.reasons.get(words).copied();
            miss(times.unwrap_or(0), words.into());
        }
        for ((words, _), times) in LENGTHS.iter().zip(self.lengths) {
            miss(times, format!("length {words}"));
        }
        for (size, times) in SIZES.iter().zip(self.sizes) {
            miss(times[0], format!("N = {size} all guest-owned"));
            miss(times[1], format!("N = {size} explicit"));
        }
        for (bytes, times) in self.left_over.iter().enumerate() {
            miss(*times, format!("{bytes} bytes left over"));
        }
        miss(self.unowned, "a bad record that is not owned".into());
        miss(self.beside[0], "a bad record that is not named".into());
        miss(self.unreached[0], "redelivery, not in flight".into());
        miss(self.unreached[1], "fixed, with a mask".into());
        miss(self.listed, "a list".into());
        never
    }
}

/// Why a trial is refused 6.
fn reason(trial: &Trial) -> &'static str {
    if let FaceCall::Create(settings) = trial.call {
        return BAD_CREATIONS[usize::from(trial.image.len() == settings.length())];
    }
    let record = || image::bad_record(bad_named(trial).next()?);
    let reason = image::bad_header(&trial.image).or_else(record);
    reason.expect("refusal 6 has a reason")
}

/// The bad records that a call names.
fn bad_named(trial: &Trial) -> impl Iterator<Item = u64> {
    let slots: Vec<u64> = image::slots(&trial.image).collect();
    let named = reference::named(&trial.call, slots.len() as u32);
    let named = named.map(move |place| slots[place]);
    named.filter(|&slot| image::bad_record(slot).is_some())
}

/// What refusal 6 can be for.
fn reasons() -> impl Iterator<Item = &'static str> {
    let headers = BAD_HEADERS.iter().map(|&(words, _)| words);
    let records = BAD_RECORDS.iter().map(|&(words, _)| words);
    headers.chain(records).chain(BAD_CREATIONS)
}

impl Display for Met {
    fn fmt(&self, f: &mut Formatter) -> fmt::Result {
        let heads = [
            "done", "ref 1", "ref 2", "ref 3", "ref 4", "ref 5", "ref 6", "ref 7",
        ];
        writeln!(f, "{:28}{}", "call", cells(heads))?;
        for (name, kinds) in FaceCall::NAMES.iter().zip(self.calls) {
            writeln!(f, "{name:28}{}", cells(kinds))?;
        }
        writeln!(f, "\n{:28}{}", "behind the reason mended", cells(heads))?;
        for (first, _) in BEHIND {
            let row = format!("refusal {first}");
            writeln!(f, "{row:28}{}", cells(self.behind[first]))?;
        }
        writeln!(f, "\nrefused 6 for")?;
        for words in reasons() {
            let times = self.reasons.get(words).copied().unwrap_or(0);
            writeln!(f, "{words:28}{times:>8}")?;
        }
        writeln!(f, "{:28}{:>8}", "a record not owned", self.unowned)?;
        writeln!(f, "\nof the wrong lengths")?;
        for ((words, _), times) in LENGTHS.iter().zip(self.lengths) {
            writeln!(f, "{words:28}{times:>8}")?;
        }
        writeln!(f, "\n{:28}{}", "N", cells(["all", "claims"]))?;
        for (size, times) in SIZES.iter().zip(self.sizes) {
            writeln!(f, "{size:<28}{}", cells(times))?;
        }
        let [calls, records] = self.beside;
        writeln!(
            f,
            "\n{calls} calls were done beside {records} bad records that they do not name"
        )?;
        let [redelivery, masked] = self.unreached;
        writeln!(
            f,
            "{redelivery} were done on a redelivery mark that is not in flight, {masked} on a fixed mark with a target mask"
        )?;
        let listed = self.listed;
        writeln!(
            f,
            "writes done by the bytes left over in their list: {:?}; {listed} listed candidates",
            self.left_over
        )?;
        match &self.never()[..] {
            [] => writeln!(f, "never met: nothing"),
            never => writeln!(f, "never met: {}", never.join(", ")),
        }
    }
}
