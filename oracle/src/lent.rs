//! Bytes that are lent to the face, with guards around them.

use crate::face::{Face, FaceCall};

/// How many bytes stand on either side, and what they are.
const GUARD: usize = 64;
const GUARDED: u8 = 0xa7;

/// Bytes that differ from place to place and from turn to turn.
pub fn filler(count: usize, turn: usize) -> Vec<u8> {
    let byte = |at: usize| (at * 37 + turn * 101 + 0x5b) as u8;
    (0..count).map(byte).collect()
}

#[derive(Default)]
struct Lent {
    bytes: Vec<u8>,
    from: usize,
    count: usize,
}

impl Lent {
    /// Takes bytes in. `shift` moves them in memory, so that they lie at any address.
    fn put(&mut self, bytes: &[u8], shift: usize) {
        self.from = GUARD + shift;
        self.count = bytes.len();
        self.bytes.clear();
        self.bytes.resize(self.from, GUARDED);
        self.bytes.extend(bytes);
        self.bytes.resize(self.from + self.count + GUARD, GUARDED);
    }

    fn lend(&mut self) -> &mut [u8] {
        &mut self.bytes[self.from..][..self.count]
    }

    /// Hands the bytes back, or says that a guard was written.
    fn take(&self, bytes: &mut [u8], whose: &str) -> Result<(), String> {
        let (before, rest) = self.bytes.split_at(self.from);
        let (lent, after) = rest.split_at(self.count);
        bytes.copy_from_slice(lent);
        let touched = |guard: &[u8]| guard.iter().any(|&byte| byte != GUARDED);
        if touched(before) {
            return Err(format!("a byte before the {whose} was written"));
        }
        if touched(after) {
            return Err(format!("a byte past the {whose} was written"));
        }
        Ok(())
    }
}

/// Lends copies of an image and of a list to a face, and looks at what is around
/// them afterwards.
#[derive(Default)]
pub struct Lender {
    image: Lent,
    list: Lent,
    turn: usize,
}

impl Lender {
    /// Runs a call as if image and list were lent themselves. Answers the refusal and
    /// `out`.
    pub fn run(
        &mut self,
        face: &mut impl Face,
        call: &FaceCall,
        image: &mut [u8],
        list: &mut [u8],
    ) -> Result<(u32, u64), String> {
        self.turn += 1;
        self.image.put(image, self.turn % 8);
        self.list.put(list, self.turn / 8 % 8);
        // Every call writes `out`, and what it held does not matter.
        let held = 0x5a5a_0000_0000_0000 | self.turn as u64;
        let mut out = [held; 3];
        let refusal = face.call(call, self.image.lend(), self.list.lend(), &mut out[1]);
        self.image.take(image, "image")?;
        self.list.take(list, "list")?;
        if [out[0], out[2]] != [held; 2] {
            return Err("a byte beside out was written".into());
        }
        Ok((refusal, out[1]))
    }
}

#[cfg(test)]
mod tests {
    use super::*;

    #[test]
    fn every_guard_is_looked_at() {
        let mut lent = Lent::default();
        let mut back = [0; 5];
        for shift in 0..8 {
            lent.put(b"bytes", shift);
            assert_eq!(lent.lend(), b"bytes");
            assert_eq!(lent.take(&mut back, "image"), Ok(()));
            assert_eq!(&back, b"bytes");
            let (first, end) = (lent.from, lent.from + 5);
            for (at, words) in [
                (0, "a byte before the image was written"),
                (first - 1, "a byte before the image was written"),
                (end, "a byte past the image was written"),
                (lent.bytes.len() - 1, "a byte past the image was written"),
            ] {
                let saved = lent.bytes.clone();
                lent.bytes[at] = 0;
                assert_eq!(lent.take(&mut back, "image"), Err(words.into()));
                lent.bytes = saved;
            }
        }
    }
}
