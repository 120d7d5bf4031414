//! Channels: where frames and marks wait between a sender and a receiver.

use crate::frame::{FRAME_LEN, Frame};

/// What was taken from a channel.
#[derive(Clone, Copy, Debug, PartialEq, Eq)]
pub enum Slot {
    Frame,
    Gap,
    /// The end of a superframe.
    Mark,
}

/// Question 9: the channel has no room.
#[derive(Clone, Copy, Debug, PartialEq, Eq)]
pub struct Full;

pub trait Channel {
    /// How many slots may still be put.
    fn room(&self) -> usize;
    fn waits(&self) -> bool;
    fn put_frame(&mut self, frame: &Frame) -> Result<(), Full>;
    fn put_mark(&mut self) -> Result<(), Full>;
    /// Takes the first slot; the bytes of a frame go into `into`, which is otherwise left as it was.
    fn take(&mut self, into: &mut Frame) -> Option<Slot>;
}

const SLOT_LEN: usize = FRAME_LEN + 1;
const MARK: u8 = 0;
const FRAME: u8 = 1;

/// A channel in memory that loses and changes nothing.
#[derive(Debug)]
pub struct Ring<'m> {
    slots: &'m mut [[u8; SLOT_LEN]],
    head: usize,
    count: usize,
}

impl<'m> Ring<'m> {
    pub fn new(memory: &'m mut [u8]) -> Self {
        Ring { slots: memory.as_chunks_mut().0, head: 0, count: 0 }
    }

    #[inline]
    fn push(&mut self) -> Result<&mut [u8; SLOT_LEN], Full> {
        if self.count == self.slots.len() {
            return Err(Full);
        }
        let mut at = self.head + self.count;
        if at >= self.slots.len() {
            at -= self.slots.len();
        }
        self.count += 1;
        Ok(&mut self.slots[at])
    }
}

impl Channel for Ring<'_> {
    #[inline]
    fn room(&self) -> usize {
        self.slots.len() - self.count
    }

    #[inline]
    fn waits(&self) -> bool {
        self.count > 0
    }

    #[inline]
    fn put_frame(&mut self, frame: &Frame) -> Result<(), Full> {
        let slot = self.push()?;
        slot[0] = FRAME;
        slot[1..].copy_from_slice(frame);
        Ok(())
    }

    #[inline]
    fn put_mark(&mut self) -> Result<(), Full> {
        self.push()?[0] = MARK;
        Ok(())
    }

    #[inline]
    fn take(&mut self, into: &mut Frame) -> Option<Slot> {
        if self.count == 0 {
            return None;
        }
        let slot = &self.slots[self.head];
        self.head += 1;
        if self.head == self.slots.len() {
            self.head = 0;
        }
        self.count -= 1;
        if slot[0] == MARK {
            return Some(Slot::Mark);
        }
        into.copy_from_slice(&slot[1..]);
        Some(Slot::Frame)
    }
}

/// Which frames a fade loses.
#[derive(Clone, Copy, Debug, PartialEq, Eq)]
pub struct FadePattern {
    bytes: [u8; 64],
    bits: usize,
}

impl Default for FadePattern {
    fn default() -> Self {
        let mut bytes = [0; 64];
        bytes[0] = 0xff;
        FadePattern { bytes, bits: 8 }
    }
}

impl FadePattern {
    /// Replaces the pattern; question 20 where it is not 1 to 64 bytes long, and nothing changes.
    pub fn prepare(&mut self, pattern: &[u8]) -> Result<(), u8> {
        if !(1..=64).contains(&pattern.len()) {
            return Err(20);
        }
        self.bytes[..pattern.len()].copy_from_slice(pattern);
        self.bits = 8 * pattern.len();
        Ok(())
    }

    #[inline]
    fn passes(&self, number: usize) -> bool {
        self.bytes[number / 8] >> (number % 8) & 1 == 1
    }
}

/// A layer over a channel that turns some frames into gaps.
#[derive(Debug)]
pub struct Fade<C> {
    channel: C,
    pattern: FadePattern,
    /// The number of the next frame or gap, modulo the pattern's bits.
    number: usize,
}

impl<C: Channel> Fade<C> {
    pub fn new(channel: C, pattern: FadePattern) -> Self {
        Fade { channel, pattern, number: 0 }
    }
}

impl<C: Channel> Channel for Fade<C> {
    #[inline]
    fn room(&self) -> usize {
        self.channel.room()
    }

    #[inline]
    fn waits(&self) -> bool {
        self.channel.waits()
    }

    #[inline]
    fn put_frame(&mut self, frame: &Frame) -> Result<(), Full> {
        self.channel.put_frame(frame)
    }

    #[inline]
    fn put_mark(&mut self) -> Result<(), Full> {
        self.channel.put_mark()
    }

    #[inline]
    fn take(&mut self, into: &mut Frame) -> Option<Slot> {
        let slot = self.channel.take(into)?;
        if slot == Slot::Mark {
            return Some(Slot::Mark);
        }
        let passes = self.pattern.passes(self.number);
        self.number += 1;
        if self.number == self.pattern.bits {
            self.number = 0;
        }
        Some(if passes { slot } else { Slot::Gap })
    }
}

#[cfg(test)]
mod tests {
    use super::*;

    #[test]
    fn the_ring_goes_round() {
        let mut memory = [0; 3 * SLOT_LEN + 5];
        let mut ring = Ring::new(&mut memory);
        let mut into = [0; FRAME_LEN];
        assert_eq!((ring.room(), ring.waits(), ring.take(&mut into)), (3, false, None));
        for turn in 0..10u8 {
            ring.put_frame(&[turn; FRAME_LEN]).unwrap();
            ring.put_mark().unwrap();
            assert_eq!((ring.room(), ring.waits()), (1, true));
            assert_eq!(ring.take(&mut into), Some(Slot::Frame));
            assert_eq!(into, [turn; FRAME_LEN]);
            assert_eq!(ring.take(&mut into), Some(Slot::Mark));
        }
        for _ in 0..3 {
            ring.put_mark().unwrap();
        }
        assert_eq!(ring.put_mark(), Err(Full));
        assert_eq!(ring.put_frame(&[0; FRAME_LEN]), Err(Full));
    }

    #[test]
    fn the_fade_counts_frames_only() {
        let mut pattern = FadePattern::default();
        assert_eq!(pattern.prepare(&[]), Err(20));
        assert_eq!(pattern.prepare(&[0; 65]), Err(20));
        assert_eq!(pattern, FadePattern::default());
        pattern.prepare(&[0b1111_1101]).unwrap();
        let mut memory = [0; 30 * SLOT_LEN];
        let mut fade = Fade::new(Ring::new(&mut memory), pattern);
        for _ in 0..10 {
            fade.put_frame(&[1; FRAME_LEN]).unwrap();
            fade.put_mark().unwrap();
        }
        for k in 0..10 {
            let expected = if k % 8 == 1 { Slot::Gap } else { Slot::Frame };
            assert_eq!(fade.take(&mut [0; FRAME_LEN]), Some(expected));
            assert_eq!(fade.take(&mut [0; FRAME_LEN]), Some(Slot::Mark));
        }
    }
}
