//! Reels: recordings of superframes, checked, and read as a channel.

use crate::channel::{Channel, Full, Slot};
use crate::frame::{FRAME_LEN, Frame};

/// The first question about a reel answered no, and the place of its block, counted from 1.
#[derive(Clone, Copy, Debug, PartialEq, Eq)]
pub struct ReelFault {
    pub question: u8,
    pub at: usize,
}

/// One superframe of a recording.
#[derive(Clone, Copy, Debug)]
struct Block<'a> {
    frame_count: u8,
    map: &'a [u8],
    received: &'a [Frame],
}

/// The first block of these bytes and what stands behind it, or the question answered no.
#[inline]
fn block(bytes: &[u8]) -> Result<(Block<'_>, &[u8]), u8> {
    let (&frame_count, behind) = bytes.split_first().ok_or(21)?;
    if !(1..=200).contains(&frame_count) {
        return Err(21);
    }
    let (map, behind) = behind.split_at_checked(frame_count.div_ceil(8) as usize).ok_or(22)?;
    let used_bits = (frame_count - 1) % 8 + 1;
    if map[map.len() - 1] as u32 >> used_bits != 0 {
        return Err(22);
    }
    let received = map.iter().map(|b| b.count_ones() as usize).sum::<usize>();
    let (frames, behind) = behind.split_at_checked(received * FRAME_LEN).ok_or(23)?;
    Ok((Block { frame_count, map, received: frames.as_chunks().0 }, behind))
}

/// Checks a whole reel.
pub fn check(reel: &[u8]) -> Result<(), ReelFault> {
    let mut rest = reel;
    while !rest.is_empty() {
        let at = reel.len() - rest.len() + 1;
        (_, rest) = block(rest).map_err(|question| ReelFault { question, at })?;
    }
    Ok(())
}

/// A recording as a channel: the slots of the lawful blocks before the first fault. It takes no puts.
#[derive(Clone, Debug)]
pub struct Reel<'a> {
    /// The block whose slots are being given; none between blocks.
    current: Option<Block<'a>>,
    /// How many frames and gaps of it were given.
    given: usize,
    rest: &'a [u8],
}

impl<'a> Reel<'a> {
    pub fn new(reel: &'a [u8]) -> Self {
        Reel { current: None, given: 0, rest: reel }
    }
}

impl Channel for Reel<'_> {
    fn room(&self) -> usize {
        0
    }

    fn waits(&self) -> bool {
        self.current.is_some() || block(self.rest).is_ok()
    }

    fn put_frame(&mut self, _: &Frame) -> Result<(), Full> {
        Err(Full)
    }

    fn put_mark(&mut self) -> Result<(), Full> {
        Err(Full)
    }

    #[inline]
    fn take(&mut self, into: &mut Frame) -> Option<Slot> {
        if self.current.is_none() {
            let (first, behind) = block(self.rest).ok()?;
            self.current = Some(first);
            self.given = 0;
            self.rest = behind;
        }
        let now = self.current.as_mut()?;
        let number = self.given;
        if number == now.frame_count as usize {
            self.current = None;
            return Some(Slot::Mark);
        }
        self.given += 1;
        if now.map[number / 8] >> (number % 8) & 1 == 0 {
            return Some(Slot::Gap);
        }
        let (frame, behind) = now.received.split_first()?;
        now.received = behind;
        *into = *frame;
        Some(Slot::Frame)
    }
}

#[cfg(test)]
mod tests {
    use super::*;

    #[test]
    fn worked_examples() {
        let fault = |question, at| Err(ReelFault { question, at });
        assert_eq!(check(&[]), Ok(()));
        assert_eq!(check(&[2, 4]), fault(22, 1));
        assert_eq!(check(&[0]), fault(21, 1));
        assert_eq!(check(&[201]), fault(21, 1));
        assert_eq!(check(&[9, 0]), fault(22, 1));
        assert_eq!(check(&[8, 0, 0]), fault(21, 3));
        assert_eq!(check(&[1, 1, 0]), fault(23, 1));
    }

    #[test]
    fn slots_up_to_the_first_fault() {
        let mut bytes = vec![3, 0b101];
        bytes.extend([1; FRAME_LEN]);
        bytes.extend([2; FRAME_LEN]);
        bytes.extend([1, 0, 1, 1]);
        assert_eq!(check(&bytes), Err(ReelFault { question: 23, at: 249 }));
        let mut reel = Reel::new(&bytes);
        let mut into = [0; FRAME_LEN];
        assert!(reel.waits());
        assert_eq!((reel.take(&mut into), into), (Some(Slot::Frame), [1; FRAME_LEN]));
        assert_eq!(reel.take(&mut into), Some(Slot::Gap));
        assert_eq!((reel.take(&mut into), into), (Some(Slot::Frame), [2; FRAME_LEN]));
        assert_eq!(reel.take(&mut into), Some(Slot::Mark));
        assert_eq!(reel.take(&mut into), Some(Slot::Gap));
        assert_eq!(reel.take(&mut into), Some(Slot::Mark));
        assert!(!reel.waits());
        assert_eq!(reel.take(&mut into), None);
        assert_eq!((reel.room(), reel.put_mark()), (0, Err(Full)));
    }
}
