//! Frames, their fragments, and how a frame is judged.

pub const FRAME_LEN: usize = 122;

/// The count that says the rest of the frame is padding.
pub const PADDING: usize = 127;
pub const LAST_MARK: u8 = 0x80;

pub type Frame = [u8; FRAME_LEN];

/// A frame that is not lawful: the question answered no, and the place of its header, counted from 1.
#[derive(Clone, Copy, Debug, PartialEq, Eq)]
pub struct Torn {
    pub question: u8,
    pub at: u8,
}

/// The count and the last mark of a header byte.
#[inline(always)]
pub fn split(header: u8) -> (usize, bool) {
    ((header & 0x7f) as usize, header & LAST_MARK != 0)
}

/// Judges a frame. `open` is how many bytes the reader has of a packet that it has not seen the end of (0: none is
/// open), `limit` the most that such a packet and its checksum may have.
#[inline]
pub fn judge(frame: &Frame, open: usize, limit: usize) -> Result<(), Torn> {
    let mut at = 0;
    while at < FRAME_LEN {
        let (count, last) = split(frame[at]);
        let torn = |question| Err(Torn { question, at: at as u8 + 1 });
        let end = at + 1 + count;
        match count {
            1..=121 => {
                if end > FRAME_LEN {
                    return torn(17);
                }
                if !last && end != FRAME_LEN {
                    return torn(18);
                }
                if at == 0 && open > 0 && open + count > limit {
                    return torn(19);
                }
                at = end;
            }
            0 => {
                if !last || at != FRAME_LEN - 1 {
                    return torn(16);
                }
                return Ok(());
            }
            PADDING => {
                if last {
                    return torn(12);
                }
                if at == FRAME_LEN - 1 {
                    return torn(13);
                }
                if !is_zero(&frame[at + 1..]) {
                    return torn(14);
                }
                if at == 0 && open > 0 {
                    return torn(15);
                }
                return Ok(());
            }
            _ => return torn(11),
        }
    }
    Ok(())
}

#[inline]
fn is_zero(bytes: &[u8]) -> bool {
    let (words, tail) = bytes.as_chunks::<8>();
    words.iter().fold(0, |or, w| or | u64::from_le_bytes(*w)) == 0 && tail.iter().all(|&b| b == 0)
}

/// One fragment of a frame, with the place of its header, counted from 1.
#[derive(Clone, Copy, Debug, PartialEq, Eq)]
pub enum Fragment<'a> {
    Body { at: u8, bytes: &'a [u8], last: bool },
    Notional { at: u8 },
    Padding { at: u8 },
}

/// The fragments of a lawful frame, one at a time.
#[derive(Clone, Debug)]
pub struct Fragments<'a> {
    frame: &'a Frame,
    at: usize,
}

/// Why the fragments of these bytes are not to be had.
#[derive(Clone, Copy, Debug, PartialEq, Eq)]
pub enum FragmentsFault {
    /// Question 10: they are not 122 bytes.
    Length,
    Torn(Torn),
}

impl<'a> Fragments<'a> {
    pub fn new(bytes: &'a [u8]) -> Result<Self, FragmentsFault> {
        let frame: &Frame = bytes.try_into().map_err(|_| FragmentsFault::Length)?;
        judge(frame, 0, usize::MAX).map_err(FragmentsFault::Torn)?;
        Ok(Fragments { frame, at: 0 })
    }
}

impl<'a> Iterator for Fragments<'a> {
    type Item = Fragment<'a>;

    fn next(&mut self) -> Option<Fragment<'a>> {
        let &header = self.frame.get(self.at)?;
        let (count, last) = split(header);
        let at = self.at as u8 + 1;
        let start = self.at + 1;
        self.at = FRAME_LEN;
        Some(match count {
            0 => Fragment::Notional { at },
            PADDING => Fragment::Padding { at },
            _ => {
                self.at = start + count;
                Fragment::Body { at, bytes: &self.frame[start..start + count], last }
            }
        })
    }
}

#[cfg(test)]
mod tests {
    use super::*;

    fn frame(head: &[u8]) -> Frame {
        let mut f = [0; FRAME_LEN];
        f[..head.len()].copy_from_slice(head);
        f
    }

    fn torn(question: u8, at: u8) -> Result<(), Torn> {
        Err(Torn { question, at })
    }

    #[test]
    fn each_question_is_asked() {
        let full = 0x79;
        assert_eq!(judge(&frame(&[0x81, 0x41, 0x7f]), 0, 2044), Ok(()));
        assert_eq!(judge(&frame(&[122]), 0, 2044), torn(11, 1));
        assert_eq!(judge(&frame(&[0x81, 0, 0xff]), 0, 2044), torn(12, 3));
        let mut f = [1; FRAME_LEN];
        f[0] = 0xf8;
        f[121] = 0x7f;
        assert_eq!(judge(&f, 0, 2044), torn(13, 122));
        f[121] = 0x80;
        assert_eq!(judge(&f, 0, 2044), Ok(()));
        f[121] = 0;
        assert_eq!(judge(&f, 0, 2044), torn(16, 122));
        let mut f = frame(&[0x7f]);
        f[121] = 1;
        assert_eq!(judge(&f, 1, 2044), torn(14, 1));
        f[121] = 0;
        assert_eq!(judge(&f, 1, 2044), torn(15, 1));
        assert_eq!(judge(&f, 0, 2044), Ok(()));
        assert_eq!(judge(&frame(&[0x80]), 0, 2044), torn(16, 1));
        assert_eq!(judge(&frame(&[0x81, 0, 0xf8]), 0, 2044), torn(17, 3));
        assert_eq!(judge(&frame(&[0x01]), 0, 2044), torn(18, 1));
        assert_eq!(judge(&frame(&[full]), 1923, 2044), Ok(()));
        assert_eq!(judge(&frame(&[full]), 1924, 2044), torn(19, 1));
        assert_eq!(judge(&frame(&[full]), 1924, 2046), Ok(()));
    }

    #[test]
    fn fragments_come_in_turn() {
        let f = frame(&[0x81, 0x41, 0x82, 1, 2, 0x7f]);
        let all: Vec<_> = Fragments::new(&f).unwrap().collect();
        let body = |at, bytes| Fragment::Body { at, bytes, last: true };
        assert_eq!(all, [body(1, &[0x41][..]), body(3, &[1, 2]), Fragment::Padding { at: 6 }]);
        assert_eq!(Fragments::new(&f[1..]).unwrap_err(), FragmentsFault::Length);
    }
}
