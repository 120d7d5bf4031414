//! The reading side of a flow.

use crate::PACKET_MAX;
use crate::channel::{Channel, Slot};
use crate::checksum::Checksum;
use crate::frame::{FRAME_LEN, Frame, PADDING, Torn, judge, split};
use crate::service::Service;

/// What a reading answers.
#[derive(Clone, Copy, Debug, PartialEq, Eq)]
pub enum Answer {
    Sound { len: usize },
    Damaged { len: usize },
    Foreign { number: u8, len: usize },
    Short,
    Lost { frame: u16, dropped: usize },
    Torn { frame: u16, dropped: usize, torn: Torn },
    Mark { dropped: usize },
    Nothing,
}

#[derive(Clone, Copy, Debug, PartialEq, Eq)]
enum State {
    /// The next body begins a packet.
    Aligned,
    /// It has bytes of a packet whose end it has not seen.
    Gathering,
    /// It does not know where the next packet begins.
    Seeking,
}

#[derive(Clone, Debug)]
pub struct Reader {
    fasb: bool,
    state: State,
    gathered: [u8; 2048],
    gathered_len: usize,
    /// The number of the frame or gap that was taken last; 0 after a mark.
    number: u16,
    frame: Frame,
    /// Where the next fragment of the frame in hand begins; `FRAME_LEN` where there is none.
    next: usize,
}

impl Reader {
    pub fn new(fasb: bool) -> Self {
        Reader { fasb, state: State::Aligned, gathered: [0; 2048], gathered_len: 0, number: 0, frame: [0; FRAME_LEN], next: FRAME_LEN }
    }

    /// Reads until an answer is due. A packet goes to the front of `out`. Refuses with 8 where `out` is too short.
    pub fn read<C, K, S>(&mut self, channel: &mut C, checksum: &K, service: &S, out: &mut [u8]) -> Result<Answer, u8>
    where
        C: Channel,
        K: Checksum,
        S: Service,
    {
        if out.len() < PACKET_MAX {
            return Err(8);
        }
        loop {
            while self.next < FRAME_LEN {
                if let Some(answer) = self.next_fragment(checksum, service, out) {
                    return Ok(answer);
                }
            }
            if let Some(answer) = self.next_slot(channel, K::WIDTH) {
                return Ok(answer);
            }
        }
    }

    #[inline]
    fn next_slot<C: Channel>(&mut self, channel: &mut C, width: usize) -> Option<Answer> {
        let Some(slot) = channel.take(&mut self.frame) else { return Some(Answer::Nothing) };
        match slot {
            Slot::Frame => {
                self.number = self.number.saturating_add(1);
                match judge(&self.frame, self.gathered_len, PACKET_MAX + width) {
                    Ok(()) => {
                        self.next = 0;
                        None
                    }
                    Err(torn) => Some(Answer::Torn { frame: self.number, dropped: self.lose(), torn }),
                }
            }
            Slot::Gap => {
                self.number = self.number.saturating_add(1);
                Some(Answer::Lost { frame: self.number, dropped: self.lose() })
            }
            Slot::Mark => {
                self.number = 0;
                let dropped = if self.fasb { 0 } else { self.drop_gathered(State::Aligned) };
                Some(Answer::Mark { dropped })
            }
        }
    }

    fn lose(&mut self) -> usize {
        self.drop_gathered(State::Seeking)
    }

    #[inline]
    fn drop_gathered(&mut self, state: State) -> usize {
        self.state = state;
        std::mem::take(&mut self.gathered_len)
    }

    /// Walks over one fragment of the frame in hand, which was judged.
    #[inline]
    fn next_fragment<K: Checksum, S: Service>(&mut self, checksum: &K, service: &S, out: &mut [u8]) -> Option<Answer> {
        let (count, last) = split(self.frame[self.next]);
        let start = self.next + 1;
        if count == 0 || count == PADDING {
            self.next = FRAME_LEN;
            self.state = State::Aligned;
            return None;
        }
        let end = start + count;
        self.next = end;
        let body = &self.frame[start..end];
        match self.state {
            State::Seeking => {
                if last {
                    self.state = State::Aligned;
                }
                None
            }
            // the whole packet in one body
            State::Aligned if last => Some(hand_out(body, checksum, service, out)),
            _ => {
                let len = self.gathered_len + count;
                self.gathered[self.gathered_len..len].copy_from_slice(body);
                if last {
                    self.state = State::Aligned;
                    self.gathered_len = 0;
                    Some(hand_out(&self.gathered[..len], checksum, service, out))
                } else {
                    self.state = State::Gathering;
                    self.gathered_len = len;
                    None
                }
            }
        }
    }
}

/// Judges a packet with its checksum behind it, and copies it out.
#[inline]
fn hand_out<K: Checksum, S: Service>(bytes: &[u8], checksum: &K, service: &S, out: &mut [u8]) -> Answer {
    if bytes.len() <= K::WIDTH {
        return Answer::Short;
    }
    let len = bytes.len() - K::WIDTH;
    let packet = &bytes[..len];
    out[..len].copy_from_slice(packet);
    if !checksum.fits(bytes) {
        return Answer::Damaged { len };
    }
    match service.admit(packet) {
        Ok(()) => Answer::Sound { len },
        Err(number) => Answer::Foreign { number, len },
    }
}
