//! One flow: packets cut into frames on a channel, and read back.

use crate::PACKET_MAX;
use crate::channel::Channel;
use crate::checksum::Checksum;
use crate::reader::{Answer, Reader};
use crate::service::Service;
use crate::writer::Writer;

/// The right to offer to one open superframe. It is given back by a closing.
#[derive(Debug, PartialEq, Eq)]
#[must_use = "the superframe is still open"]
pub struct SuperframeToken {
    id: u16,
}

#[derive(Clone, Copy, Debug, PartialEq, Eq)]
pub enum OpenFault {
    /// Question 1.
    AlreadyOpen,
    /// Question 2.
    FrameCount,
    /// Question 3.
    NoRoom,
}

#[derive(Clone, Copy, Debug, PartialEq, Eq)]
pub enum OfferFault {
    /// Question 4.
    WrongToken,
    /// Question 5.
    Length,
    /// Question 6, with the service's own number.
    NotAdmitted(u8),
    /// Question 7.
    NoRoom,
}

#[derive(Debug)]
pub struct Flow<C, K, S> {
    channel: C,
    checksum: K,
    service: S,
    id: u16,
    fasb: bool,
    open: bool,
    writer: Writer,
    reader: Reader,
}

impl<C: Channel, K: Checksum, S: Service> Flow<C, K, S> {
    pub fn new(channel: C, checksum: K, service: S, id: u16, fasb: bool) -> Self {
        Flow { channel, checksum, service, id, fasb, open: false, writer: Writer::default(), reader: Reader::new(fasb) }
    }

    /// Opens a superframe of so many frames.
    pub fn open(&mut self, frames: usize) -> Result<SuperframeToken, OpenFault> {
        if self.open {
            return Err(OpenFault::AlreadyOpen);
        }
        if !(1..=200).contains(&frames) {
            return Err(OpenFault::FrameCount);
        }
        if self.channel.room() < frames + 1 {
            return Err(OpenFault::NoRoom);
        }
        self.open = true;
        self.writer.begin(&mut self.channel, frames);
        Ok(SuperframeToken { id: self.id })
    }

    fn holds(&self, token: &SuperframeToken) -> bool {
        self.open && token.id == self.id
    }

    /// Offers a packet.
    pub fn offer(&mut self, token: SuperframeToken, packet: &[u8]) -> (SuperframeToken, Result<(), OfferFault>) {
        let answer = self.try_offer(&token, packet);
        (token, answer)
    }

    fn try_offer(&mut self, token: &SuperframeToken, packet: &[u8]) -> Result<(), OfferFault> {
        if !self.holds(token) {
            return Err(OfferFault::WrongToken);
        }
        if !(1..=PACKET_MAX).contains(&packet.len()) {
            return Err(OfferFault::Length);
        }
        self.service.admit(packet).map_err(OfferFault::NotAdmitted)?;
        let needed = if self.fasb { 1 } else { packet.len() + K::WIDTH };
        if self.writer.free() < needed {
            return Err(OfferFault::NoRoom);
        }
        let value = self.checksum.value(packet);
        self.writer.write(&mut self.channel, packet, &value[..K::WIDTH]);
        Ok(())
    }

    /// Closes the superframe. Question 4 gives the token back.
    pub fn close(&mut self, token: SuperframeToken) -> Result<(), SuperframeToken> {
        if !self.holds(&token) {
            return Err(token);
        }
        self.writer.finish(&mut self.channel);
        self.open = false;
        Ok(())
    }

    /// Reads until an answer is due. Refuses with 8 where `out` has fewer than 2,044 bytes.
    pub fn read(&mut self, out: &mut [u8]) -> Result<Answer, u8> {
        self.reader.read(&mut self.channel, &self.checksum, &self.service, out)
    }

    pub fn channel(&self) -> &C {
        &self.channel
    }

    /// The channel, for a receiver of its own.
    pub fn channel_mut(&mut self) -> &mut C {
        &mut self.channel
    }
}

#[cfg(test)]
mod tests {
    use super::*;
    use crate::channel::{Fade, FadePattern, Ring, Slot};
    use crate::checksum::{Crc16, NoChecksum};
    use crate::frame::{FRAME_LEN, Frame};
    use crate::service::{Plain, Sync};

    /// Offers these packets, one superframe after the other; gives what came out of each frame that was put.
    fn frames<K: Checksum>(checksum: K, n: usize, packets: &[&[u8]]) -> Vec<Frame> {
        let mut memory = vec![0; 123 * 300];
        let mut flow = Flow::new(Ring::new(&mut memory), checksum, Plain, 7, false);
        let mut token = flow.open(n).unwrap();
        for packet in packets {
            let answer;
            (token, answer) = flow.offer(token, packet);
            assert_eq!(answer, Ok(()));
        }
        flow.close(token).unwrap();
        let mut all = vec![];
        let mut frame = [0; FRAME_LEN];
        while flow.channel.take(&mut frame) == Some(Slot::Frame) {
            all.push(frame);
        }
        all
    }

    fn frame(head: &[u8]) -> Frame {
        let mut f = [0; FRAME_LEN];
        f[..head.len()].copy_from_slice(head);
        f
    }

    fn packet(len: usize) -> Vec<u8> {
        (0..len).map(|i| (i * 7 + len) as u8).collect()
    }

    #[test]
    fn cut_as_the_examples_say() {
        assert_eq!(frames(NoChecksum, 1, &[b"A"]), [frame(&[0x81, 0x41, 0x7f])]);
        let with = |header: u8, body: &[u8], tail: &[u8]| frame(&[&[header], body, tail].concat());
        assert_eq!(frames(NoChecksum, 1, &[&packet(119)]), [with(0xf7, &packet(119), &[0x7f, 0])]);
        assert_eq!(frames(NoChecksum, 1, &[&packet(120)]), [with(0xf8, &packet(120), &[0x80])]);
        assert_eq!(frames(NoChecksum, 1, &[&packet(121)]), [with(0xf9, &packet(121), &[])]);
        assert_eq!(frames(Crc16, 1, &[b"123456789"]), [with(0x8b, b"123456789\x29\xb1", &[0x7f])]);
    }

    fn offered(n: usize, before: &[usize], len: usize) -> Result<(), OfferFault> {
        let mut memory = vec![0; 123 * 300];
        let mut flow = Flow::new(Ring::new(&mut memory), NoChecksum, Plain, 7, false);
        let mut token = flow.open(n).unwrap();
        for &b in before {
            (token, _) = flow.offer(token, &packet(b));
        }
        let (token, answer) = flow.offer(token, &packet(len));
        flow.close(token).unwrap();
        answer
    }

    #[test]
    fn what_fits() {
        assert_eq!(offered(1, &[], 122), Err(OfferFault::NoRoom));
        assert_eq!(offered(2, &[119], 122), Ok(()));
        assert_eq!(offered(2, &[120], 122), Err(OfferFault::NoRoom));
        assert_eq!(offered(20, &[], 2044), Ok(()));
        assert_eq!(offered(20, &[], 2045), Err(OfferFault::Length));
        assert_eq!(offered(20, &[], 0), Err(OfferFault::Length));
    }

    /// The lengths of the packets that come out, where these superframes of packets go over a fade.
    fn received(pattern: u8, superframes: &[(usize, &[usize])]) -> Vec<usize> {
        let mut memory = vec![0; 123 * 300];
        let mut holder = FadePattern::default();
        holder.prepare(&[pattern]).unwrap();
        let mut flow = Flow::new(Fade::new(Ring::new(&mut memory), holder), NoChecksum, Plain, 7, false);
        for (n, lens) in superframes {
            let mut token = flow.open(*n).unwrap();
            for &len in *lens {
                (token, _) = flow.offer(token, &packet(len));
            }
            flow.close(token).unwrap();
        }
        let mut out = [0; 2044];
        let mut lens = vec![];
        loop {
            match flow.read(&mut out).unwrap() {
                Answer::Sound { len } => {
                    assert_eq!(out[..len], packet(len));
                    lens.push(len);
                }
                Answer::Nothing => return lens,
                _ => {}
            }
        }
    }

    #[test]
    fn losses() {
        assert_eq!(received(0b110, &[(3, &[200, 100])]), [100]);
        assert_eq!(received(0b101, &[(3, &[200, 100])]), []);
        assert_eq!(received(0b011, &[(3, &[200, 100])]), [200]);
        assert_eq!(received(0b110, &[(2, &[121, 121])]), []);
        assert_eq!(received(0b110, &[(1, &[121]), (1, &[121])]), [121]);
    }

    #[test]
    fn tokens_and_refusals() {
        let (mut memory, mut other) = (vec![0; 123 * 5], vec![0; 123 * 5]);
        let mut flow = Flow::new(Ring::new(&mut memory), NoChecksum, Sync, 7, false);
        let mut stranger = Flow::new(Ring::new(&mut other), NoChecksum, Sync, 8, false);
        assert_eq!(flow.open(0), Err(OpenFault::FrameCount));
        assert_eq!(flow.open(201), Err(OpenFault::FrameCount));
        assert_eq!(flow.open(5), Err(OpenFault::NoRoom));
        let token = flow.open(4).unwrap();
        let strange = stranger.open(4).unwrap();
        assert_eq!(flow.open(0), Err(OpenFault::AlreadyOpen));
        let (strange, answer) = flow.offer(strange, &[]);
        assert_eq!(answer, Err(OfferFault::WrongToken));
        let strange = flow.close(strange).unwrap_err();
        let (token, answer) = flow.offer(token, &[0x07, 1, 1]);
        assert_eq!(answer, Err(OfferFault::NotAdmitted(32)));
        flow.close(token).unwrap();
        stranger.close(strange).unwrap();
        assert_eq!(flow.read(&mut [0; 2043]), Err(8));
    }

    #[test]
    fn packets_cross_superframes() {
        let mut memory = vec![0; 123 * 300];
        let mut flow = Flow::new(Ring::new(&mut memory), Crc16, Plain, 7, true);
        let token = flow.open(1).unwrap();
        let (token, answer) = flow.offer(token, &packet(2044));
        assert_eq!(answer, Ok(()));
        let (token, answer) = flow.offer(token, &packet(1));
        assert_eq!(answer, Err(OfferFault::NoRoom));
        flow.close(token).unwrap();
        for _ in 0..16 {
            let token = flow.open(1).unwrap();
            flow.close(token).unwrap();
        }
        let mut out = [0; 2044];
        for _ in 0..16 {
            assert_eq!(flow.read(&mut out), Ok(Answer::Mark { dropped: 0 }));
        }
        assert_eq!(flow.read(&mut out), Ok(Answer::Sound { len: 2044 }));
        assert_eq!(out[..], packet(2044));
        assert_eq!(flow.read(&mut out), Ok(Answer::Mark { dropped: 0 }));
        assert_eq!(flow.read(&mut out), Ok(Answer::Nothing));
    }
}
