//! The writing side of a flow: packets cut into frames.

use crate::channel::Channel;
use crate::frame::{FRAME_LEN, Frame, LAST_MARK, PADDING};

#[derive(Clone, Debug)]
pub struct Writer {
    frame: Frame,
    used: usize,
    /// How many frames of the open superframe were not put yet.
    frames_left: usize,
    carried: [u8; 2048],
    carried_from: usize,
    carried_to: usize,
}

impl Default for Writer {
    fn default() -> Self {
        Writer { frame: [0; FRAME_LEN], used: 0, frames_left: 0, carried: [0; 2048], carried_from: 0, carried_to: 0 }
    }
}

impl Writer {
    /// How many body bytes of one packet the rest of the superframe takes.
    pub fn free(&self) -> usize {
        // an unfinished frame has two bytes free or more, of which one goes to the header
        (self.frames_left * (FRAME_LEN - 1)).saturating_sub(self.used)
    }

    /// Begins a superframe, with what was carried over.
    pub fn begin<C: Channel>(&mut self, channel: &mut C, frames: usize) {
        self.frames_left = frames;
        if self.carried_from < self.carried_to {
            let carried = self.carried;
            self.carried_from += self.cut(channel, &carried[self.carried_from..self.carried_to], &[]);
        }
    }

    /// Cuts a packet and its checksum; what does not fit is carried over.
    pub fn write<C: Channel>(&mut self, channel: &mut C, packet: &[u8], checksum: &[u8]) {
        let done = self.cut(channel, packet, checksum);
        let total = packet.len() + checksum.len();
        if done < total {
            self.carried_from = done;
            self.carried_to = total;
            self.carried[..packet.len()].copy_from_slice(packet);
            self.carried[packet.len()..total].copy_from_slice(checksum);
        }
    }

    /// Fills what is left of the superframe with padding, and marks its end.
    pub fn finish<C: Channel>(&mut self, channel: &mut C) {
        while self.frames_left > 0 {
            self.frame[self.used] = PADDING as u8;
            self.frame[self.used + 1..].fill(0);
            self.put(channel);
        }
        channel.put_mark().expect("room was kept at the opening");
    }

    /// Cuts `first` and then `second` into what is left of the superframe; gives how many bytes went.
    fn cut<C: Channel>(&mut self, channel: &mut C, first: &[u8], second: &[u8]) -> usize {
        let total = first.len() + second.len();
        let mut done = 0;
        while done < total && self.frames_left > 0 {
            let start = self.used + 1;
            let count = (FRAME_LEN - start).min(total - done);
            let last = done + count == total;
            self.frame[self.used] = count as u8 | if last { LAST_MARK } else { 0 };
            let body = &mut self.frame[start..start + count];
            let of_first = first.len().saturating_sub(done).min(count);
            let (a, b) = body.split_at_mut(of_first);
            if !a.is_empty() {
                a.copy_from_slice(&first[done..done + of_first]);
            }
            if !b.is_empty() {
                let from = done + of_first - first.len();
                b.copy_from_slice(&second[from..from + b.len()]);
            }
            self.used = start + count;
            done += count;
            if self.used == FRAME_LEN - 1 {
                self.frame[FRAME_LEN - 1] = LAST_MARK;
                self.used = FRAME_LEN;
            }
            if self.used == FRAME_LEN {
                self.put(channel);
            }
        }
        done
    }

    fn put<C: Channel>(&mut self, channel: &mut C) {
        channel.put_frame(&self.frame).expect("room was kept at the opening");
        self.used = 0;
        self.frames_left -= 1;
    }
}
