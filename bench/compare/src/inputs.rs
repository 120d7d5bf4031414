//! Made-up inputs, the same from the same seed.

use flo::{Channel, Checksum, Crc16, Flow, FRAME_LEN, Frame, Kind, NoChecksum, Plain, Ring, Slot, SyncHeader};

/// A small generator (splitmix64).
#[derive(Clone, Debug)]
pub struct Random(pub u64);

impl Random {
    pub fn next(&mut self) -> u64 {
        self.0 = self.0.wrapping_add(0x9e37_79b9_7f4a_7c15);
        let mut z = self.0;
        z = (z ^ z >> 30).wrapping_mul(0xbf58_476d_1ce4_e5b9);
        z = (z ^ z >> 27).wrapping_mul(0x94d0_49bb_1331_11eb);
        z ^ z >> 31
    }

    /// A number below `n`.
    pub fn below(&mut self, n: usize) -> usize {
        ((self.next() >> 32) * n as u64 >> 32) as usize
    }

    pub fn one_in(&mut self, n: usize) -> bool {
        self.below(n) == 0
    }

    pub fn byte(&mut self) -> u8 {
        self.next() as u8
    }

    pub fn bytes(&mut self, len: usize) -> Vec<u8> {
        let mut bytes = vec![0; len];
        for chunk in bytes.chunks_mut(8) {
            chunk.copy_from_slice(&self.next().to_le_bytes()[..chunk.len()]);
        }
        bytes
    }

    /// A packet's length: often short, now and then at an edge.
    pub fn packet_len(&mut self) -> usize {
        match self.below(8) {
            0..3 => 1 + self.below(20),
            3..5 => 1 + self.below(260),
            5 => *self.pick(&[1, 2, 117, 118, 119, 120, 121, 122, 239, 240, 241, 242, 243, 2042, 2043, 2044]),
            6 => 1 + self.below(800),
            _ => 1 + self.below(2044),
        }
    }

    pub fn pick<'a, T>(&mut self, of: &'a [T]) -> &'a T {
        &of[self.below(of.len())]
    }

    /// A packet that begins with a sync header, lawful or nearly.
    pub fn sync_packet(&mut self, len: usize) -> Vec<u8> {
        let kind = [Kind::Video, Kind::Audio, Kind::TimedData, Kind::Adaptation][self.below(4)];
        let header = SyncHeader {
            kind,
            frame_id: (kind != Kind::Adaptation).then_some(self.below(60) as u8),
            timestamp: self.one_in(2).then_some(self.next() as u32),
            random_access: matches!(kind, Kind::Video | Kind::Audio) && self.one_in(3),
            unreferenced: kind == Kind::Video && self.one_in(3),
        };
        let payload = self.bytes(len.saturating_sub(6).max(1));
        let mut out = vec![0; payload.len() + 6];
        let written = header.write(&payload, &mut out).expect("a lawful header");
        out.truncate(written);
        out
    }

    /// A byte that matters as a header more often than a random one would.
    pub fn telling_byte(&mut self) -> u8 {
        match self.below(6) {
            0 => *self.pick(&[0x00, 0x80, 0x7f, 0xff, 0x79, 0xf9, 0x78, 0xf8, 0x77, 0xf7, 0x7a, 0xfa, 0x7e, 0xfe, 0x01, 0x81]),
            1 => 1 << self.below(8),
            2 => 0,
            _ => self.byte(),
        }
    }

    /// A frame: lawful fragments, mostly, and now and then one that is not.
    pub fn frame(&mut self) -> Frame {
        let mut frame: Frame = self.bytes(FRAME_LEN).try_into().expect("122 bytes");
        let mut at = 0;
        while at < FRAME_LEN {
            let left = FRAME_LEN - 1 - at;
            if self.one_in(25) {
                frame[at] = self.telling_byte();
                at += 1 + (frame[at] & 0x7f) as usize;
            } else if left == 0 {
                frame[at] = if self.one_in(4) { self.telling_byte() } else { 0x80 };
                at += 1;
            } else if self.one_in(6) {
                frame[at] = 0x7f;
                frame[at + 1..].fill(0);
                if self.one_in(20) {
                    frame[at + 1 + self.below(left)] = self.byte();
                }
                break;
            } else if self.one_in(4) {
                frame[at] = left as u8 | if self.one_in(2) { 0x80 } else { 0 };
                break;
            } else {
                let count = 1 + self.below(left);
                frame[at] = count as u8 | 0x80;
                at += 1 + count;
            }
        }
        frame
    }
}

/// One superframe of a reel: its frames, where `None` is one that was lost.
pub fn put_block(reel: &mut Vec<u8>, frames: &[Option<Frame>]) {
    reel.push(frames.len() as u8);
    let map_at = reel.len();
    reel.resize(map_at + frames.len().div_ceil(8), 0);
    for (i, frame) in frames.iter().enumerate() {
        if let Some(frame) = frame {
            reel[map_at + i / 8] |= 1 << (i % 8);
            reel.extend(frame);
        }
    }
}

fn record<K: Checksum>(random: &mut Random, checksum: K, sync: bool, fasb: bool, superframes: usize, frames_max: usize) -> Vec<u8> {
    let mut memory = vec![0; 123 * (frames_max + 1)];
    let mut flow = Flow::new(Ring::new(&mut memory), checksum, Plain, 1, fasb);
    let mut reel = vec![];
    for _ in 0..superframes {
        let n = 1 + random.below(frames_max);
        let mut token = flow.open(n).expect("an empty ring");
        for _ in 0..1 + random.below(n * 2) {
            let len = random.packet_len();
            let packet = if sync { random.sync_packet(len) } else { random.bytes(len) };
            (token, _) = flow.offer(token, &packet);
        }
        flow.close(token).expect("its own token");
        let mut frames = vec![];
        let mut frame = [0; FRAME_LEN];
        let lossy = random.one_in(3);
        while let Some(Slot::Frame) = flow.channel_mut().take(&mut frame) {
            frames.push((!lossy || !random.one_in(5)).then_some(frame));
        }
        put_block(&mut reel, &frames);
    }
    reel
}

/// A recording of packets that were really sent, with losses.
pub fn recorded_reel(random: &mut Random, crc16: bool, sync: bool, fasb: bool) -> Vec<u8> {
    let superframes = 1 + random.below(4);
    let frames_max = if random.one_in(4) { 24 } else { 6 };
    match crc16 {
        true => record(random, Crc16, sync, fasb, superframes, frames_max),
        false => record(random, NoChecksum, sync, fasb, superframes, frames_max),
    }
}

/// Blocks of made-up frames.
pub fn made_up_reel(random: &mut Random) -> Vec<u8> {
    let mut reel = vec![];
    for _ in 0..1 + random.below(3) {
        let n = if random.one_in(30) { 1 + random.below(200) } else { 1 + random.below(12) };
        let frames: Vec<_> = (0..n).map(|_| (!random.one_in(8)).then(|| random.frame())).collect();
        put_block(&mut reel, &frames);
    }
    reel
}

/// Flips bits, changes bytes, cuts and lengthens.
pub fn damage(random: &mut Random, bytes: &mut Vec<u8>) {
    for _ in 0..random.below(4) {
        match random.below(8) {
            0..4 if !bytes.is_empty() => {
                let at = random.below(bytes.len());
                bytes[at] ^= 1 << random.below(8);
            }
            4 if !bytes.is_empty() => {
                let at = random.below(bytes.len());
                bytes[at] = random.telling_byte();
            }
            5 => {
                let len = random.below(bytes.len() + 1);
                bytes.truncate(len);
            }
            6 => {
                let tail = random.below(140);
                bytes.extend(random.bytes(tail));
            }
            7 if !bytes.is_empty() => {
                let at = random.below(bytes.len());
                if random.one_in(2) {
                    bytes.remove(at);
                } else {
                    bytes.insert(at, random.telling_byte());
                }
            }
            _ => {}
        }
    }
}

fn put_step(script: &mut Vec<u8>, call: u8, n: usize) {
    script.push(call);
    script.extend((n as u16).to_le_bytes());
}

/// A script of calls: mostly openings, offers and closings in their order, with readings between, and now and then a call that
/// is to be refused.
pub fn script(random: &mut Random, sync: bool) -> Vec<u8> {
    let mut script = vec![];
    for _ in 0..1 + random.below(5) {
        let n = match random.below(20) {
            0 => *random.pick(&[0, 199, 200, 201, 256, 257, 65535]),
            1..4 => 1 + random.below(40),
            _ => 1 + random.below(5),
        };
        put_step(&mut script, 0, n);
        for _ in 0..random.below(9) {
            let call = match random.below(30) {
                0..18 => 1,
                18..21 => 3,
                21..23 => 4,
                23 => 5,
                24 => 6,
                25 => 7,
                26 => 0,
                27 => 2,
                _ => 1,
            };
            let len = match random.below(40) {
                0 => 0,
                1 => 2045,
                _ => random.packet_len(),
            };
            match call {
                1 | 5 => {
                    let packet = if len > 0 && len < 2045 && !random.one_in(if sync { 5 } else { 2 }) { random.sync_packet(len) } else { random.bytes(len) };
                    put_step(&mut script, call, packet.len());
                    script.extend(packet);
                }
                3 => {
                    let buffer = *random.pick(&[2044, 2045, 2046, 2044, 2043, 0]);
                    put_step(&mut script, 3, buffer);
                }
                0 => put_step(&mut script, 0, random.below(4)),
                _ => put_step(&mut script, call, 0),
            }
        }
        if !random.one_in(12) {
            put_step(&mut script, 2, 0);
        }
        for _ in 0..random.below(4) {
            put_step(&mut script, 3, 2044);
        }
    }
    if random.one_in(50) {
        let len = random.below(script.len() + 1);
        script.truncate(len);
    }
    script
}
