//! The plain Rust behind the functions of crates/boundary, with answers put down in the same bytes.

use flo::frame::judge as judge_frame;
use flo::flow::OfferFault;
use flo::{
    Answer, Channel, Checksum, Crc16, Fade, FadePattern, Flow, Frame, Kind, NoChecksum, Plain, Reader, Reel, Ring, Service, SuperframeToken,
    Sync, SyncHeader, reel,
};
use proved::{Checked, Facts, Judged, Settings, Totals, Value, Written};

pub fn crc16(bytes: &[u8]) -> Value {
    let [high, low] = flo::checksum::crc16(bytes).to_be_bytes();
    Value { high, low }
}

pub fn judge(bytes: &[u8], gathered: u16, width: u8) -> Judged {
    let Ok(frame): Result<&Frame, _> = bytes.try_into() else { return Judged { question: 10, at: 0 } };
    match judge_frame(frame, gathered.into(), flo::PACKET_MAX + width as usize) {
        Ok(()) => Judged { question: 0, at: 0 },
        Err(torn) => Judged { question: torn.question, at: torn.at },
    }
}

pub fn read_header(packet: &[u8], facts: &mut Facts) -> u8 {
    match SyncHeader::read(packet) {
        Err(question) => question,
        Ok((header, payload)) => {
            *facts = Facts {
                kind: header.kind as u8,
                has_frame_id: header.frame_id.is_some(),
                frame_id: header.frame_id.unwrap_or(0),
                has_timestamp: header.timestamp.is_some(),
                timestamp: header.timestamp.unwrap_or(0),
                access_point: header.random_access,
                unreferenced: header.unreferenced,
                payload_at: (packet.len() - payload.len()) as u8,
            };
            0
        }
    }
}

pub fn write_header(facts: &Facts, payload: &[u8], out: &mut [u8]) -> Written {
    let header = SyncHeader {
        kind: match facts.kind {
            0 => Kind::Video,
            1 => Kind::Audio,
            2 => Kind::TimedData,
            _ => Kind::Adaptation,
        },
        frame_id: facts.has_frame_id.then_some(facts.frame_id),
        timestamp: facts.has_timestamp.then_some(facts.timestamp),
        random_access: facts.access_point,
        unreferenced: facts.unreferenced,
    };
    match header.write(payload, out) {
        Ok(len) => Written { len, question: 0 },
        Err(question) => Written { len: 0, question },
    }
}

pub fn check_reel(bytes: &[u8]) -> Checked {
    match reel::check(bytes) {
        Ok(()) => Checked { at: 0, question: 0 },
        Err(fault) => Checked { at: fault.at, question: fault.question },
    }
}

/// Bytes put down one after the other; those that do not fit are left out.
pub struct Trace<'a> {
    pub out: &'a mut [u8],
    pub at: usize,
}

impl Trace<'_> {
    pub fn put(&mut self, bytes: &[u8]) {
        if let Some(place) = self.out.get_mut(self.at..self.at + bytes.len()) {
            place.copy_from_slice(bytes);
            self.at += bytes.len();
        }
    }

    pub fn put_answer(&mut self, answer: Answer, buffer: &[u8]) {
        let (code, number, at, frame, len) = match answer {
            Answer::Sound { len } => (1, 0, 0, 0, len),
            Answer::Damaged { len } => (2, 0, 0, 0, len),
            Answer::Foreign { number, len } => (3, number, 0, 0, len),
            Answer::Short => (4, 0, 0, 0, 0),
            Answer::Lost { frame, dropped } => (5, 0, 0, frame, dropped),
            Answer::Torn { frame, dropped, torn } => (6, torn.question, torn.at, frame, dropped),
            Answer::Mark { dropped } => (7, 0, 0, 0, dropped),
            Answer::Nothing => (8, 0, 0, 0, 0),
        };
        let [f0, f1] = frame.to_le_bytes();
        let [l0, l1] = (len as u16).to_le_bytes();
        self.put(&[code, number, at, f0, f1, l0, l1]);
        if code <= 3 {
            self.put(&buffer[..len]);
        }
    }
}

fn trace_all<K: Checksum, S: Service>(bytes: &[u8], checksum: K, service: S, fasb: bool, buffer: &mut [u8], out: &mut [u8]) -> usize {
    let mut trace = Trace { out, at: 0 };
    let mut channel = Reel::new(bytes);
    let mut reader = Reader::new(fasb);
    while let Ok(answer) = reader.read(&mut channel, &checksum, &service, buffer) {
        trace.put_answer(answer, buffer);
        if answer == Answer::Nothing {
            break;
        }
    }
    trace.at
}

pub fn trace_reel(bytes: &[u8], settings: Settings, buffer: &mut [u8], out: &mut [u8]) -> usize {
    let fasb = settings.fasb;
    match (settings.crc16, settings.sync) {
        (false, false) => trace_all(bytes, NoChecksum, Plain, fasb, buffer, out),
        (false, true) => trace_all(bytes, NoChecksum, Sync, fasb, buffer, out),
        (true, false) => trace_all(bytes, Crc16, Plain, fasb, buffer, out),
        (true, true) => trace_all(bytes, Crc16, Sync, fasb, buffer, out),
    }
}

fn count_all<K: Checksum, S: Service>(bytes: &[u8], checksum: K, service: S, buffer: &mut [u8]) -> Totals {
    let mut totals = Totals::default();
    let mut channel = Reel::new(bytes);
    let mut reader = Reader::new(false);
    while let Ok(answer) = reader.read(&mut channel, &checksum, &service, buffer) {
        match answer {
            Answer::Sound { len } | Answer::Damaged { len } | Answer::Foreign { len, .. } => {
                totals.packets += 1;
                totals.bytes += len as u64;
            }
            Answer::Nothing => break,
            _ => totals.others += 1,
        }
    }
    totals
}

/// Never inlined, so that the compiler cannot see that nobody looks at the buffer.
#[inline(never)]
pub fn count_reel(bytes: &[u8], crc16: bool, sync: bool, buffer: &mut [u8]) -> Totals {
    match (crc16, sync) {
        (false, false) => count_all(bytes, NoChecksum, Plain, buffer),
        (false, true) => count_all(bytes, NoChecksum, Sync, buffer),
        (true, false) => count_all(bytes, Crc16, Plain, buffer),
        (true, true) => count_all(bytes, Crc16, Sync, buffer),
    }
}

fn offer_numbers(answer: Result<(), OfferFault>) -> [u8; 2] {
    match answer {
        Ok(()) => [0, 0],
        Err(OfferFault::WrongToken) => [4, 0],
        Err(OfferFault::Length) => [5, 0],
        Err(OfferFault::NotAdmitted(inside)) => [6, inside],
        Err(OfferFault::NoRoom) => [7, 0],
    }
}

const NO_TOKEN: [u8; 2] = [255, 0];

/// A flow on which a script is run, with its token and another flow's.
struct Session<'a, C, K, S> {
    flow: Flow<C, K, S>,
    own: Option<SuperframeToken>,
    stray: Option<SuperframeToken>,
    trace: Trace<'a>,
}

impl<C: Channel, K: Checksum, S: Service> Session<'_, C, K, S> {
    fn open(&mut self, n: usize) {
        let number = match self.flow.open(n) {
            Ok(token) => {
                self.own = Some(token);
                0
            }
            Err(fault) => fault as u8 + 1,
        };
        self.trace.put(&[number, 0]);
    }

    fn close(&mut self) {
        let numbers = match self.own.take() {
            None => NO_TOKEN,
            Some(token) => {
                self.flow.close(token).expect("its own token");
                [0, 0]
            }
        };
        self.trace.put(&numbers);
    }

    fn offer(&mut self, packet: &[u8], stray: bool) {
        let token = if stray { &mut self.stray } else { &mut self.own };
        let numbers = match token.take() {
            None => NO_TOKEN,
            Some(given) => {
                let (given, answer) = self.flow.offer(given, packet);
                *token = Some(given);
                offer_numbers(answer)
            }
        };
        self.trace.put(&numbers);
    }

    fn close_stray(&mut self) {
        let stray = self.stray.take().expect("it is always given back");
        let back = self.flow.close(stray).expect_err("another flow's token");
        self.stray = Some(back);
        self.trace.put(&[4, 0]);
    }

    fn read(&mut self, buffer: &mut [u8]) -> bool {
        match self.flow.read(buffer) {
            Err(_) => {
                self.trace.put(&[8]);
                false
            }
            Ok(answer) => {
                self.trace.put_answer(answer, buffer);
                answer != Answer::Nothing
            }
        }
    }

    fn ask(&mut self) {
        let room = self.flow.channel().room() as u64;
        self.trace.put(&room.to_le_bytes());
        self.trace.put(&[self.flow.channel().waits() as u8]);
    }

    fn run(&mut self, mut script: &[u8], buffer: &mut [u8]) {
        while let Some((&call, rest)) = script.split_first() {
            let Some((n, rest)) = rest.split_first_chunk::<2>() else {
                self.ask();
                break;
            };
            let n = u16::from_le_bytes(*n) as usize;
            let (packet, behind) = rest.split_at(n.min(rest.len()));
            script = if matches!(call, 1 | 5) { behind } else { rest };
            match call {
                0 => self.open(n),
                1 => self.offer(packet, false),
                2 => self.close(),
                3 => {
                    let end = n.min(buffer.len());
                    self.read(&mut buffer[..end]);
                }
                4 => while self.read(buffer) {},
                5 => self.offer(packet, true),
                6 => self.close_stray(),
                _ => self.ask(),
            }
        }
        self.close();
        while self.read(buffer) {}
        self.ask();
    }
}

pub fn run_script(settings: Settings, pattern: &[u8], memory: &mut [u8], script: &[u8], buffer: &mut [u8], out: &mut [u8]) -> usize {
    fn run<K: Checksum, S: Service>(
        checksum: K,
        service: S,
        fasb: bool,
        channel: Fade<Ring>,
        script: &[u8],
        buffer: &mut [u8],
        out: &mut [u8],
    ) -> usize {
        let mut spare = [0; 246];
        let mut other = Flow::new(Ring::new(&mut spare), NoChecksum, Plain, 8, false);
        let stray = Some(other.open(1).expect("room for one frame and the mark"));
        let flow = Flow::new(channel, checksum, service, 7, fasb);
        let mut session = Session { flow, own: None, stray, trace: Trace { out, at: 0 } };
        session.run(script, buffer);
        session.trace.at
    }
    let mut holder = FadePattern::default();
    let _ = holder.prepare(pattern);
    let channel = Fade::new(Ring::new(memory), holder);
    match (settings.crc16, settings.sync) {
        (false, false) => run(NoChecksum, Plain, settings.fasb, channel, script, buffer, out),
        (false, true) => run(NoChecksum, Sync, settings.fasb, channel, script, buffer, out),
        (true, false) => run(Crc16, Plain, settings.fasb, channel, script, buffer, out),
        (true, true) => run(Crc16, Sync, settings.fasb, channel, script, buffer, out),
    }
}

#[inline(never)]
pub fn count_headers(packets: &[u8], len: usize) -> Totals {
    let mut totals = Totals::default();
    for packet in packets.chunks(len) {
        match SyncHeader::read(packet) {
            Ok((_, payload)) => {
                totals.packets += 1;
                totals.bytes += payload.len() as u64;
            }
            Err(_) => totals.others += 1,
        }
    }
    totals
}

fn send_all<K: Checksum>(checksum: K, packets: &[u8], len: usize, memory: &mut [u8]) -> Totals {
    let mut totals = Totals::default();
    let mut flow = Flow::new(Ring::new(memory), checksum, Plain, 7, false);
    let mut open: Option<SuperframeToken> = None;
    for packet in packets.chunks(len) {
        let mut answer = Err(OfferFault::NoRoom);
        if let Some(token) = open.take() {
            let token_back;
            (token_back, answer) = flow.offer(token, packet);
            open = Some(token_back);
        }
        if answer.is_err() {
            if let Some(token) = open.take() {
                flow.close(token).expect("its own token");
            }
            if let Ok(token) = flow.open(200) {
                let token_back;
                (token_back, answer) = flow.offer(token, packet);
                open = Some(token_back);
            }
        }
        if answer.is_ok() {
            totals.packets += 1;
            totals.bytes += packet.len() as u64;
        } else {
            totals.others += 1;
        }
    }
    if let Some(token) = open {
        flow.close(token).expect("its own token");
    }
    totals
}

#[inline(never)]
pub fn send_packets(packets: &[u8], len: usize, crc16: bool, memory: &mut [u8]) -> Totals {
    match crc16 {
        true => send_all(Crc16, packets, len, memory),
        false => send_all(NoChecksum, packets, len, memory),
    }
}
