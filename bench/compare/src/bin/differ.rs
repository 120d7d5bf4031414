//! Gives the same inputs to the proved code and to the plain Rust, and stops at the first answer that differs.
//!
//!     differ [THOUSANDS]    how many thousand inputs of each kind; 1,000 where nothing is said

use compare::inputs::{Random, damage, made_up_reel, recorded_reel, script};
use compare::plain;
use proved::{Facts, Settings};
use std::fmt::Debug;
use std::time::Instant;

/// Counts what was compared, and what was seen among it.
#[derive(Default)]
struct Tally {
    compared: u64,
    seen: std::collections::BTreeMap<&'static str, u64>,
}

impl Tally {
    fn same<T: PartialEq + Debug>(&mut self, proved: T, plain: T, input: impl FnOnce() -> String) {
        if proved != plain {
            println!("DIFFERENT after {} comparisons\n  proved: {proved:?}\n  plain:  {plain:?}\n  input:  {}", self.compared, input());
            std::process::exit(1);
        }
        self.compared += 1;
    }

    fn saw(&mut self, what: &'static str, times: u64) {
        *self.seen.entry(what).or_default() += times;
    }

    fn report(self, what: &str, start: Instant) {
        println!("{what}: {} compared, 0 different ({:.1} s)", self.compared, start.elapsed().as_secs_f64());
        for (what, times) in self.seen {
            println!("    {times:>10}  {what}");
        }
    }
}

fn checksums(random: &mut Random, inputs: u64) {
    let (start, mut tally) = (Instant::now(), Tally::default());
    for i in 0..inputs {
        let len = if i < 3000 { i as usize } else { random.below(300) };
        let bytes = random.bytes(len);
        tally.same(proved::crc16(&bytes), plain::crc16(&bytes), || format!("{bytes:02x?}"));
        tally.saw("bytes", len as u64);
    }
    tally.report("CRC-16 of random bytes", start);
}

fn frames(random: &mut Random, inputs: u64) {
    let (start, mut tally) = (Instant::now(), Tally::default());
    for _ in 0..inputs {
        let mut frame = random.frame().to_vec();
        if random.one_in(10) {
            damage(random, &mut frame);
        }
        let gathered = match random.below(3) {
            0 => 0,
            1 => 1900 + random.below(150) as u16,
            _ => random.below(2048) as u16,
        };
        let width = random.below(5) as u8;
        let judged = proved::judge(&frame, gathered, width);
        tally.same(judged, plain::judge(&frame, gathered, width), || format!("{frame:02x?} {gathered} {width}"));
        tally.saw(question(judged.question), 1);
    }
    tally.report("frames judged", start);
}

/// A name for each question, for the counts.
fn question(number: u8) -> &'static str {
    const NAMES: [&str; 37] = [
        "lawful", "1", "2", "3", "4", "5", "6", "7", "8", "9", "question 10", "question 11", "question 12", "question 13", "question 14",
        "question 15", "question 16", "question 17", "question 18", "question 19", "20", "question 21", "question 22", "question 23", "24",
        "25", "26", "27", "28", "29", "question 30", "question 31", "question 32", "question 33", "question 34", "question 35", "question 36",
    ];
    NAMES[number as usize]
}

fn read_one(tally: &mut Tally, packet: &[u8]) {
    let (mut a, mut b) = (Facts { kind: 77, ..Facts::default() }, Facts { kind: 77, ..Facts::default() });
    let numbers = (proved::read_header(packet, &mut a), plain::read_header(packet, &mut b));
    tally.same((numbers.0, a), (numbers.1, b), || format!("{packet:02x?}"));
    tally.saw(question(numbers.0), 1);
}

fn headers_read(random: &mut Random, inputs: u64) {
    let (start, mut tally) = (Instant::now(), Tally::default());
    for first in 0..=255 {
        for second in 0..=255 {
            let packet = [first, second, 1, 2, 3, 4, 5, 6, 7, 8];
            for len in 0..=packet.len() {
                read_one(&mut tally, &packet[..len]);
            }
        }
    }
    for _ in 0..inputs {
        let len = random.below(40);
        let mut packet = if random.one_in(4) { random.bytes(len) } else { random.sync_packet(len) };
        if random.one_in(2) {
            damage(random, &mut packet);
        }
        read_one(&mut tally, &packet);
    }
    tally.report("sync headers read, all of two bytes at lengths 0 to 10 among them", start);
}

fn headers_written(random: &mut Random, inputs: u64) {
    let (start, mut tally) = (Instant::now(), Tally::default());
    for i in 0..inputs {
        let facts = Facts {
            kind: i as u8 & 3,
            has_frame_id: i & 4 != 0,
            frame_id: if random.one_in(2) { random.byte() } else { 56 + random.below(8) as u8 },
            has_timestamp: i & 8 != 0,
            timestamp: random.next() as u32,
            access_point: i & 16 != 0 && random.one_in(2),
            unreferenced: i & 32 != 0 && random.one_in(2),
            payload_at: 0,
        };
        let len = random.below(12);
        let payload = random.bytes(len);
        let len = random.below(24);
        let (mut a, mut b) = (vec![0xee; len], vec![0xee; len]);
        let written = proved::write_header(&facts, &payload, &mut a);
        let expected = plain::write_header(&facts, &payload, &mut b);
        tally.same((written, a), (expected, b), || format!("{facts:?} {payload:02x?} {len}"));
        tally.saw(question(written.question), 1);
    }
    tally.report("sync headers written", start);
}

const ANSWERS: [&str; 9] = ["", "sound", "damaged", "foreign", "short", "lost", "torn", "mark", "nothing"];

/// Counts the answers in a trace.
fn saw_answers(tally: &mut Tally, mut trace: &[u8]) {
    while let [answer, _, _, _, _, low, high, rest @ ..] = trace {
        tally.saw(ANSWERS[*answer as usize], 1);
        let len = u16::from_le_bytes([*low, *high]) as usize;
        trace = if *answer <= 3 { &rest[len..] } else { rest };
    }
}

fn reels(random: &mut Random, inputs: u64) {
    let (start, mut tally) = (Instant::now(), Tally::default());
    let (mut a, mut b) = (vec![0; 1 << 18], vec![0; 1 << 18]);
    for _ in 0..inputs {
        let settings = Settings { crc16: random.one_in(2), sync: random.one_in(2), fasb: random.one_in(2) };
        let as_sync = settings.sync || random.one_in(2);
        let mut reel = match random.below(20) {
            0 => {
                let len = random.below(300);
                random.bytes(len)
            }
            1..8 => made_up_reel(random),
            _ => recorded_reel(random, settings.crc16, as_sync, settings.fasb),
        };
        if !random.one_in(4) {
            damage(random, &mut reel);
        }
        let buffer_len = if random.one_in(100) { 2043 } else { 2044 + random.below(3) };
        let (mut buffer_a, mut buffer_b) = (vec![0xee; buffer_len], vec![0xee; buffer_len]);
        let len = proved::trace_reel(&reel, settings, &mut buffer_a, &mut a);
        let expected = plain::trace_reel(&reel, settings, &mut buffer_b, &mut b);
        assert!(len + 4096 < a.len(), "the trace is full");
        tally.same(&a[..len], &b[..expected], || format!("{settings:?} {reel:02x?}"));
        tally.same(&buffer_a, &buffer_b, || format!("buffer of {settings:?} {reel:02x?}"));
        let checked = proved::check_reel(&reel);
        tally.same(checked, plain::check_reel(&reel), || format!("check of {reel:02x?}"));
        tally.saw("reels", 1);
        tally.saw("bytes of reels", reel.len() as u64);
        tally.saw(question(checked.question), 1);
        saw_answers(&mut tally, &a[..len]);
    }
    tally.report("reels checked and read to the end, answers with packets and the buffer", start);
}

fn scripts(random: &mut Random, inputs: u64) {
    let (start, mut tally) = (Instant::now(), Tally::default());
    let (mut a, mut b) = (vec![0; 1 << 18], vec![0; 1 << 18]);
    for _ in 0..inputs {
        let settings = Settings { crc16: random.one_in(2), sync: random.one_in(4), fasb: random.one_in(2) };
        let script = script(random, settings.sync);
        let len = if random.one_in(20) { *random.pick(&[0, 63, 64, 65]) } else { 1 + random.below(9) };
        let pattern: Vec<u8> = (0..len).map(|_| if random.one_in(2) { 0xff } else { random.byte() | random.byte() }).collect();
        let memory_len = if random.one_in(4) { random.below(123 * 12) } else { 123 * 60 + random.below(123 * 200) };
        let (mut memory_a, mut memory_b) = (vec![0xdd; memory_len], vec![0xcc; memory_len]);
        let buffer_len = 2044 + random.below(3);
        let (mut buffer_a, mut buffer_b) = (vec![0xee; buffer_len], vec![0xee; buffer_len]);
        let len = proved::run_script(settings, &pattern, &mut memory_a, &script, &mut buffer_a, &mut a);
        let expected = plain::run_script(settings, &pattern, &mut memory_b, &script, &mut buffer_b, &mut b);
        assert!(len + 4096 < a.len(), "the trace is full");
        let input = || format!("{settings:?} pattern {pattern:02x?} memory {memory_len} buffer {buffer_len} script {script:02x?}");
        tally.same(&a[..len], &b[..expected], input);
        tally.same(&buffer_a, &buffer_b, input);
        tally.saw("scripts", 1);
        tally.saw("bytes of scripts", script.len() as u64);
        tally.saw("bytes of answers", len as u64);
        saw_steps(&mut tally, &script, &a[..len]);
    }
    tally.report("scripts of calls on a flow over a fade over a ring, answers with packets and the buffer", start);
}

const CALLS: [&str; 8] =
    ["openings", "offers", "closings", "readings", "readings to the end", "offers with another's token", "closings with another's token", "room and waiting"];
const ACCEPTED: [&str; 2] = ["openings accepted", "offers accepted"];
const REFUSED: [&str; 9] = ["", "refused 1", "refused 2", "refused 3", "refused 4", "refused 5", "refused 6", "refused 7", "refused 8"];

/// Counts the calls of a script and what their trace says.
fn saw_steps(tally: &mut Tally, mut script: &[u8], mut trace: &[u8]) {
    while let [call, low, high, rest @ ..] = script {
        tally.saw(CALLS[(*call).min(7) as usize], 1);
        let n = u16::from_le_bytes([*low, *high]) as usize;
        script = if matches!(call, 1 | 5) { &rest[n.min(rest.len())..] } else { rest };
        match call {
            3 | 4 => loop {
                let answer = trace[0];
                if answer == 8 && (trace.len() == 1 || *call == 3 && n < 2044) {
                    tally.saw(REFUSED[8], 1);
                    trace = &trace[1..];
                    break;
                }
                tally.saw(ANSWERS[answer as usize], 1);
                let len = u16::from_le_bytes([trace[5], trace[6]]) as usize;
                trace = &trace[7 + if answer <= 3 { len } else { 0 }..];
                if *call == 3 || answer == 8 {
                    break;
                }
            },
            0..=2 | 5 | 6 => {
                match (trace[0], call) {
                    (255, _) => tally.saw("no token in hand", 1),
                    (0, 0 | 1) => tally.saw(ACCEPTED[*call as usize], 1),
                    (0, _) => {}
                    (number, _) => tally.saw(REFUSED[number as usize], 1),
                }
                trace = &trace[2..];
            }
            _ => trace = &trace[9..],
        }
    }
}

fn main() {
    let thousands: u64 = std::env::args().nth(1).map_or(1000, |word| word.parse().expect("a number of thousands"));
    let inputs = thousands * 1000;
    let start = Instant::now();
    checksums(&mut Random(1), inputs);
    frames(&mut Random(2), inputs);
    headers_read(&mut Random(3), inputs);
    headers_written(&mut Random(4), inputs);
    reels(&mut Random(5), inputs);
    scripts(&mut Random(6), inputs);
    println!("no difference in {:.0} s", start.elapsed().as_secs_f64());
}
