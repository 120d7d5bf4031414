//! Times the proved code, the plain Rust and memcpy on the same bytes, side by side, and prints a table.
//!
//!     speed [MEGABYTES..] [WORD..]    the sizes, 1 10 100 where none is said; a word picks the rows that have it in their name

use compare::inputs::{Random, put_block};
use compare::plain;
use flo::{Channel, Checksum, Crc16, FRAME_LEN, Flow, NoChecksum, Plain, Ring, Slot};
use std::hint::black_box;

const MEGABYTE: usize = 1_000_000;

/// One thing that is measured: the same work by the proved code and by the plain Rust, on so many bytes.
struct Row<'a> {
    name: &'static str,
    bytes: usize,
    proved: Box<dyn FnMut() + 'a>,
    plain: Box<dyn FnMut() + 'a>,
}

fn seconds(work: &mut dyn FnMut()) -> f64 {
    let start = proved::cpu_seconds();
    work();
    proved::cpu_seconds() - start
}

fn median(times: &mut [f64]) -> f64 {
    times.sort_by(f64::total_cmp);
    times[times.len() / 2]
}

/// Runs the three in turn, several times, and prints the medians.
fn measure(words: &[String], mut row: Row, from: &[u8], to: &mut [u8]) {
    if !words.iter().all(|word| row.name.contains(word)) {
        return;
    }
    let bytes = row.bytes;
    let turns = (400 * MEGABYTE / bytes).clamp(7, 101);
    let mut times = [const { Vec::new() }; 3];
    let mut copy = || black_box(&mut to[..bytes]).copy_from_slice(black_box(&from[..bytes]));
    for _ in 0..turns {
        times[0].push(seconds(&mut *row.proved));
        times[1].push(seconds(&mut *row.plain));
        times[2].push(seconds(&mut copy));
    }
    let [proved, plain, copy] = times.each_mut().map(|times| median(times));
    let rate = |time: f64| bytes as f64 / time / 1e6;
    println!(
        "| {:<35} | {:>3} MB | {:>6.0} | {:>6.0} | {:>6.0} | {:>7.2} | {:>9.1} |",
        row.name,
        bytes / MEGABYTE,
        rate(proved),
        rate(plain),
        rate(copy),
        plain / proved,
        proved / copy,
    );
}

/// A recording of about so many bytes: superframes of 200 frames, packets of 1 to 600 bytes, and one frame in 200 lost.
fn recording<K: Checksum>(checksum: K, sync: bool, size: usize) -> Vec<u8> {
    let mut random = Random(42);
    let mut memory = vec![0; 123 * 201];
    let mut flow = Flow::new(Ring::new(&mut memory), checksum, Plain, 1, false);
    let mut reel = vec![];
    while reel.len() < size {
        let mut token = flow.open(200).expect("an empty ring");
        loop {
            let len = 1 + random.below(600);
            let packet = if sync { random.sync_packet(len) } else { random.bytes(len) };
            let answer;
            (token, answer) = flow.offer(token, &packet);
            if answer.is_err() {
                break;
            }
        }
        flow.close(token).expect("its own token");
        let mut frames = vec![];
        let mut frame = [0; FRAME_LEN];
        while let Some(Slot::Frame) = flow.channel_mut().take(&mut frame) {
            frames.push((!random.one_in(200)).then_some(frame));
        }
        put_block(&mut reel, &frames);
    }
    reel
}

fn reading<'a>(name: &'static str, reel: &'a [u8], crc16: bool, sync: bool) -> Row<'a> {
    let (mut a, mut b) = (vec![0; 2044], vec![0; 2044]);
    assert_eq!(proved::count_reel(reel, crc16, sync, &mut a), plain::count_reel(reel, crc16, sync, &mut b));
    Row {
        name,
        bytes: reel.len(),
        proved: Box::new(move || {
            black_box(proved::count_reel(black_box(reel), crc16, sync, &mut a));
        }),
        plain: Box::new(move || {
            black_box(plain::count_reel(black_box(reel), crc16, sync, &mut b));
        }),
    }
}

/// Sync headers of packets of 16 bytes, one behind the other.
fn headers(size: usize) -> Row<'static> {
    let mut random = Random(44);
    let mut packets = vec![];
    while packets.len() + 16 <= size {
        let mut packet = random.sync_packet(22);
        packet.truncate(16);
        packets.extend(packet);
    }
    assert_eq!(proved::count_headers(&packets, 16), plain::count_headers(&packets, 16));
    let again = packets.clone();
    Row {
        name: "reading sync headers, 16 bytes each",
        bytes: packets.len(),
        proved: Box::new(move || {
            black_box(proved::count_headers(black_box(&packets), 16));
        }),
        plain: Box::new(move || {
            black_box(plain::count_headers(black_box(&again), 16));
        }),
    }
}

/// Packets of 300 bytes, into superframes of 200 frames on a ring.
fn writing<'a>(name: &'static str, packets: &'a [u8], crc16: bool, a: &'a mut [u8], b: &'a mut [u8]) -> Row<'a> {
    let totals = proved::send_packets(packets, 300, crc16, a);
    assert_eq!(totals, plain::send_packets(packets, 300, crc16, b));
    assert_eq!(totals.others, 0, "the ring takes them all");
    Row {
        name,
        bytes: packets.len(),
        proved: Box::new(move || {
            black_box(proved::send_packets(black_box(packets), 300, crc16, a));
        }),
        plain: Box::new(move || {
            black_box(plain::send_packets(black_box(packets), 300, crc16, b));
        }),
    }
}

fn main() {
    let mut sizes: Vec<usize> = vec![];
    let mut words = vec![];
    for word in std::env::args().skip(1) {
        match word.parse() {
            Ok(size) => sizes.push(size),
            Err(_) => words.push(word),
        }
    }
    if sizes.is_empty() {
        sizes = vec![1, 10, 100];
    }
    println!("In MB/s, medians of the processor time of several turns, the three in turn. Proved: rt lib, which is LLVM at opt-level 2 for");
    println!("plain x86-64. Rust: cargo build --release, opt-level 3, fat LTO, for plain x86-64. memcpy: glibc's, on as many bytes.");
    println!("`vs Rust` is how many times as fast the proved code is; `vs memcpy` how many times as long it takes. No buffer is cleared between.");
    println!();
    println!("| work                                | size   | proved | Rust   | memcpy | vs Rust | vs memcpy |");
    println!("|-------------------------------------|--------|--------|--------|--------|---------|-----------|");
    for size in sizes {
        let size = size * MEGABYTE;
        let mut to = vec![1; 2 * size];
        let reel = recording(NoChecksum, false, size);
        measure(&words, reading("reading a reel, no checksum", &reel, false, false), &reel, &mut to);
        let reel = recording(Crc16, false, size);
        measure(&words, reading("reading a reel, CRC-16", &reel, true, false), &reel, &mut to);
        let reel = recording(NoChecksum, true, size);
        measure(&words, reading("reading a reel, sync", &reel, false, true), &reel, &mut to);
        let bytes = Random(43).bytes(size);
        let row = Row {
            name: "CRC-16 alone",
            bytes: size,
            proved: Box::new(|| {
                black_box(proved::crc16(black_box(&bytes)));
            }),
            plain: Box::new(|| {
                black_box(plain::crc16(black_box(&bytes)));
            }),
        };
        measure(&words, row, &bytes, &mut to);
        measure(&words, headers(size), &bytes, &mut to);
        let (mut a, mut b) = (vec![1; 2 * size + 123 * 500], vec![1; 2 * size + 123 * 500]);
        measure(&words, writing("writing, no checksum", &bytes, false, &mut a, &mut b), &bytes, &mut to);
        measure(&words, writing("writing, CRC-16", &bytes, true, &mut a, &mut b), &bytes, &mut to);
    }
}
