//! Safe names for the functions of crates/boundary. Their contracts ask nothing of the caller, so that any slices will do.

#[repr(C)]
#[derive(Clone, Copy, Debug, PartialEq, Eq)]
pub struct Value {
    pub high: u8,
    pub low: u8,
}

#[repr(C)]
#[derive(Clone, Copy, Debug, PartialEq, Eq)]
pub struct Judged {
    pub question: u8,
    pub at: u8,
}

#[repr(C)]
#[derive(Clone, Copy, Debug, Default, PartialEq, Eq)]
pub struct Facts {
    pub kind: u8,
    pub has_frame_id: bool,
    pub frame_id: u8,
    pub has_timestamp: bool,
    pub timestamp: u32,
    pub access_point: bool,
    pub unreferenced: bool,
    pub payload_at: u8,
}

#[repr(C)]
#[derive(Clone, Copy, Debug, PartialEq, Eq)]
pub struct Written {
    pub len: usize,
    pub question: u8,
}

#[repr(C)]
#[derive(Clone, Copy, Debug, PartialEq, Eq)]
pub struct Checked {
    pub at: usize,
    pub question: u8,
}

#[repr(C)]
#[derive(Clone, Copy, Debug, Default, PartialEq, Eq)]
pub struct Totals {
    pub packets: u64,
    pub bytes: u64,
    pub others: u64,
}

#[repr(C)]
struct TimeSpec {
    seconds: i64,
    nanoseconds: i64,
}

const THREAD_CPU_TIME: i32 = 3;

mod c {
    use super::*;

    unsafe extern "C" {
        pub(crate) fn clock_gettime(clock: i32, time: *mut TimeSpec) -> i32;
        pub fn rothveam_crc16(bytes: *const u8, len: usize) -> Value;
        pub fn rothveam_judge(bytes: *const u8, len: usize, gathered: u16, width: u8) -> Judged;
        pub fn rothveam_read_header(packet: *const u8, len: usize, facts: *mut Facts) -> u8;
        pub fn rothveam_write_header(facts: *const Facts, payload: *const u8, payload_len: usize, out: *mut u8, out_len: usize) -> Written;
        pub fn rothveam_check_reel(reel: *const u8, len: usize) -> Checked;
        pub fn rothveam_trace_reel(
            reel: *const u8,
            len: usize,
            crc16: bool,
            sync: bool,
            fasb: bool,
            buffer: *mut u8,
            buffer_len: usize,
            trace: *mut u8,
            trace_len: usize,
        ) -> usize;
        pub fn rothveam_count_reel(
            reel: *const u8,
            len: usize,
            crc16: bool,
            sync: bool,
            buffer: *mut u8,
            buffer_len: usize,
            totals: *mut Totals,
        );
        pub fn rothveam_run_script(
            crc16: bool,
            sync: bool,
            fasb: bool,
            pattern: *const u8,
            pattern_len: usize,
            memory: *mut u8,
            memory_len: usize,
            script: *const u8,
            script_len: usize,
            buffer: *mut u8,
            buffer_len: usize,
            trace: *mut u8,
            trace_len: usize,
        ) -> usize;
        pub fn rothveam_count_headers(packets: *const u8, packets_len: usize, len: usize, totals: *mut Totals);
        pub fn rothveam_send_packets(
            packets: *const u8,
            packets_len: usize,
            len: usize,
            crc16: bool,
            memory: *mut u8,
            memory_len: usize,
            totals: *mut Totals,
        );
    }
}

pub fn crc16(bytes: &[u8]) -> Value {
    unsafe { c::rothveam_crc16(bytes.as_ptr(), bytes.len()) }
}

pub fn judge(bytes: &[u8], gathered: u16, width: u8) -> Judged {
    unsafe { c::rothveam_judge(bytes.as_ptr(), bytes.len(), gathered, width) }
}

pub fn read_header(packet: &[u8], facts: &mut Facts) -> u8 {
    unsafe { c::rothveam_read_header(packet.as_ptr(), packet.len(), facts) }
}

pub fn write_header(facts: &Facts, payload: &[u8], out: &mut [u8]) -> Written {
    unsafe { c::rothveam_write_header(facts, payload.as_ptr(), payload.len(), out.as_mut_ptr(), out.len()) }
}

pub fn check_reel(reel: &[u8]) -> Checked {
    unsafe { c::rothveam_check_reel(reel.as_ptr(), reel.len()) }
}

/// Which checksum and service packets have, and whether they may cross superframes.
#[derive(Clone, Copy, Debug)]
pub struct Settings {
    pub crc16: bool,
    pub sync: bool,
    pub fasb: bool,
}

pub fn trace_reel(reel: &[u8], settings: Settings, buffer: &mut [u8], trace: &mut [u8]) -> usize {
    unsafe {
        c::rothveam_trace_reel(
            reel.as_ptr(),
            reel.len(),
            settings.crc16,
            settings.sync,
            settings.fasb,
            buffer.as_mut_ptr(),
            buffer.len(),
            trace.as_mut_ptr(),
            trace.len(),
        )
    }
}

pub fn count_reel(reel: &[u8], crc16: bool, sync: bool, buffer: &mut [u8]) -> Totals {
    let mut totals = Totals::default();
    unsafe { c::rothveam_count_reel(reel.as_ptr(), reel.len(), crc16, sync, buffer.as_mut_ptr(), buffer.len(), &mut totals) };
    totals
}

/// A script of calls on a flow over a fade over a ring; crates/boundary/src/scripts.rt says what its bytes mean.
pub fn run_script(settings: Settings, pattern: &[u8], memory: &mut [u8], script: &[u8], buffer: &mut [u8], trace: &mut [u8]) -> usize {
    unsafe {
        c::rothveam_run_script(
            settings.crc16,
            settings.sync,
            settings.fasb,
            pattern.as_ptr(),
            pattern.len(),
            memory.as_mut_ptr(),
            memory.len(),
            script.as_ptr(),
            script.len(),
            buffer.as_mut_ptr(),
            buffer.len(),
            trace.as_mut_ptr(),
            trace.len(),
        )
    }
}

pub fn count_headers(packets: &[u8], len: usize) -> Totals {
    let mut totals = Totals::default();
    unsafe { c::rothveam_count_headers(packets.as_ptr(), packets.len(), len, &mut totals) };
    totals
}

pub fn send_packets(packets: &[u8], len: usize, crc16: bool, memory: &mut [u8]) -> Totals {
    let mut totals = Totals::default();
    unsafe { c::rothveam_send_packets(packets.as_ptr(), packets.len(), len, crc16, memory.as_mut_ptr(), memory.len(), &mut totals) };
    totals
}

/// The seconds of processor time that this thread has had. Other programs on the machine do not count in it.
pub fn cpu_seconds() -> f64 {
    let mut time = TimeSpec { seconds: 0, nanoseconds: 0 };
    unsafe { c::clock_gettime(THREAD_CPU_TIME, &mut time) };
    time.seconds as f64 + time.nanoseconds as f64 * 1e-9
}
