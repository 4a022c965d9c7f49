//! The proved library, as `include/tigwedan.h` declares it.

#[repr(C)]
#[derive(Clone, Copy, Debug, Default, PartialEq, Eq)]
pub struct Report {
    pub rate: u32,
    pub ended: u32,
    pub fault: u32,
    pub input: u32,
    pub items: u64,
    pub item: u64,
    pub place: u64,
}

#[repr(C)]
#[derive(Clone, Copy, Debug, Default, PartialEq, Eq)]
pub struct Sample {
    pub re: i16,
    pub im: i16,
}

pub const SIGNAL: u32 = 0;
pub const GAINS: u32 = 1;
pub const SETTINGS: u32 = 256;
pub const CALLS: u32 = 257;

pub const UNKNOWN_KIND: u32 = 64;
pub const WRONG_LINE: u32 = 65;
pub const ROOM: u32 = 67;

/// What a call answers: its status, and the report behind it.
#[derive(Clone, Copy, Debug, PartialEq, Eq)]
pub struct Answer {
    pub status: u32,
    pub report: Report,
}

impl Answer {
    pub fn done(report: Report) -> Self {
        Self { status: 0, report }
    }

    pub fn refused(status: u32, input: u32, place: u64) -> Self {
        Self { status, report: Report { input, place, ..Report::default() } }
    }
}

/// What two recordings, the settings and, for a replay, the calls are.
pub struct Run {
    pub signal: Vec<u8>,
    pub gain: Vec<u8>,
    pub settings: String,
    pub calls: String,
}

#[link(name = "capi", kind = "static")]
#[link(name = "libc_c", kind = "static")]
unsafe extern "C" {
    fn tigwedan_open(kind: u32, bytes: *const u8, length: usize, report: *mut Report) -> u32;

    fn tigwedan_play(
        signal: *const u8,
        signal_length: usize,
        gain: *const u8,
        gain_length: usize,
        settings: *const u8,
        settings_length: usize,
        out: *mut Sample,
        out_length: usize,
        report: *mut Report,
    ) -> u32;

    fn tigwedan_replay(
        signal: *const u8,
        signal_length: usize,
        gain: *const u8,
        gain_length: usize,
        settings: *const u8,
        settings_length: usize,
        calls: *const u8,
        calls_length: usize,
        out: *mut u8,
        out_length: usize,
        report: *mut Report,
    ) -> u32;
}

/// A report before a call: no field of it may be left.
const BEFORE: Report = Report { rate: 91, ended: 92, fault: 93, input: 94, items: 95, item: 96, place: 97 };

pub fn open(kind: u32, bytes: &[u8]) -> Answer {
    let mut report = BEFORE;
    // The slice is valid for its length, and the report is no part of it.
    let status = unsafe { tigwedan_open(kind, bytes.as_ptr(), bytes.len(), &mut report) };
    Answer { status, report }
}

pub fn play(run: &Run, out: &mut [Sample]) -> Answer {
    let mut report = BEFORE;
    // Each slice is valid for its length, and none of them overlaps what is written.
    let status = unsafe {
        tigwedan_play(
            run.signal.as_ptr(),
            run.signal.len(),
            run.gain.as_ptr(),
            run.gain.len(),
            run.settings.as_ptr(),
            run.settings.len(),
            out.as_mut_ptr(),
            out.len(),
            &mut report,
        )
    };
    Answer { status, report }
}

pub fn replay(run: &Run, out: &mut [u8]) -> Answer {
    let mut report = BEFORE;
    // As for `play`.
    let status = unsafe {
        tigwedan_replay(
            run.signal.as_ptr(),
            run.signal.len(),
            run.gain.as_ptr(),
            run.gain.len(),
            run.settings.as_ptr(),
            run.settings.len(),
            run.calls.as_ptr(),
            run.calls.len(),
            out.as_mut_ptr(),
            out.len(),
            &mut report,
        )
    };
    Answer { status, report }
}
