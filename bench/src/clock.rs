//! What lies between `start` and `stop` is measured: its time, its instructions or its stack.
use std::process::exit;
use std::ptr::{read_volatile, write_volatile};

unsafe extern "C" {
    fn clock_gettime(clock: i32, seconds_and_nanoseconds: *mut [i64; 2]) -> i32;
}
const CLOCK_THREAD_CPUTIME_ID: i32 = 3;

/// The time that the processor has worked for this thread: what other programs take of it does not count.
fn worked() -> f64 {
    let mut time = [0; 2];
    assert_eq!(unsafe { clock_gettime(CLOCK_THREAD_CPUTIME_ID, &mut time) }, 0);
    time[0] as f64 + time[1] as f64 * 1e-9
}

pub enum Measure {
    Time,
    /// For a count of instructions the program ends at the one place or at the other, and the two counts are subtracted.
    EndAtStart,
    EndAtStop,
    Stack,
}

pub struct Clock {
    measure: Measure,
    began: f64,
    pub seconds: f64,
    pub stack: usize,
}

impl Clock {
    pub fn new(measure: Measure) -> Self {
        Clock { measure, began: 0.0, seconds: 0.0, stack: 0 }
    }

    #[inline(never)]
    pub fn start(&mut self) {
        match self.measure {
            Measure::EndAtStart => exit(0),
            Measure::Stack => paint(),
            _ => self.began = worked(),
        }
    }

    #[inline(never)]
    pub fn stop(&mut self) {
        match self.measure {
            Measure::EndAtStop => exit(0),
            Measure::Stack => self.stack = painted_over(),
            _ => self.seconds = worked() - self.began,
        }
    }
}

const PAINT: u8 = 0xA5;
const DEEP: usize = 1 << 20;
/// Room for the frame of `paint` itself: less stack than this shows as this much.
const NEAR: usize = 128;

/// Colours the stack below this frame. Nothing is called while it does.
#[inline(never)]
fn paint() {
    let frame = [0u8; 1];
    let top = &raw const frame as usize;
    for below in NEAR..DEEP {
        unsafe { write_volatile((top - below) as *mut u8, PAINT) }
    }
}

/// How far down the colour has gone.
#[inline(never)]
fn painted_over() -> usize {
    let frame = [0u8; 1];
    let top = &raw const frame as usize;
    let clean = |below: &usize| unsafe { read_volatile((top - below) as *const u8) } == PAINT;
    (NEAR..DEEP - NEAR).rev().find(|below| !clean(below)).unwrap_or(NEAR)
}
