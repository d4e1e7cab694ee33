//! The time of both sides: by the thread's own processor time, in turns, and the least of all turns.

use std::hint::black_box;

#[repr(C)]
struct Timespec {
    seconds: i64,
    nanoseconds: i64,
}

const THREAD_CPUTIME: i32 = 3;

extern "C" {
    fn clock_gettime(clock: i32, time: *mut Timespec) -> i32;
}

/// The processor time of this thread, in nanoseconds.
fn now() -> u64 {
    let mut time = Timespec { seconds: 0, nanoseconds: 0 };
    // SAFETY: the pointer is to a place of the right form, which the call fills.
    unsafe { clock_gettime(THREAD_CPUTIME, &mut time) };
    time.seconds as u64 * 1_000_000_000 + time.nanoseconds as u64
}

/// The least time of each kind of call, richter's and ours.
pub struct Times {
    names: [&'static str; 3],
    calls: u64,
    least: [[u64; 2]; 3],
}

impl Times {
    pub fn new(names: [&'static str; 3], calls: u64) -> Times {
        Times { names, calls, least: [[u64::MAX; 2]; 3] }
    }

    fn take(&mut self, kind: usize, side: usize, work: impl FnOnce() -> usize) {
        let start = now();
        black_box(work());
        let least = &mut self.least[kind][side];
        *least = (*least).min(now() - start);
    }

    pub fn theirs(&mut self, kind: usize, work: impl FnOnce() -> usize) {
        self.take(kind, 0, work);
    }

    pub fn ours(&mut self, kind: usize, work: impl FnOnce() -> usize) {
        self.take(kind, 1, work);
    }

    pub fn print(&self) {
        for (name, [theirs, ours]) in self.names.iter().zip(self.least) {
            let each = |time: u64| time as f64 / self.calls as f64;
            println!(
                "    {name}: richter {:.0} ns, bsp29 {:.0} ns, ratio {:.2}",
                each(theirs),
                each(ours),
                ours as f64 / theirs as f64
            );
        }
    }
}
