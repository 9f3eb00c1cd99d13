//! CPU time, since a machine may have other things to do.

use std::time::Duration;
#[cfg(not(all(target_os = "linux", target_pointer_width = "64")))]
use std::time::Instant;

#[cfg(all(target_os = "linux", target_pointer_width = "64"))]
unsafe extern "C" {
    fn clock_gettime(clock: i32, time: *mut [i64; 2]) -> i32;
}

/// What this process has taken of the CPU.
#[cfg(all(target_os = "linux", target_pointer_width = "64"))]
fn cpu() -> Duration {
    const CLOCK_PROCESS_CPUTIME_ID: i32 = 2;
    let mut time = [0; 2];
    // SAFETY: a timespec is two numbers of 64 bits here, and it is writable for the call.
    let refused = unsafe { clock_gettime(CLOCK_PROCESS_CPUTIME_ID, &mut time) };
    assert_eq!(refused, 0, "the process has a CPU clock");
    Duration::new(time[0] as u64, time[1] as u32)
}

/// Elsewhere the time since the first call.
#[cfg(not(all(target_os = "linux", target_pointer_width = "64")))]
fn cpu() -> Duration {
    static BEGIN: std::sync::LazyLock<Instant> = std::sync::LazyLock::new(Instant::now);
    BEGIN.elapsed()
}

/// The seconds that it takes.
pub fn clocked(run: impl FnOnce()) -> f64 {
    let begin = cpu();
    run();
    (cpu() - begin).as_secs_f64()
}

/// A batch takes this long, so that reading the clock does not count.
const BATCH: f64 = 2e-3;
/// At least this long is something timed, and at least three times.
const LEAST: f64 = 0.3;

/// The shortest time of several runs, in microseconds: the least disturbed one.
pub fn time(run: &mut dyn FnMut()) -> f64 {
    let mut best = clocked(&mut *run);
    let batch = (BATCH / best.max(1e-7)).clamp(1.0, 1e4) as u32;
    let (mut rounds, mut spent) = (1, best);
    while rounds < 3 || spent < LEAST {
        let taken = clocked(|| (0..batch).for_each(|_| run()));
        best = best.min(taken / f64::from(batch));
        spent += taken;
        rounds += 1;
    }
    best * 1e6
}
