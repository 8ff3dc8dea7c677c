// SPDX-License-Identifier: BSD-2-Clause OR GPL-2.0-or-later
//! Best of several repetitions, for the benchmarks.

use std::arch::asm;
use std::time::Instant;

/// A value that the compiler knows nothing of, as the standard library's
/// black_box gives it, which Debian's compiler does not have yet.
#[inline]
pub fn black_box<T>(mut value: T) -> T {
    let place: *mut T = &mut value;
    // SAFETY: there is no instruction. The compiler has to suppose that there is
    // one that reads and writes the value.
    unsafe { asm!("/* {0} */", in(reg) place, options(nostack, preserves_flags)) };
    value
}

/// Nanoseconds of one call of each job: the best of `rounds` repetitions, in
/// which the jobs take turns.
pub fn best_in_turns(rounds: usize, calls: usize, jobs: &mut [&mut dyn FnMut()]) -> Vec<f64> {
    let mut best = vec![f64::INFINITY; jobs.len()];
    for _ in 0..rounds {
        for (job, best) in jobs.iter_mut().zip(&mut best) {
            *best = best.min(best_ns(1, calls, &mut **job));
        }
    }
    best
}

/// Nanoseconds of one call: the best of `rounds` repetitions of `calls` calls.
pub fn best_ns(rounds: usize, calls: usize, mut job: impl FnMut()) -> f64 {
    let mut best = f64::INFINITY;
    for _ in 0..rounds {
        let start = Instant::now();
        for _ in 0..calls {
            job();
        }
        best = best.min(start.elapsed().as_nanos() as f64 / calls as f64);
    }
    best
}
