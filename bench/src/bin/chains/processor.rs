//! Processor time, which other processes do not lengthen.

#[repr(C)]
#[derive(Default)]
struct Usage {
    user: [i64; 2],
    system: [i64; 2],
    others: [i64; 14],
}

unsafe extern "C" {
    fn getrusage(who: i32, usage: *mut Usage) -> i32;
}

/// Seconds of all child processes that have ended.
pub fn seconds_of_children() -> f64 {
    let mut usage = Usage::default();
    // SAFETY: the struct is that of 64-bit Linux; -1 is RUSAGE_CHILDREN.
    assert_eq!(unsafe { getrusage(-1, &mut usage) }, 0);
    [usage.user, usage.system].map(|[seconds, micros]| seconds as f64 + micros as f64 / 1e6).iter().sum()
}
