//! The times of records.
use std::time::{Duration, SystemTime};

/// The time of so many seconds and nanoseconds since 1970.
pub(crate) fn system_time(seconds: i64, nanos: u32) -> SystemTime {
    // A time before 1970 is reached in two steps: the earliest is 2^63 seconds away, which Rust 1.63 takes for too many.
    let half = seconds.unsigned_abs() / 2;
    let (half, rest) = (Duration::from_secs(half), Duration::from_secs(seconds.unsigned_abs() - half));
    let start = if seconds < 0 { SystemTime::UNIX_EPOCH - half - rest } else { SystemTime::UNIX_EPOCH + half + rest };
    start + Duration::new(0, nanos)
}
