//! The processor time of ended child processes, as the system counts it.

use std::ffi::{c_int, c_long};
use std::io;
use std::time::Duration;

/// The C `struct timeval` of 64-bit Linux.
#[repr(C)]
#[derive(Clone, Copy, Default)]
struct Timeval {
    seconds: c_long,
    microseconds: c_long,
}

impl Timeval {
    fn duration(self) -> Duration {
        Duration::from_secs(self.seconds as u64) + Duration::from_micros(self.microseconds as u64)
    }
}

/// The C `struct rusage` of 64-bit Linux.
#[repr(C)]
#[derive(Default)]
struct Rusage {
    user: Timeval,
    system: Timeval,
    other: [c_long; 14],
}

const RUSAGE_CHILDREN: c_int = -1;

extern "C" {
    fn getrusage(who: c_int, usage: *mut Rusage) -> c_int;
}

/// User and system time of all children that have been waited for.
pub fn of_children() -> io::Result<Duration> {
    let mut usage = Rusage::default();
    // SAFETY: `usage` has the layout that the system fills in, and lives
    // through the call.
    let status = unsafe { getrusage(RUSAGE_CHILDREN, &mut usage) };
    if status != 0 {
        return Err(io::Error::last_os_error());
    }
    Ok(usage.user.duration() + usage.system.duration())
}
