//! Timing.

/// The least time of each contender. They take turns for so many rounds, so that what
/// else the machine does meets all of them; a turn is so many calls in a row.
pub fn race<const N: usize>(
    rounds: usize,
    calls: u32,
    mut contenders: [&mut dyn FnMut(); N],
) -> [Micros; N] {
    let mut least = [u64::MAX; N];
    for _ in 0..rounds {
        for (contender, least) in contenders.iter_mut().zip(&mut least) {
            let start = clock::thread_nanos();
            for _ in 0..calls {
                contender();
            }
            *least = (clock::thread_nanos() - start).min(*least);
        }
    }
    least.map(|turn| Micros(turn as f64 / 1e3 / f64::from(calls)))
}

/// A time in microseconds.
#[derive(Clone, Copy, PartialEq, PartialOrd)]
pub struct Micros(pub f64);

impl Micros {
    /// The time in milliseconds.
    pub fn millis(self) -> f64 {
        self.0 / 1e3
    }

    /// How many times as long this is as another time.
    pub fn over(self, other: Self) -> f64 {
        self.0 / other.0
    }
}

/// The processor's time of this thread, which leaves out what others take of it. The
/// standard library has only the wall's.
#[allow(unsafe_code)]
mod clock {
    /// The system's `struct timespec`.
    #[repr(C)]
    struct Timespec {
        seconds: i64,
        nanos: i64,
    }

    /// The system's number of this clock.
    const CLOCK_THREAD_CPUTIME_ID: i32 = 3;

    extern "C" {
        fn clock_gettime(clock: i32, time: *mut Timespec) -> i32;
    }

    /// Nanoseconds that this thread has run.
    pub fn thread_nanos() -> u64 {
        let mut time = Timespec {
            seconds: 0,
            nanos: 0,
        };
        // SAFETY: the pointer is to a struct that lives through the call.
        let failed = unsafe { clock_gettime(CLOCK_THREAD_CPUTIME_ID, &mut time) };
        assert_eq!(failed, 0, "the system has this clock");
        1_000_000_000 * time.seconds as u64 + time.nanos as u64
    }
}
