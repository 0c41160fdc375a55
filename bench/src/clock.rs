use std::{hint::black_box, time::Duration};

/// How often something is timed at least, and for how long. The least time counts.
const MIN_TIMES: usize = 3;
const MIN_TIME: Duration = Duration::from_millis(300);

/// The least of the times that something takes, in seconds.
pub fn least_time(mut run: impl FnMut()) -> f64 {
    let start = thread_time();
    let mut times = vec![];

    while times.len() < MIN_TIMES || thread_time() - start < MIN_TIME {
        let start = thread_time();

        run();
        times.push(thread_time() - start);
    }

    times.into_iter().min().unwrap_or_default().as_secs_f64()
}

/// How many calls are timed together, so that reading the clock does not count.
const CALLS: u32 = 100;

/// Microseconds of a call on a copy of a plan.
pub fn call_time<T>(plan: &[u32], mut call: impl FnMut(&mut [u32]) -> T) -> f64 {
    let mut copy = plan.to_vec();
    let seconds = least_time(|| {
        for _ in 0..CALLS {
            copy.copy_from_slice(plan);
            black_box(call(black_box(&mut copy)));
        }
    });

    seconds * 1e6 / CALLS as f64
}

/// The processor's time that this thread has had, which other programs do not add to.
fn thread_time() -> Duration {
    let mut time = Time {
        seconds: 0,
        nanoseconds: 0,
    };

    assert_eq!(unsafe { clock_gettime(THREAD_CLOCK, &mut time) }, 0);

    Duration::new(time.seconds as u64, time.nanoseconds as u32)
}

const THREAD_CLOCK: i32 = 3;

#[repr(C)]
struct Time {
    seconds: i64,
    nanoseconds: i64,
}

extern "C" {
    fn clock_gettime(clock: i32, time: *mut Time) -> i32;
}
