//! Times several sides of one case in turn.
use std::hint::black_box;
use std::time::Duration;

/// One side of a case: makes so many rounds of its calls.
pub type Side<'a> = Box<dyn FnMut(u64) + 'a>;

pub struct Clock {
    pub batches: usize,
    pub each: Duration,
    /// Cases whose name does not have this in it are passed over.
    pub wanted: String,
}

/// A round calls once for each input, so that a branch does not always go the same way.
pub fn rounds<'a, I, T>(inputs: &'a [I], mut call: impl FnMut(&'a I) -> T + 'a) -> Side<'a> {
    Box::new(move |count| {
        for _ in 0..count {
            for input in inputs {
                black_box(call(black_box(input)));
            }
        }
    })
}

impl Clock {
    /// The least mean of a batch for each side, in nanoseconds a round. Batches of the sides
    /// alternate, so that other work on the machine falls on all of them.
    pub fn least(&self, sides: &mut [Side]) -> Vec<f64> {
        let counts: Vec<u64> = sides.iter_mut().map(|side| self.count(side)).collect();
        let mut least = vec![f64::INFINITY; sides.len()];
        for _ in 0..self.batches {
            for (place, side) in sides.iter_mut().enumerate() {
                let took = timed(side, counts[place]).as_secs_f64() * 1e9;
                least[place] = least[place].min(took / counts[place] as f64);
            }
        }
        least
    }

    /// How many rounds fill a batch.
    fn count(&self, side: &mut Side) -> u64 {
        let mut count = 1;
        loop {
            let took = timed(side, count);
            if took >= self.each {
                return count;
            }
            count = if took * 8 >= self.each {
                let fill = self.each.as_secs_f64() / took.as_secs_f64();
                (count as f64 * fill * 1.05) as u64 + 1
            } else {
                count * 4
            };
        }
    }
}

fn timed(side: &mut Side, count: u64) -> Duration {
    let start = thread_time();
    side(count);
    thread_time() - start
}

/// The processor's time that this thread has had: what other programs take on a shared machine
/// is not in it.
fn thread_time() -> Duration {
    #[repr(C)]
    struct Time {
        seconds: i64,
        nanoseconds: i64,
    }
    extern "C" {
        fn clock_gettime(clock: i32, time: *mut Time) -> i32;
    }
    const CLOCK_THREAD_CPUTIME_ID: i32 = 3;
    let mut time = Time {
        seconds: 0,
        nanoseconds: 0,
    };
    let failed = unsafe { clock_gettime(CLOCK_THREAD_CPUTIME_ID, &mut time) };
    assert_eq!(failed, 0, "Linux on 64 bits has this clock");
    Duration::new(time.seconds as u64, time.nanoseconds as u32)
}
