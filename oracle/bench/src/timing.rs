//! Times of the processor, taken in turns, so that the machine's noise meets all that is compared alike.

/// Gives the nanoseconds of one more try.
pub type Try<'a> = Box<dyn Fn() -> f64 + 'a>;

/// Rounds in which tries take turns: the time of each, round by round.
pub struct Rounds(Vec<Vec<f64>>);

impl Rounds {
    /// Each round begins with another try. One more comes before them and does not count.
    pub fn of(rounds: usize, tries: &[Try]) -> Rounds {
        let round = |number: usize| {
            let mut times = vec![0.0; tries.len()];
            for turn in 0..tries.len() {
                let which = (number + turn) % tries.len();
                times[which] = tries[which]();
            }
            times
        };
        round(0);
        Rounds((0..rounds).map(round).collect())
    }

    pub fn pooled(all: impl Iterator<Item = Rounds>) -> Rounds {
        Rounds(all.flat_map(|rounds| rounds.0).collect())
    }

    pub fn time(&self, which: usize) -> f64 {
        self.median(|times| times[which])
    }

    /// The middle one of the rounds' own ratios: a slow time of the machine spoils it less than the ratio of two times.
    pub fn ratio(&self, which: usize, to: usize) -> f64 {
        self.median(|times| times[which] / times[to])
    }

    fn median(&self, value: impl Fn(&[f64]) -> f64) -> f64 {
        let mut values: Vec<f64> = self.0.iter().map(|times| value(times)).collect();
        values.sort_by(f64::total_cmp);
        values[values.len() / 2]
    }
}

/// Nanoseconds of a call, and what it gives. Both clock readings together take some hundred of them.
pub fn timed<T>(call: impl FnOnce() -> T) -> (f64, T) {
    let start = processor_time();
    let result = call();
    (processor_time() - start, result)
}

/// Nanoseconds that this thread had the processor: unlike those that went by, they do not count what other work takes of it.
fn processor_time() -> f64 {
    #[repr(C)]
    struct Timespec {
        seconds: i64,
        nanoseconds: i64,
    }
    /// Linux's `CLOCK_THREAD_CPUTIME_ID`.
    const CLOCK: i32 = 3;
    extern "C" {
        fn clock_gettime(clock: i32, time: *mut Timespec) -> i32;
    }
    let mut time = Timespec {
        seconds: 0,
        nanoseconds: 0,
    };
    // SAFETY: the C library's function, with its own layout of a time.
    let failed = unsafe { clock_gettime(CLOCK, &mut time) };
    assert_eq!(failed, 0, "the thread's clock can be read");
    time.seconds as f64 * 1e9 + time.nanoseconds as f64
}

/// A ratio and whether it is as wanted.
pub fn verdict(ratio: f64, holds: bool) -> String {
    format!("{ratio:.2} {}", if holds { "met" } else { "missed" })
}
