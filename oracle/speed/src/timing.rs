//! The best of many runs, in which the sides take turns; or, for `counts`, some calls of one side that another program counts.
use std::env;
use std::hint::black_box;
use std::sync::atomic::{AtomicU32, Ordering};
use std::time::{Duration, Instant};

/// What is timed: makes its call so often, and says how long that took.
pub type Side<'a> = Box<dyn FnMut(u32) -> Duration + 'a>;

pub fn side<'a, T>(mut call: impl FnMut() -> T + 'a) -> Side<'a> {
    Box::new(move |calls| {
        let start = Instant::now();
        for _ in 0..calls {
            black_box(call());
        }
        start.elapsed()
    })
}

/// Nanoseconds of one call of each side: the best of many rounds of about a millisecond each. In a round each side has
/// its turn, so that what else the machine does falls on all of them.
pub fn race<const N: usize>(mut sides: [Side; N]) -> [f64; N] {
    if let Ok(asked) = env::var("SPEED_COUNT") {
        count(&asked, &mut sides);
        return [0.0; N];
    }
    let calls = sides.each_mut().map(|side| {
        let once = side(1).max(Duration::from_nanos(20));
        (1_000_000 / once.as_nanos()).clamp(1, 100_000) as u32
    });
    best(200, calls, sides)
}

/// The race so asked for, `RACE SIDE CALLS`, is these calls of that side and no more; any other race is none.
fn count(asked: &str, sides: &mut [Side]) {
    static RACE: AtomicU32 = AtomicU32::new(0);
    let [race, side, calls] =
        [0, 1, 2].map(|i| asked.split(' ').nth(i).and_then(|word| word.parse::<u32>().ok()).expect("RACE SIDE CALLS"));
    if RACE.fetch_add(1, Ordering::Relaxed) == race {
        sides[side as usize](calls);
    }
}

/// The same of calls that take many milliseconds: the best of a few rounds of one call each.
pub fn few<const N: usize>(sides: [Side; N]) -> [f64; N] {
    best(7, [1; N], sides)
}

fn best<const N: usize>(rounds: u32, calls: [u32; N], mut sides: [Side; N]) -> [f64; N] {
    let mut best = [f64::MAX; N];
    for _ in 0..rounds {
        for (i, side) in sides.iter_mut().enumerate() {
            best[i] = best[i].min(side(calls[i]).as_nanos() as f64 / f64::from(calls[i]));
        }
    }
    best
}

/// How long one call takes that is too long for many.
pub fn once(call: impl FnOnce()) -> Duration {
    let start = Instant::now();
    call();
    start.elapsed()
}
