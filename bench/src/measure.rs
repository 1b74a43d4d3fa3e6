//! How long a call takes, for each side on the same input: rounds of calls, the sides in turn, the median of each side's rounds.

use crate::sides::Times;
use std::hint::black_box;
use std::time::{Duration, Instant};

/// How many rounds there are, and how long a round should take.
#[derive(Clone, Copy)]
pub struct Method {
    pub rounds: usize,
    pub round: Duration,
}

/// What is lent to every call: large enough for each measured table. All sides work in the same buffers, so that none has better ones.
pub struct Buffers {
    pub workspace: Vec<u32>,
    pub report: Vec<u32>,
    pub output: Vec<u8>,
}

/// Runs a job of one side as many times as it is told.
pub type Calls<'a> = Box<dyn FnMut(usize, &mut Buffers) + 'a>;

impl Buffers {
    /// For n 64, m 4 and e 1,024.
    pub fn for_largest() -> Self {
        let (slots, edges) = (64 * 65 * 32, 1024 * 66 * 32);
        Buffers {
            workspace: vec![0; 2 * slots],
            report: vec![0; slots],
            output: vec![0; 32 + 5 * slots + 4 * edges],
        }
    }
}

/// The result of the job goes through `black_box`; the job does the same with its inputs.
pub fn calls<'a, T>(mut job: impl FnMut(&mut Buffers) -> T + 'a) -> Calls<'a> {
    Box::new(move |count, buffers| {
        for _ in 0..count {
            black_box(job(buffers));
        }
    })
}

/// The median time of a call in nanoseconds, for each side.
pub fn side_by_side(method: Method, buffers: &mut Buffers, mut sides: [Calls; 3]) -> Times {
    let counts = sides.each_mut().map(|calls| count_in_a_round(method, buffers, calls));
    let mut times = [(); 3].map(|()| Vec::with_capacity(method.rounds));
    for _ in 0..method.rounds {
        for ((calls, count), times) in sides.iter_mut().zip(counts).zip(&mut times) {
            times.push(timed(buffers, calls, count).as_nanos() as f64 / count as f64);
        }
    }
    times.map(median)
}

/// Doubles the calls until they take a quarter of a round, then reckons how many fill it. The least of three times counts: one that was held up by
/// other work on the machine would leave too few calls. These calls also warm the caches.
fn count_in_a_round(method: Method, buffers: &mut Buffers, calls: &mut Calls) -> usize {
    let mut count = 1;
    loop {
        let times = [(); 3].map(|()| timed(buffers, calls, count));
        let time = times[0].min(times[1]).min(times[2]);
        if time * 4 >= method.round {
            let for_one = time.as_secs_f64() / count as f64;
            return ((method.round.as_secs_f64() / for_one) as usize).max(1);
        }
        count *= 2;
    }
}

fn timed(buffers: &mut Buffers, calls: &mut Calls, count: usize) -> Duration {
    let begin = Instant::now();
    calls(count, buffers);
    begin.elapsed()
}

/// The middle one, or the mean of the two in the middle.
pub fn median(mut times: Vec<f64>) -> f64 {
    times.sort_by(f64::total_cmp);
    (times[(times.len() - 1) / 2] + times[times.len() / 2]) / 2.0
}
