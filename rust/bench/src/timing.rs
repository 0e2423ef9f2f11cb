//! Times several contenders in turn.

use std::hint::black_box;
use std::time::{Duration, Instant};

/// Who is timed; the plane is the proved call for the plane of a sheet, `Before` an earlier build of the proved reader, and
/// `Gather` a loop in C that takes one component out of the rows. The numbers are places in arrays.
#[derive(Clone, Copy, Debug, PartialEq, Eq)]
pub enum Who {
    Memcpy,
    Proved,
    Second,
    Original,
    Plane,
    Before,
    Gather,
}

pub const ALL: [Who; 7] = [
    Who::Memcpy,
    Who::Proved,
    Who::Second,
    Who::Original,
    Who::Plane,
    Who::Before,
    Who::Gather,
];

/// What one contender does once.
type Once<'a> = Box<dyn FnMut() + 'a>;

/// The contenders in order, each with what it does.
#[derive(Default)]
pub struct Turns<'a> {
    all: Vec<(Who, Once<'a>)>,
}

/// The best seconds of each contender.
pub type Best = [Option<f64>; ALL.len()];

/// An allocation of so many bytes is no small one, and is not mapped by itself either.
const LARGE_BYTES: usize = 100 << 10;

impl<'a> Turns<'a> {
    pub fn new() -> Turns<'a> {
        Turns::default()
    }

    /// With a further contender.
    pub fn and(self, who: Who, once: impl FnMut() + 'a) -> Turns<'a> {
        self.and_if(who, Some(once))
    }

    /// The same where there is such a contender.
    pub fn and_if(mut self, who: Who, once: Option<impl FnMut() + 'a>) -> Turns<'a> {
        if let Some(once) = once {
            self.all.push((who, Box::new(once)));
        }
        self
    }

    /// Each contender once, so often in a row.
    fn round(&mut self, in_a_row: u32, batch: u32, best: &mut Best) {
        for (who, once) in &mut self.all {
            settle();
            for _ in 0..in_a_row {
                keep(&mut best[*who as usize], timed(batch, once));
            }
        }
    }
}

/// Leaves nothing of another's turn to do: malloc puts the small pieces that were released off until a large one is asked for
/// or released, and merges them then.
fn settle() {
    drop(black_box(Vec::<u8>::with_capacity(LARGE_BYTES)));
}

/// Lets all contenders take turns, `repetitions` times after a first one that does not count, each turn `batch` times
/// over; gives the best time of each.
pub fn race(repetitions: u32, batch: u32, turns: Turns) -> Best {
    race_in_a_row(1, repetitions, batch, turns)
}

/// The same, where each contender goes so often in a row: from the second time on its bytes may be in the cache.
pub fn race_in_a_row(in_a_row: u32, repetitions: u32, batch: u32, mut turns: Turns) -> Best {
    turns.round(in_a_row, batch, &mut Best::default());
    let mut best = Best::default();
    for _ in 0..repetitions {
        turns.round(in_a_row, batch, &mut best);
    }
    best
}

/// The same with one turn at a time, in which no further round begins after so much time. The first one counts too, since it
/// may be the only one.
pub fn race_within(most: Duration, repetitions: u32, mut turns: Turns) -> Best {
    let start = Instant::now();
    let mut best = Best::default();
    for _ in 0..=repetitions {
        turns.round(1, 1, &mut best);
        if start.elapsed() >= most {
            break;
        }
    }
    best
}

/// The same with one turn at a time, back and forth, and before each of them, not timed, something that leaves the cache
/// alike for all.
pub fn race_after(mut before: impl FnMut(), repetitions: u32, mut turns: Turns) -> Best {
    let mut best = Best::default();
    for repetition in 0..=repetitions {
        for (who, once) in &mut turns.all {
            settle();
            before();
            let seconds = timed(1, once);
            if repetition > 0 {
                keep(&mut best[*who as usize], seconds);
            }
        }
        turns.all.reverse();
    }
    best
}

fn keep(best: &mut Option<f64>, seconds: f64) {
    *best = Some(best.map_or(seconds, |best| best.min(seconds)));
}

fn timed(batch: u32, once: &mut dyn FnMut()) -> f64 {
    let start = Instant::now();
    for _ in 0..batch {
        once();
    }
    start.elapsed().as_secs_f64() / batch as f64
}

#[cfg(test)]
mod tests {
    use super::*;
    use std::cell::Cell;

    fn rounds(race: impl FnOnce(Turns) -> Best) -> u32 {
        let count = Cell::new(0);
        let best = race(Turns::new().and(Who::Second, || count.set(count.get() + 1)));
        let known = best.map(|seconds| seconds.is_some());
        assert_eq!(known, ALL.map(|who| who == Who::Second));
        count.get()
    }

    #[test]
    fn each_race_has_one_round_more_than_repetitions() {
        assert_eq!(rounds(|turns| race(3, 1, turns)), 4);
        assert_eq!(rounds(|turns| race_in_a_row(2, 3, 5, turns)), 40);
        assert_eq!(rounds(|turns| race_after(|| {}, 3, turns)), 4);
        let long = Duration::from_secs(60);
        assert_eq!(rounds(|turns| race_within(long, 3, turns)), 4);
    }

    #[test]
    fn a_race_that_has_no_time_has_one_round() {
        assert_eq!(rounds(|turns| race_within(Duration::ZERO, 3, turns)), 1);
    }

    #[test]
    fn who_is_left_out_has_no_time() {
        let turns = Turns::new().and_if(Who::Gather, None::<fn()>);
        assert_eq!(race(1, 1, turns), Best::default());
    }
}
