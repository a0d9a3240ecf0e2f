//! Nanoseconds an event, for each implementation over one list.

use std::array;
use std::time::Duration;

use crate::implementation::Implementation;
use crate::list::List;

pub fn measure(list: &List, implementations: &[Implementation], repeats: usize) -> Vec<f64> {
    let count = implementations.len();
    let mut words = vec![list.start.clone(); count];
    let medians = medians(count, repeats, |place| {
        [implementations[place].time(list, &mut words[place])]
    });
    let times = medians.into_iter();
    times
        .map(|[time]| time.as_nanos() as f64 / list.len() as f64)
        .collect()
}

/// The implementations take turns, so that what else the machine does hits all
/// of them; who is first changes, so that nothing regular hits one of them
/// alone. Each may have several times, of which each has its own median.
pub fn medians<const TIMES: usize>(
    count: usize,
    repeats: usize,
    mut time: impl FnMut(usize) -> [Duration; TIMES],
) -> Vec<[Duration; TIMES]> {
    let mut times = vec![Vec::with_capacity(repeats); count];
    for repeat in 0..repeats {
        for turn in 0..count {
            let place = (repeat + turn) % count;
            times[place].push(time(place));
        }
    }
    let nth = |times: &[[Duration; TIMES]], place: usize| {
        median(times.iter().map(|times| times[place]).collect())
    };
    times
        .iter()
        .map(|times| array::from_fn(|place| nth(times, place)))
        .collect()
}

/// Of an even number the longer of the two in the middle.
fn median(mut times: Vec<Duration>) -> Duration {
    times.sort_unstable();
    times[times.len() / 2]
}

#[cfg(test)]
mod tests {
    use super::*;

    #[test]
    fn the_time_in_the_middle() {
        let middle = |times: &[u64]| {
            let times = times.iter().map(|&time| Duration::from_nanos(time));
            median(times.collect()).as_nanos()
        };
        assert_eq!(middle(&[7]), 7);
        assert_eq!(middle(&[900, 3, 5]), 5);
        assert_eq!(middle(&[5, 3, 900, 4]), 5);
    }
}
