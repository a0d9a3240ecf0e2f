//! Makes the list of events or orders of a failed case short enough to read.

use std::time::{Duration, Instant};

/// A history of thousands of events over the largest state takes a second to
/// try once.
const LONGEST: Duration = Duration::from_secs(20);

/// A shorter list for which `fails` still holds; it holds for the given one.
pub fn shrink<T: Clone>(list: &[T], mut fails: impl FnMut(&[T]) -> bool) -> Vec<T> {
    let started = Instant::now();
    let mut kept = list.to_vec();
    let mut part = kept.len().div_ceil(2);
    while part > 0 {
        let mut start = 0;
        while start < kept.len() && started.elapsed() < LONGEST {
            let end = kept.len().min(start + part);
            let without = [&kept[..start], &kept[end..]].concat();
            if fails(&without) {
                kept = without;
            } else {
                start = end;
            }
        }
        part /= 2;
    }
    kept
}

#[cfg(test)]
mod tests {
    use super::*;

    #[test]
    fn keeps_what_is_needed() {
        let events: Vec<Vec<u8>> = (0..100).map(|byte| vec![byte]).collect();
        let needed = |events: &[Vec<u8>]| events.contains(&vec![17]) && events.contains(&vec![80]);
        assert_eq!(shrink(&events, needed), [vec![17], vec![80]]);
        assert_eq!(shrink(&events, |_| true), Vec::<Vec<u8>>::new());
    }
}
