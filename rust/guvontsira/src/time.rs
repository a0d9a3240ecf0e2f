//! Times of the day.

use std::fmt;

/// A time of the trading day. `Display` gives hours, minutes, seconds and
/// milliseconds.
///
/// ```
/// use guvontsira::{Answer, Event, State, Time};
///
/// let mut state = State::new(1, 1)?;
/// assert_eq!(state.send(&Event::Clock { time: 59_400_250 }), Answer::Ok);
/// let clock = state.clock().expect("the words are a state's");
/// assert_eq!(clock, Time { milliseconds: 59_400_250 });
/// assert_eq!(clock.to_string(), "16:30:00.250");
/// # Ok::<(), guvontsira::Refused>(())
/// ```
#[derive(Clone, Copy, Debug, PartialEq, Eq, PartialOrd, Ord, Hash)]
pub struct Time {
    /// Since midnight.
    pub milliseconds: u32,
}

impl fmt::Display for Time {
    fn fmt(&self, f: &mut fmt::Formatter<'_>) -> fmt::Result {
        let (seconds, milliseconds) = (self.milliseconds / 1_000, self.milliseconds % 1_000);
        let (minutes, second) = (seconds / 60, seconds % 60);
        let (hour, minute) = (minutes / 60, minutes % 60);
        write!(f, "{hour:02}:{minute:02}:{second:02}.{milliseconds:03}")
    }
}
