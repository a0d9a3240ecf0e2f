//! A state that owns its words.

use std::fmt;

use crate::answer::{Answer, Refused, known};
use crate::codes::Session;
use crate::desk::Desk;
use crate::event::Event;
use crate::layout::{Words, word_count};
use crate::library;
use crate::release::check_linked;
use crate::security::{Range, Security};
use crate::time::Time;

/// The state of one trading day.
///
/// ```
/// use guvontsira::{Answer, Board, Channel, Event, OrderType, Rule, Session, Side, State};
///
/// let mut state = State::new(8, 16)?;
/// let buy = Event::Order {
///     customer: 0,
///     number: 1,
///     security: 0,
///     board: Board::Main,
///     side: Side::Buy,
///     order_type: OrderType::Limit,
///     channel: Channel::Online,
///     price: 50_00,
///     volume: 100,
/// };
/// assert_eq!(state.send(&buy), Answer::Reject(Rule::S));
///
/// let open = Event::Session { session: Session::Open };
/// assert_eq!(state.send(&open), Answer::Ok);
/// assert_eq!(state.send(&buy), Answer::Accept);
///
/// let desk = state.desk(0).expect("there are customers 0 to 7");
/// assert_eq!((desk.accepted, desk.rejected), (1, 1));
/// assert_eq!(desk.rows[0].price, 50_00);
/// # Ok::<(), guvontsira::Refused>(())
/// ```
#[derive(Clone, PartialEq, Eq)]
pub struct State {
    words: Vec<u32>,
}

impl State {
    /// A fresh state of 1 to 256 customers and 1 to 1,024 securities; other
    /// counts are refused. Every lot is 100 and the session is closed, so orders
    /// get S until a session event.
    ///
    /// # Panics
    /// If the linked library is of another release than [`VERSION`].
    ///
    /// [`VERSION`]: crate::VERSION
    pub fn new(customers: u32, securities: u32) -> Result<State, Refused> {
        check_linked();
        // For counts out of range nothing is set aside: the library refuses
        // them whatever the words.
        let mut words = vec![0; word_count(customers, securities).unwrap_or(0)];
        match known(library::make(&mut words, customers, securities)) {
            Answer::Refused(number) => Err(Refused { number }),
            _ => Ok(State { words }),
        }
    }

    /// A state of words that were kept before. Any words will do: with words
    /// that are no state's, every event is refused.
    ///
    /// # Panics
    /// As [`State::new`].
    pub fn from_words(words: Vec<u32>) -> State {
        check_linked();
        State { words }
    }

    /// All words, to be kept and handed to [`State::from_words`] later.
    pub fn words(&self) -> &[u32] {
        &self.words
    }

    /// Hands one event to the gate. A refusal changes nothing. Nothing is
    /// allocated.
    ///
    /// # Panics
    /// As [`State::handle`].
    pub fn send(&mut self, event: &Event) -> Answer {
        self.handle(event.on_stack().as_slice())
    }

    /// Hands one event to the gate, whatever its bytes. A refusal changes
    /// nothing.
    ///
    /// # Panics
    /// If the linked archive is of another release and gives an answer that
    /// this crate does not know.
    pub fn handle(&mut self, event: &[u8]) -> Answer {
        known(library::handle(&mut self.words, event))
    }

    /// Hands in events that stand one after another and gives an answer for
    /// each. An unknown kind, and an event cut short, takes all bytes that are
    /// left.
    ///
    /// ```
    /// use guvontsira::{Answer, Event, Session, State};
    ///
    /// let mut state = State::new(1, 1)?;
    /// let mut events = Vec::new();
    /// Event::Session { session: Session::Open }.append_to(&mut events);
    /// Event::Cancel { customer: 0, number: 1 }.append_to(&mut events);
    /// assert_eq!(state.run(&events), [Answer::Ok, Answer::Refused(10)]);
    /// # Ok::<(), guvontsira::Refused>(())
    /// ```
    ///
    /// # Panics
    /// As [`State::handle`].
    pub fn run(&mut self, events: &[u8]) -> Vec<Answer> {
        // Every event but the last takes two bytes or more.
        let mut numbers = vec![0; events.len().div_ceil(2)];
        let handled = library::run(&mut self.words, events, &mut numbers);
        numbers[..handled].iter().copied().map(known).collect()
    }

    /// Hands in a list of events, each by itself, whole or not, in one call.
    ///
    /// ```
    /// use guvontsira::{Answer, State};
    ///
    /// let mut state = State::new(1, 1)?;
    /// let answers = state.run_list(&[&[10u8][..], &[], &[2, 2]]);
    /// assert_eq!(answers, [Answer::Refused(3), Answer::Refused(2), Answer::Ok]);
    /// # Ok::<(), guvontsira::Refused>(())
    /// ```
    ///
    /// # Panics
    /// As [`State::handle`].
    pub fn run_list<E: AsRef<[u8]>>(&mut self, events: &[E]) -> Vec<Answer> {
        let bytes: Vec<u8> = events.iter().flat_map(AsRef::as_ref).copied().collect();
        let lengths: Vec<usize> = events.iter().map(|event| event.as_ref().len()).collect();
        let mut numbers = vec![0; events.len()];
        library::run_list(&mut self.words, &bytes, &lengths, &mut numbers);
        numbers.into_iter().map(known).collect()
    }

    /// The clock. `None` if the words are no state's.
    pub fn clock(&self) -> Option<Time> {
        let milliseconds = Words::read(&self.words)?.clock;
        Some(Time { milliseconds })
    }

    /// The session. `None` if the words are no state's.
    pub fn session(&self) -> Option<Session> {
        Words::read(&self.words).map(|words| words.session)
    }

    /// One security's terms, prices and figures. `None` if there is no such
    /// security, if the words are no state's, if its lot or a flag is outside its
    /// list, or if its old or new shares are above 65,535.
    pub fn security(&self, security: u32) -> Option<Security> {
        Security::read(Words::read(&self.words)?.security(security)?)
    }

    /// The day's range of a security on the main board. `None` if it has none: it
    /// is free or has no prior close, there is no such security, or the words are
    /// no state's or damaged there.
    ///
    /// With a base between 10/7 and 20/13 satang, which only figures can give, the
    /// floor is 0.02 and the ceiling 0.01: every limit gets C.
    ///
    /// ```
    /// use guvontsira::{Answer, Event, Range, State};
    ///
    /// let mut state = State::new(8, 16)?;
    /// assert_eq!(state.range(0), None);
    /// let setup = Event::Setup {
    ///     security: 0,
    ///     lot: 100,
    ///     free: false,
    ///     first_day: false,
    ///     prior_close: 150_00,
    ///     ipo: 0,
    /// };
    /// assert_eq!(state.send(&setup), Answer::Ok);
    /// assert_eq!(state.range(0), Some(Range { floor: 105_00, ceiling: 195_00 }));
    ///
    /// let figures = Event::Figures {
    ///     security: 0,
    ///     dividend: 0,
    ///     subscription: 10_00,
    ///     old_shares: 2,
    ///     new_shares: 3,
    /// };
    /// assert_eq!(state.send(&figures), Answer::Ok);
    /// assert_eq!(state.range(0), Some(Range { floor: 46_25, ceiling: 85_75 }));
    /// # Ok::<(), guvontsira::Refused>(())
    /// ```
    pub fn range(&self, security: u32) -> Option<Range> {
        let floor = library::floor(&self.words, security);
        let ceiling = library::ceiling(&self.words, security);
        (floor != 0).then_some(Range { floor, ceiling })
    }

    /// One customer's counters and marked rows. `None` if there is no such
    /// customer, if the words are no state's, or if a marked row has a code
    /// outside its list.
    pub fn desk(&self, customer: u32) -> Option<Desk> {
        Desk::read(Words::read(&self.words)?.desk(customer)?)
    }
}

impl fmt::Debug for State {
    fn fmt(&self, f: &mut fmt::Formatter<'_>) -> fmt::Result {
        // The words themselves are up to 91,908 numbers.
        let count = self.words.len();
        f.debug_struct("State")
            .field("word_count", &count)
            .finish_non_exhaustive()
    }
}
