//! Where the words stand in the lent state and the fields in an event's body.

pub const SECURITY_WORDS: usize = 17;
pub const COUNTERS: usize = 3;
pub const ROW_WORDS: usize = 9;
pub const DESK_WORDS: usize = COUNTERS + 32 * ROW_WORDS;

pub type Security = [u32; SECURITY_WORDS];
pub type Desk = [u32; DESK_WORDS];
pub type Row = [u32; ROW_WORDS];

// A security's words.
pub const LOT: usize = 0;
pub const FREE: usize = 1;
pub const FIRST_DAY: usize = 2;
pub const PRIOR_CLOSE: usize = 3;
pub const IPO: usize = 4;
pub const MAIN: usize = 5;
pub const FOREIGN: usize = 9;
pub const FIGURES: usize = 13;

// A board's words in it.
pub const PROJECTED: usize = 0;
pub const LAST_SALE: usize = 1;
pub const BID: usize = 2;
pub const OFFER: usize = 3;

// A row's words.
pub const MARK: usize = 0;
pub const NUMBER: usize = 1;
pub const SECURITY: usize = 2;
pub const BOARD: usize = 3;
pub const SIDE: usize = 4;
pub const TYPE: usize = 5;
pub const LIMIT_PRICE: usize = 6;
pub const VOLUME: usize = 7;
pub const CANCEL_TIME: usize = 8;

pub const OPEN: u32 = 1;
pub const CANCELLED: u32 = 2;
pub const LIMIT: u32 = 0;
pub const ATO: u32 = 1;
pub const ATC: u32 = 2;
pub const MP: u32 = 3;

/// The last millisecond of the day.
pub const LAST_TIME: u32 = 86_399_999;
pub const LAST_SESSION: u32 = 4;
pub const MAX_VOLUME: u32 = 20_000_000;

/// Lent words that do not meet condition 1.
pub struct State<'a> {
    pub clock: &'a mut u32,
    pub session: &'a mut u32,
    pub securities: &'a mut [Security],
    pub desks: &'a mut [Desk],
}

impl<'a> State<'a> {
    pub fn of(words: &'a mut [u32]) -> Option<Self> {
        let ([customers, securities, clock, session], records) = words.split_first_chunk_mut()?;
        let counts_fit = (1..=256).contains(customers) && (1..=1_024).contains(securities);
        if !counts_fit || *clock > LAST_TIME || *session > LAST_SESSION {
            return None;
        }
        let (securities, desks) =
            records.split_at_mut_checked(SECURITY_WORDS * *securities as usize)?;
        (desks.len() == DESK_WORDS * *customers as usize).then_some(State {
            clock,
            session,
            securities: securities.as_chunks_mut().0,
            desks: desks.as_chunks_mut().0,
        })
    }
}

/// A record by its name.
pub fn named<Record>(records: &mut [Record], name: u32) -> Result<&mut Record, u32> {
    records.get_mut(name as usize).ok_or(4)
}

/// Where a board's words begin.
pub fn board_start(board: u32) -> usize {
    if board == 0 { MAIN } else { FOREIGN }
}

/// Dividend, subscription, old and new shares.
pub fn figures(security: &Security) -> [u32; 4] {
    let [.., dividend, subscription, old, new] = *security;
    [dividend, subscription, old, new]
}

/// A field of two bytes.
pub fn short<const N: usize>(body: &[u8; N], at: usize) -> u32 {
    u16::from_le_bytes([body[at], body[at + 1]]).into()
}

/// A field of four bytes.
pub fn long<const N: usize>(body: &[u8; N], at: usize) -> u32 {
    u32::from_le_bytes([body[at], body[at + 1], body[at + 2], body[at + 3]])
}
